/* A text whose reading fails behind its last byte.
 *
 *   hangup COMMAND [ARG..] <TEXT
 *
 * COMMAND is started with a terminal's outer side as its standard input. The text was written on the inner side, which
 * is closed: so reads give the text, and the next one fails. The text has to fit into a page. Exits 125 where that
 * cannot be made. */
#define _GNU_SOURCE
#include <errno.h>
#include <fcntl.h>
#include <stdio.h>
#include <stdlib.h>
#include <string.h>
#include <termios.h>
#include <unistd.h>

enum { PAGE = 4096 };

static int must(int answer, const char *what)
{
    if (answer < 0) {
        fprintf(stderr, "hangup: %s: %s\n", what, strerror(errno));
        exit(125);
    }
    return answer;
}

static int open_outer(void)
{
    int outer = must(posix_openpt(O_RDWR | O_NOCTTY), "terminal");
    must(grantpt(outer), "terminal");
    must(unlockpt(outer), "terminal");
    return outer;
}

/* As it is: a terminal would put a byte 13 before each byte 10. */
static int open_inner(int outer)
{
    struct termios modes;
    int inner = must(open(ptsname(outer), O_RDWR | O_NOCTTY), "terminal");
    must(tcgetattr(inner, &modes), "terminal");
    cfmakeraw(&modes);
    must(tcsetattr(inner, TCSANOW, &modes), "terminal");
    return inner;
}

int main(int argc, char **argv)
{
    char text[PAGE];
    if (argc < 2) {
        fputs("usage: hangup COMMAND [ARG..] <TEXT\n", stderr);
        return 125;
    }
    size_t count = fread(text, 1, sizeof text, stdin);
    int outer = open_outer(), inner = open_inner(outer);
    if (write(inner, text, count) != (ssize_t)count) {
        fputs("hangup: the terminal did not take the text\n", stderr);
        return 125;
    }
    close(inner);
    must(dup2(outer, STDIN_FILENO), "terminal");
    execvp(argv[1], argv + 1);
    return must(-1, argv[1]);
}
