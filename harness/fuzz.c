/* The target of the fuzzer: the call of each string (encoded.h) to the library and to the simulator. The simulator alone
 * is built for the fuzzer to see its branches. A difference ends the process, as memory beyond a buffer does.
 */
#include "encoded.h"

#include <stdio.h>
#include <stdlib.h>

int LLVMFuzzerTestOneInput(const uint8_t *string, size_t bytes);

int LLVMFuzzerTestOneInput(const uint8_t *string, size_t bytes)
{
    static twice t;
    if (t.lent[0].before == NULL)
        twice_take_memory(&t);
    if (!encoded_make(&t, string, bytes, 1)) {
        fprintf(stderr, "fuzz: %s\n", t.difference);
        twice_show(&t);
        abort();
    }
    return 0;
}
