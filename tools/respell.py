#!/usr/bin/env python3
"""Brings the repository's own definitions and lemmas to one spelling: words in snake case.

usage: python3 tools/respell.py [--look]        at the top of the repository, once, right after the toolchain's port.py

firstGate, tried-first  ->  first_gate, tried_first

A name is the repository's own where a file of specs/ or proofs/ declares or binds it, or a file of src/ gives it to an import. What a file imports from a library, and what
Rattle makes for a proof (the paths behind c., tie., lts., goal.), stays. Types and modules, which begin with a capital, stay; so do
strings, and in a comment every word but a name with a capital inside. In a page a name between backticks is turned. --look writes nothing and prints the names that fall together.
"""
import os
import re
import sys

WORD = r"[^\s(){}.;,@\"«»\[\]\\]+"
TOKEN = re.compile(r"--[^\n]*|//[^\n]*|b?\"(?:[^\"\\]|\\.)*\"|«[^»]*»|" + WORD + r"|\.(?=[^\s.])|.", re.S)
NAME = re.compile(r"[a-zα-ω+][A-Za-z0-9_'₀₁₂₃α-ω-]*$")
DECLARED = re.compile(r"^ *(?:(?:abbrev|unfoldable|pub|let) )*([^\s(){}:;,=|λ]+(?: [^\s(){}:;,=|λ]+)*?)(?: \{[^}\n]*\}| \([^)\n]*\))* : ", re.M)
USE = re.compile(r"^\s*(?:ghost |pub )*use ([^\s{;]+?)(?:\.\{([^}]*)\}| as (\S+))?;?$", re.M)
MADE = re.compile(r"\.proofs\.[^.]+\.(?:\S+\.)?(?:Goals|Given|Tie|Lts[^.]*|Code|Met|Reads|Statement|Kinds)$|\.\+[^.]*$|\.specs\.(?:contracts|declared)\b")
KEPT = set("let in as where module unfolding elim record open use pub abbrev unfoldable data infix infixl infixr".split())


def files(ending, parts):
    for folder, dirs, names in os.walk("crates"):
        dirs.sort()
        for name in sorted(names):
            path = os.path.join(folder, name)
            if name.endswith(ending) and path.split("/")[2] in parts:
                yield path


def read(path):
    with open(path, encoding="utf-8", newline="") as it:
        return it.read()


def snake(name):
    name = re.sub(r"(?<![A-Za-z])getD(?![A-Za-z])", "get_or", name)
    name = re.sub(r"(?<=[a-z0-9₀₁₂])([A-Z])", lambda m: "_" + m.group(1).lower(), name)
    return re.sub(r"(?<=[^-])-(?=[^-])", "_", name)


def imported(text, own):
    """The names that a file takes from a library or from what Rattle makes."""
    out = set()
    for module, names, alias in USE.findall(text):
        mine = module.startswith("Rattle.") and module.split(".")[1] in own and not MADE.search(module)
        for each in (names or "").split(","):
            parts = each.split(" as ")
            if not mine:
                out.add(parts[0].strip())
            if alias:
                out.add(alias)
    return out


def code(text):
    return "".join(" " if t.startswith(("--", "//")) else t for t in TOKEN.findall(text))


def tokens(text):
    """The words of a text: each with whether a dot stands before it."""
    before = ""
    for t in TOKEN.findall(text):
        yield t, before == "."
        before = t


def clauses(text):
    """The parts of a source that hold antt: ghost items, ghost clauses, requires and ensures. Yields (begin, end)."""
    for m in re.finditer(r"^\s*ghost use [^;]*;", text, re.M):
        yield m.span()
    for m in re.finditer(r"\b(?:requires|ensures|ghost)\*?(?: \w+:?)? \{", text):
        depth, at = 1, m.end()
        while depth:
            depth += {"{": 1, "}": -1}.get(text[at], 0)
            at += 1
        yield m.end(), at - 1


def turned(text, table, fields, kept):
    out, made = [], False
    before = ""
    for t in TOKEN.findall(text):
        if t.startswith(("--", "//")):
            t = re.sub(r"(?<![\w-])[a-z]+(?:[A-Z][a-z0-9]*)+(?![\w-])", lambda m: table.get(m.group(0), m.group(0)), t)
        elif before == ".":
            t = fields.get(t, t)
        elif t not in kept:
            t = table.get(t, t)
        out.append(t)
        before = t
    return "".join(out)


def main(look):
    own = {c for c in os.listdir("crates")}
    antt = list(files(".antt", ("specs", "proofs")))
    texts = {p: read(p) for p in antt}
    declared, library = set(), set()
    for p, text in texts.items():
        bare = code(text)
        kept = imported(text, own)
        library |= kept
        for group in DECLARED.findall(bare):
            declared.update(group.split())
        declared.update(t for t, dotted in tokens(bare) if not dotted and NAME.match(t) and t not in kept and ("-" in t or re.search("[a-z0-9][A-Z]", t)))
    names = {n for n in declared if NAME.match(n) and n not in KEPT and snake(n) != n and not n.startswith("+")}
    table = {n: snake(n) for n in names}
    # port.py turns some of the laws named after getD, and not to the name that the function has now.
    table.update((n, n.replace("get_d_", "get_or_")) for n in declared if n.startswith("get_d_"))
    # A lemma that would have its function's name gets _lem.
    words = {snake(n) for n in names if "-" not in n}
    table.update((n, snake(n) + "_lem") for n in names if "-" in n and snake(n) in words)
    table["kept_byte"] = "kept_byte_lem"
    recorded = set()
    for p, text in texts.items():
        for block in re.findall(r"(?ms)^ *(?:pub )?record .*?(?=\n\n|\Z)", code(text)):
            for group in re.findall(r"(?m)^ +pub ([^:(){}]+?) : ", block):
                recorded.update(group.split())
    for p in files(".rt", ("src",)):
        recorded.update(re.findall(r"(?:requires|ensures|ghost)\*? (\w+):? \{", read(p)))
    fields = {n: table[n] for n in recorded if n in table}
    together = 0
    for p, text in texts.items():
        kept = imported(text, own)
        there = {t for t, dotted in tokens(code(text)) if not dotted}
        by_new = {}
        for t in there:
            by_new.setdefault(t if t in kept else table.get(t, t), set()).add(t)
        for new, olds in sorted(by_new.items()):
            if len(olds) > 1:
                together += 1
                print(f"together: {p}: {', '.join(sorted(olds))}")
    changed = 0
    for p, text in texts.items():
        new = turned(text, table, fields, imported(text, own))
        if new != text:
            changed += 1
            if not look:
                with open(p, "w", encoding="utf-8", newline="") as it:
                    it.write(new)
    for p in files(".rt", ("src",)):
        text = read(p)
        kept = imported(text, own)
        given = {n: snake(n) for m in re.finditer(r"ghost use [^;]*", text) for n in re.findall(r" as ([a-z]\w*)", m.group(0)) if snake(n) != n}
        told_here = table | given
        kept -= set(given)
        brought = {t for m in re.finditer(r"ghost use [^;]*", text) for t, _ in tokens(m.group(0))}
        for hidden in sorted(set(re.findall(r"(\w+): ", text)) & {table[t] for t in brought if t in table}):
            together += 1
            print(f"together: {p}: a parameter and a word: {hidden}")
        out, at = [], 0
        for begin, end in sorted(clauses(text)):
            out += [text[at:begin], turned(text[begin:end], told_here, fields, kept)]
            at = end
        new = "".join(out) + text[at:]
        new = re.sub(r"(?m)^(\s*//.*)$", lambda m: turned(m.group(1), told_here, fields, kept), new)
        if new != text:
            changed += 1
            if not look:
                with open(p, "w", encoding="utf-8", newline="") as it:
                    it.write(new)
    told = {n for text in texts.values() for group in DECLARED.findall(code(text)) for n in group.split()} & names
    pages = [os.path.join(folder, name) for folder, _, all_names in os.walk("docs") for name in sorted(all_names)] + ["README.md"]
    for p in pages:
        if p.endswith(".md"):
            text = read(p)
            new = re.sub(r"`[^`\n]+`", lambda m: re.sub(r"(?<![\w./-])[a-z][\w-]*(?![\w/-]|\.[a-z])", lambda w: table[w.group(0)] if w.group(0) in told else w.group(0), m.group(0)), text)
            if new != text:
                changed += 1
                if not look:
                    with open(p, "w", encoding="utf-8", newline="") as it:
                        it.write(new)
    print(f"{len(names)} names, {changed} files changed, {together} places where names fall together")
    if look:
        print("\n".join(f"{n}\t{table[n]}" for n in sorted(names)))


main("--look" in sys.argv[1:])
