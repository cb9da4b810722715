#!/usr/bin/env python3
"""Spells the definitions, fields and lemmas that this repository declares as today's Rattle spells its own: whole words in snake case.

usage: spell.py [--check] [FOLDER]     the top of a checkout in which port.py ran; by default the one around this script

`storeOf` becomes `store_of`, `length-run` and `walk_done-left` become `length_run` and `walk_done_left`. What begins with a capital, a type or a module,
keeps its name, and so does all that Rust declares. A name turns where it is a whole word: in .antt files, in the clauses, `ghost use` items and comments of
.rt files, in must-fail edits, and in the code spans of pages. A bare word with a dash in a comment may be English, and stays.
Two different words of a file that would become one are told, and then nothing is written.
It was run once, after port.py; a second run writes nothing.
"""

import glob
import os
import re
import sys

WORD = r"[^\s(){}.;,@\"«»]+"
TOKEN = re.compile(WORD)
# A line that declares something: what stands before the colon, less words of the language and its own binders.
DECLARES = re.compile(rf"(?m)^ *(?:(?:abbrev|unfoldable|pub|record|data|mutual)\s+)*({WORD}(?: {WORD})*?)(?: [({{][^\n]*[)}}])* :(?=\s)")
SPAN = re.compile(r"`[^`\n]*`")
# A lemma that would get its function's name gets `_lem`.
LEMMAS = "answer-by first-no frame-length judged-formerly met-lent met-lent-done put-from round-told sheet-lent sheet-lines whole-claim writeImage-in".split()
# .. and so do two in .antt files that are in snake case already.
SNAKE_LEMMAS = {"in_order": "in_order_lem", "marked_all": "marked_all_lem"}
NOT_NAMES = {"module", "where", "let", "in", "_", "use"}


def snake(name):
    return re.sub(r"(?<=[a-z0-9])[A-Z]", lambda m: "_" + m[0].lower(), name).replace("-", "_")


def turns(name):
    """Whether a declared name has a form that is spelled anew: no capital at its head, no sign but letters, digits, dashes and primes."""
    return re.fullmatch(r"[a-z][A-Za-z0-9_'-]*", name) and snake(name) != name


def files(top, *kinds):
    found = []
    for kind in kinds:
        found += glob.glob(os.path.join(top, kind), recursive=True)
    return sorted(f for f in found if os.sep + "out" + os.sep not in f and os.sep + "target" + os.sep not in f)


def read(path):
    with open(path, encoding="utf-8") as f:
        return f.read()


def declared(top):
    """The names that .antt files declare, but for the goals of a function's proof, which Rattle names, with their new names."""
    names = set()
    for path in files(top, "crates/*/specs/**/*.antt", "crates/*/proofs/**/*.antt"):
        text = read(path)
        walk = os.path.basename(path) == "Proof.antt"
        for m in DECLARES.finditer(text):
            if walk and re.match(r"\s*tie\.", text[m.end() :]):
                continue
            names.update(n for n in m[1].split() if n not in NOT_NAMES)
    return {n: snake(n) + ("_lem" if n in LEMMAS else "") for n in names if turns(n)}


def in_code(text, table):
    return TOKEN.sub(lambda m: table.get(m[0], m[0]), text)


def in_comment(text, table):
    text = SPAN.sub(lambda m: in_code(m[0][1:-1], table).join("``"), text)
    return TOKEN.sub(lambda m: table.get(m[0], m[0]) if "-" not in m[0] else m[0], text)


def in_lines(text, table, mark):
    out = []
    for line in text.split("\n"):
        at = re.search(rf"(?<!\S){re.escape(mark)}(?!\S)", line)
        cut = at.start() if at else len(line)
        out.append(in_code(line[:cut], table) + in_comment(line[cut:], table))
    return "\n".join(out)


def in_edit(text, table):
    """The texts of an edit are lines of a source, and their heads stay."""
    out = []
    for line in text.split("\n"):
        head = re.match(r"(old|new): ?", line)
        out.append(head[0] + in_code(line[head.end():], table) if head else line)
    return "\n".join(out)


def in_page(text, table):
    return SPAN.sub(lambda m: in_code(m[0][1:-1], table).join("``"), text)


def code_words(text):
    """The words of an .antt file's code, less the paths of its `use` lines."""
    lines = [re.split(r"(?<!\S)--(?!\S)", re.sub(r"^(pub )?use [^{]*", "", line))[0] for line in text.split("\n")]
    return {w for line in lines for w in TOKEN.findall(line)}


def main():
    words = [w for w in sys.argv[1:] if w != "--check"]
    top = os.path.realpath(words[0] if words else os.path.join(os.path.dirname(os.path.realpath(__file__)), ".."))
    table = declared(top)
    in_antt = table | SNAKE_LEMMAS if table else table
    jobs = [(p, in_lines(read(p), in_antt, "--")) for p in files(top, "crates/**/*.antt")]
    together = False
    for path, _ in jobs:
        met = {}
        for word in sorted(code_words(read(path))):
            other = met.setdefault(in_antt.get(word, word), word)
            if other != word:
                together = True
                print(f"{os.path.relpath(path, top)}: {other} and {word} would both be {in_antt[word]}")
    # A function may have the name of the definition that its contract cites, a field or a constant may not: none does.
    jobs += [(p, in_lines(read(p), table, "//")) for p in files(top, "crates/**/*.rt")]
    jobs += [(p, in_edit(read(p), table)) for p in files(top, "crates/*/must-fail/*.edit")]
    jobs += [(p, in_page(read(p), table)) for p in files(top, "README.md", "docs/*.md", "rust/**/*.md")]
    changed = [(p, t) for p, t in jobs if t != read(p)]
    print(f"{len(table)} names, {len(changed)} files")
    if together or "--check" in sys.argv:
        return 1 if together else 0
    for path, text in changed:
        with open(path, "w", encoding="utf-8") as f:
            f.write(text)
    return 0


if __name__ == "__main__":
    raise SystemExit(main())
