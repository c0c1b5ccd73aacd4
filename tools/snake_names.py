#!/usr/bin/env python3
"""Brings the repository's own definitions and lemmas to snake case, once, after port.py: a word that begins in lower case and has a
capital letter inside (cellCount, orElse-none) gets an underscore there (cell_count, or_else-none). Types and modules keep their names.

usage: python3 tools/snake_names.py [--anyway]        at the top of the repository

It reads and writes crates/*/{src,specs,proofs,must-fail}. Texts in quotes and byte literals stay as they are: they are inputs and outputs.
A lemma whose name a definition would get is first told apart from it (LEMMAS): it gets the ending -is. It writes nothing where two names
would still fall together in one file, but with --anyway (one old proof, crates/clauses/proofs/clause/take_words, had an alias of such a name).
"""

import os
import re
import sys

TOKEN = re.compile(r"[A-Za-z_][\w'\u2080-\u2089-]*")
TEXT = re.compile(r"""b?"(?:\\.|[^"\\])*"|\bb'(?:\\.|[^'\\])'""")
# Words that are other people's: the library's, C's and the command's, and what documents spell as their own text has it.
KEEP = {"rustfmt", "noReturn"}
# The lemmas that would have a definition's name, with the crates in whose proofs they stand.
LEMMAS = {
    "after_line": ["theory"],
    "cut_line": ["theory", "uniting", "sheet_merging", "naming", "renumbered_cases", "theorems", "importing", "sheet_text", "cases", "problem", "columns"],
    "entries_fit": ["importing"],
    "all_set": ["replies"],
    "all_codes": ["stream"],
    "is_digit": ["solver"],
    "is_one": ["interpretation"],
    "laid_out": ["solver"],
    "line_ok": ["sheet_merging", "uniting"],
    "no_symbol": ["problem"],
    "read_table": ["theory"],
    "some_result": ["theory"],
    "term_words": ["theory", "tptp", "sheet_merging", "truth"],
    "read_back": ["naming", "theory"],
}


def is_camel(part):
    return re.match(r"[a-z]", part) and re.search(r"[a-z0-9'][A-Z]", part)


def turned(token):
    if token in KEEP:
        return token
    parts = token.split("-")
    turn = lambda p: re.sub(r"(?<=[a-z0-9'])([A-Z])", lambda m: "_" + m[1].lower(), p)
    return "-".join(turn(p) if is_camel(p) else p for p in parts)


def outside_texts(text, turn):
    """The text with each token outside quotes turned by turn(token, what stands before it)."""
    out, at = [], 0
    for quoted in [*TEXT.finditer(text), None]:
        end = quoted.start() if quoted else len(text)
        part = text[at:end]
        out.append(TOKEN.sub(lambda m: turn(m[0], part[: m.start()]), part))
        if quoted:
            out.append(quoted[0])
            at = quoted.end()
    return "".join(out)


def lemma_turn(crate):
    mine = {name for name, crates in LEMMAS.items() if crate in crates}
    return lambda token, before: token + "-is" if token in mine and not before.endswith((".", "::")) else token


def files(root):
    for crate in sorted(os.listdir(os.path.join(root, "crates"))):
        for part in ("src", "specs", "proofs", "must-fail"):
            for folder, _, names in os.walk(os.path.join(root, "crates", crate, part)):
                for name in sorted(names):
                    if name.endswith((".rt", ".antt", ".edit")):
                        yield crate, os.path.join(folder, name)


def main(root):
    wrote, bad = {}, []
    for crate, path in files(root):
        with open(path, encoding="utf-8") as f:
            text = f.read()
        new = text
        if path.endswith(".antt"):
            if "/proofs/" in path:
                new = outside_texts(new, lemma_turn(crate))
            bare = lambda t: {m[0] for m in TOKEN.finditer(re.sub(r"(?m)--.*|\.[\w+'-]+|\b\w+ = |[\w'-]+\u2192[\w'-]+|\bas \w+", "", TEXT.sub('""', t)))}
            names = bare(new)
            bad += [(path, t) for t in names if turned(t) != t and turned(t) in names]
        if path.endswith(".edit"):
            # the quotes of a must-fail edit's Rattle text are texts too
            new = "\n".join(outside_texts(l, lambda t, _: turned(t)) if l.startswith(("old:", "new:")) else l for l in new.split("\n"))
        else:
            new = outside_texts(new, lambda t, _: turned(t))
        if new != text:
            wrote[path] = new
    for path, name in bad:
        print(f"falls together: {path}: {name} and {turned(name)}")
    if bad and "--anyway" not in sys.argv:
        print("nothing was written; --anyway writes, and the files named above want an alias by hand")
        return 1
    for path, new in wrote.items():
        with open(path, "w", encoding="utf-8") as f:
            f.write(new)
    print(f"{len(wrote)} files")
    return 0


if __name__ == "__main__":
    raise SystemExit(main("."))
