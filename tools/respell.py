#!/usr/bin/env python3
"""Turns the repository's own words of the form wordAt to the form word_at, in definitions, laws, clauses, proofs and edits.

usage: tools/respell.py [FOLDER]      the top of the repository, if not named

It goes once over crates/*/specs, crates/*/proofs, the clauses and `ghost` lines of crates/*/src, the edits and the patches of tests/.
Functions of src/ have that form already. It tells of names that fall together, and then changes nothing.
"""
import os
import re
import sys

CAMEL = re.compile(r"(?<=[a-z0-9])([A-Z])")
DECLARED = re.compile(r"^\s*(?:abbrev |unfoldable |inline )*(?:pub )?(?:data |record )?([a-z][\w'-]*) :", re.M)
# Names by file that the rule alone would make those of a definition: a law ends in _lem, and two fields keep their dash.
NAMES = {
    "crates/handover/specs/Wrong.antt": {"takes_none": "takes-none", "says_nothing": "says-nothing"},
    "crates/handover/proofs/Wrong.antt": {"takes_none": "takes-none", "says_nothing": "says-nothing"},
    "crates/holdlist/proofs/KeepLaws.antt": {"after_next": "after_next_lem"},
    "crates/images/proofs/WrittenLaws.antt": {"number_word": "number_word_lem"},
    "crates/images/proofs/ImageLaws.antt": {"number_word": "number_word_lem"},
    "crates/operator/proofs/ActLaws.antt": {"open_by": "open_by_lem"},
    "crates/operator/proofs/OpenLaws.antt": {"open_by": "open_by_lem"},
    "crates/records/proofs/WrittenLaws.antt": {"ended_by": "ended_by_lem"},
}
# Words of the library in names of laws.
LIBRARY = {"getD": "get_or"}


def snake(word):
    return CAMEL.sub(lambda m: "_" + m.group(1), word).lower() if re.search(r"[a-z0-9][A-Z]", word) else word


def turned(text):
    """Every word of text that begins with a small letter, in snake case; what a dash joins is turned part by part."""
    def part(p):
        # a type keeps its capital wherever it stands in a name
        return p if p[:1].isupper() else LIBRARY.get(p, snake(p))

    def one(m):
        return "-".join(part(p) for p in m.group(0).split("-"))

    return re.sub(r"(?<![\w'])[a-z][\w'-]*", one, text)


def files(top):
    for where in ("crates", "tests/mutants", "tests/proved", "tests/versions"):
        for folder, dirs, names in os.walk(os.path.join(top, where)):
            dirs[:] = sorted(d for d in dirs if d != "out")
            for name in sorted(names):
                if name.endswith((".antt", ".rt", ".edit", ".patch")):
                    yield os.path.join(folder, name)


def main():
    top = sys.argv[1] if len(sys.argv) > 1 else "."
    new, bad = {}, []
    for path in files(top):
        with open(path, encoding="utf-8") as f:
            old = f.read()
        text = old
        for name, new_name in NAMES.get(os.path.relpath(path, top), {}).items():
            text = re.sub(r"(?<![\w'-])" + name + r"(?![\w'-])", new_name, text)
        text = turned(text)
        if text != old:
            new[path] = text
        if path.endswith(".antt"):
            before = DECLARED.findall(old)
            after = DECLARED.findall(text)
            if len(set(before)) != len(set(after)):
                bad.append(path + ": names fall together: " + ", ".join(sorted({n for n in after if after.count(n) > before.count(n)})))
    if bad:
        print("\n".join(bad))
        return 1
    for path, text in new.items():
        with open(path, "w", encoding="utf-8") as f:
            f.write(text)
    print(f"respell: {len(new)} files")
    return 0


if __name__ == "__main__":
    sys.exit(main())
