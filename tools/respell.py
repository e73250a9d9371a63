#!/usr/bin/env python3
"""Brings this repository's own definitions and lemmas to today's spelling: words in snake case. Run once, at the top of the
repository, after the kit's port.py:  python3 tools/respell.py

- A definition, a field or a lemma in camel case that begins with a small letter gets underscores: bigEndian, big_endian.
- Within the name of a lemma each part between dashes is turned so; a part that names a fact keeps its capital.
- A definition or a field with a dash, which joins no two names, gets an underscore: counted-char, counted_char.
- The names of the rules of RFC 3629 (UTF8-tail and the like) stay as that document has them, and zero- as it is.

Functions, types, strings and files keep their names. The lemma `bit-in`, which port.py took for a word of its own, gets its
dash back, so that it does not fall together with the definition `bitIn`."""
import glob
import re
import sys

# A declaration: indent, the mark, the name, and what follows up to the type.
DECLARED = re.compile(r"(\s*)(unfoldable |abbrev )?(pub )?(record |data )?([^\s:(){}=]+)(?: \([^:]*:| \{[^:]*:| :)")
WORD = r"[\w'′₀-₉-]"
# Where a capital in the middle of a lemma's name is that of a fact or of a changed word of the library.
FIXED = {"leS-plus": "LeS-plus", "leS-refl": "LeS-refl", "leS-trans": "LeS-trans", "tab-getD": "tab-get_or"}
# resample_down has a field `line-room`, so the definition of report gets another order of its words.
FIXED |= {"lineRoom": "room_of_line"}
FIXED |= {f"getD-{w}": f"get_or-{w}" for w in ("encrypted", "exchanged", "filled", "lines", "tab")}
TEXTS = ("crates/*/src/**/*.rt", "crates/*/specs/**/*.antt", "crates/*/proofs/**/*.antt", "crates/*/must-fail/*.edit", "docs/*.md", "README.md")


def files(*patterns):
    return sorted(p for pattern in patterns for p in glob.glob(pattern, recursive=True))


def declarations(path):
    """The names that a file declares, each with what it is: definition, field or lemma."""
    inside = None
    for line in open(path, encoding="utf8"):
        indent = len(line) - len(line.lstrip())
        if line.strip() and inside is not None and indent <= inside:
            inside = None
        m = DECLARED.match(line)
        if not m or m.group(5) in ("use", "module", "--", "|") or "◌" in m.group(5):
            continue
        yield m.group(5), "field" if inside is not None else "definition" if m.group(2) or m.group(4) else "lemma"
        if m.group(4):
            inside = indent


def snake(word):
    return re.sub(r"(?<=[a-z0-9])([A-Z])", r"_\1", word).lower() if word[:1].islower() else word


def respelled(name, kind):
    if name in FIXED:
        return FIXED[name]
    if name.startswith("UTF8-") or name.endswith("-"):
        return name
    parts = [snake(p) for p in name.split("-")]
    return ("-" if kind == "lemma" else "_").join(parts)


def table():
    to = {}
    for path in files("crates/*/specs/**/*.antt"):
        for name, kind in declarations(path):
            new = respelled(name, kind)
            if new != name:
                to[name] = new
    # A local lemma of a proof may not be in the way of a name that specs/ has.
    for path in files("crates/*/proofs/**/*.antt"):
        for name, kind in declarations(path):
            if kind == "lemma" and name not in to and respelled(name, kind) != name:
                to[name] = respelled(name, kind)
    return to


def main():
    to = table()
    taken = {}
    for name, new in sorted(to.items()):
        if new in taken:
            sys.exit(f"respell: {name} and {taken[new]} would both be {new}")
        taken[new] = name
    names = re.compile(rf"(?<!{WORD})(?:{'|'.join(sorted(map(re.escape, to), key=len, reverse=True))})(?!{WORD})")
    for path in files(*TEXTS):
        text = open(path, encoding="utf8").read()
        new = text
        if path.startswith("crates/encoder/"):
            new = re.sub(rf"(?<!{WORD})bit_in(?!{WORD})", "bit-in", new)
        new = names.sub(lambda m: to[m.group(0)], new)
        if new != text:
            open(path, "w", encoding="utf8").write(new)
    print(f"respell: {len(to)} names")


if __name__ == "__main__":
    main()
