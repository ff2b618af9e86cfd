#!/usr/bin/env python3
"""Brings the repository's own definitions and lemmas to one spelling: words in snake case, as 'lastName' to 'last_name' and 'accepted-back' to 'accepted_back'.

usage: respell.py [FOLDER]     in FOLDER (default: here) rewrites crates/*/{specs,proofs,src,must-fail} by the table respell.tsv beside this script,
                               renames the crate 'bytes', whose name a library of the toolchain has, to 'lent_bytes',
                               and calls the library's AllByRecursion by its own name where a file brought it in as All, which the library has too

A row of the table is: old name, a tab, new name; where a third column stands, the row holds only in files whose path begins so.
Whole words alone turn. In a .rt file only clauses and comments have such names, so a string stays; in comments only camel case turns, since a name with a dash may be plain words there.
Run it once, on files of the old spelling: a new name may be the old one of another.
"""

import os
import re
import sys

WORD = re.compile(r"[^\s(){}\[\].;,@\"«»λ`]+")
CRATE = ("bytes", "lent_bytes")
ALIAS = "AllByRecursion as All"
QUOTED = re.compile(r'"(?:[^"\\\n]|\\.)*"')


def table():
    general, special = {}, []
    here = os.path.dirname(os.path.realpath(__file__))
    with open(os.path.join(here, "respell.tsv"), encoding="utf-8") as rows:
        for row in rows:
            cells = row.rstrip("\n").split("\t")
            if len(cells) == 2:
                general[cells[0]] = cells[1]
            elif len(cells) == 3:
                special.append(cells)
    return general, special


def rename_crate(root):
    """The folder and the crate list; paths to it in the files turn with the other names."""
    old, new = (os.path.join(root, "crates", name) for name in CRATE)
    if os.path.isdir(old):
        os.rename(old, new)
    with open(os.path.join(root, "crates.txt"), encoding="utf-8") as f:
        text = f.read()
    lines = [line if line.startswith("#") else re.sub(r"\b%s\b" % CRATE[0], CRATE[1], line) for line in text.split("\n")]
    with open(os.path.join(root, "crates.txt"), "w", encoding="utf-8") as f:
        f.write("\n".join(lines))


def with_crate(text):
    text = re.sub(r"\bRattle\.%s\." % CRATE[0], "Rattle.%s." % CRATE[1], text)
    return re.sub(r"(?<![\w:])%s::" % CRATE[0], CRATE[1] + "::", text)


def without_alias(text, mark):
    """AllByRecursion by its own name, in a file that brought it in as All."""
    if not mark or ALIAS not in text:
        return text
    lines = []
    for line in text.replace(ALIAS, ALIAS.split()[0]).split("\n"):
        cut = comment_at(line, mark)
        lines.append(WORD.sub(lambda w: ALIAS.split()[0] if w.group() == "All" else w.group(), line[:cut]) + line[cut:])
    return "\n".join(lines)


def comment_at(line, mark):
    """Where a line's comment begins, or its length."""
    found = re.search(r"(?:^|\s)" + re.escape(mark), line)
    return found.start() if found else len(line)


def turned(text, names, mark):
    plain = {old: new for old, new in names.items() if "-" not in old}
    lines = []
    for line in text.split("\n"):
        cut = comment_at(line, mark) if mark else len(line)
        code, comment = line[:cut], line[cut:]
        parts, last = [], 0
        for quoted in QUOTED.finditer(code):
            parts.append(WORD.sub(lambda w: names.get(w.group(), w.group()), code[last : quoted.start()]))
            parts.append(quoted.group())
            last = quoted.end()
        parts.append(WORD.sub(lambda w: names.get(w.group(), w.group()), code[last:]))
        parts.append(WORD.sub(lambda w: plain.get(w.group(), w.group()), comment))
        lines.append("".join(parts))
    return "\n".join(lines)


def main(argv):
    root = argv[0] if argv else "."
    general, special = table()
    changed = 0
    rename_crate(root)
    for folder, dirs, files in os.walk(os.path.join(root, "crates")):
        dirs[:] = sorted(d for d in dirs if d != "out")
        for name in sorted(files):
            path = os.path.join(folder, name)
            kind = os.path.splitext(name)[1]
            if kind not in (".antt", ".rt", ".edit"):
                continue
            with open(path, encoding="utf-8") as f:
                text = f.read()
            names = dict(general)
            for old, new, where in special:
                if os.path.relpath(path, root).startswith(where):
                    names[old] = new
            mark = {".antt": "--", ".rt": "//", ".edit": None}[kind]
            new_text = without_alias(with_crate(turned(text, names, mark)), mark)
            if new_text != text:
                with open(path, "w", encoding="utf-8") as f:
                    f.write(new_text)
                changed += 1
    print(f"respell: {changed} files")


if __name__ == "__main__":
    main(sys.argv[1:])
