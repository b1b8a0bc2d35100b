#!/usr/bin/env python3
"""Respells the repository's own definitions and lemmas in snake case, once, after the kit's port.py has run.

    tools/respell.py [FOLDER]        the top of a checkout; default: this one

tools/respelled.tsv has a row for each name: the spelling that port.py left, a tab, the new one; a third column, where there is one,
names the only files in which the row holds. Of a definition and a lemma whose names would fall together, the lemma gets `_lem`.
What turns: each word of the .antt files; in .rt files the words of clauses and of `ghost use` lines, and in comments those with a
dash or a capital; in must-fail edits and in code spans of README and docs/ those with a dash or a capital.
"""
import pathlib
import re
import sys

HERE = pathlib.Path(__file__).resolve().parent
WORD = re.compile(r'[^\s(){}.;,@"«»`]+')
GHOST_USE = re.compile(r"ghost\s+use\b[^;]*;")
CLAUSE = re.compile(r"\b(?:requires|ensures)\b\*?\s*(?:\w+\s*)?\{")
SPAN = re.compile(r"`[^`\n]+`")


def rows():
    everywhere, inside = {}, {}
    for line in (HERE / "respelled.tsv").read_text().splitlines():
        old, new, *files = line.split("\t")
        if files:
            for name in files[0].split():
                inside.setdefault(name, {})[old] = new
        else:
            everywhere[old] = new
    return everywhere, inside


def turn(text, table, behind_dot=None):
    """Words of the table; behind a dot only those of behind_dot, where it is given."""

    def one(m):
        word = m.group(0)
        if word not in table:
            return word
        if behind_dot is not None and m.start() and text[m.start() - 1] == "." and word not in behind_dot:
            return word
        return table[word]

    return WORD.sub(one, text)


def clauses(text):
    """The spans of clauses and `ghost use` items in Rattle source."""
    spans = [m.span() for m in GHOST_USE.finditer(text)]
    for m in CLAUSE.finditer(text):
        depth, at = 1, m.end()
        while depth:
            depth += {"{": 1, "}": -1}.get(text[at], 0)
            at += 1
        spans.append((m.end(), at))
    return sorted(spans)


def turn_rt(text, table, marked):
    out, last = [], 0
    comment = re.compile(r"//[^\n]*")
    for begin, end in clauses(text):
        out.append(comment.sub(lambda m: turn(m.group(0), marked), text[last:begin]))
        out.append(turn(text[begin:end], table))
        last = end
    out.append(comment.sub(lambda m: turn(m.group(0), marked), text[last:]))
    return "".join(out)


def main():
    root = pathlib.Path(sys.argv[1] if len(sys.argv) > 1 else HERE.parent).resolve()
    if (root / "docs" / "PORT.md").exists():
        sys.exit(f"{root} is respelled already")
    everywhere, inside = rows()
    marked = {k: v for k, v in everywhere.items() if "-" in k or re.search("[A-Z]", k)}
    files = [p for p in sorted(root.glob("crates/*/**/*")) if p.is_file() and "out" not in p.relative_to(root).parts]
    files += [root / "README.md"] + sorted((root / "docs").glob("*.md"))
    for path in files:
        name = str(path.relative_to(root))
        table = {**everywhere, **inside.get(name, {})}
        old = path.read_text()
        if path.suffix == ".antt":
            # what a proof file has behind a dot may be a step that is named after a function
            new = turn(old, table, marked if path.name == "Proof.antt" else None)
        elif path.suffix == ".rt":
            new = turn_rt(old, table, marked)
        elif path.suffix == ".edit":
            new = turn(old, marked)
        elif path.suffix == ".md":
            new = SPAN.sub(lambda m: turn(m.group(0), marked), old)
        else:
            continue
        if new != old:
            path.write_text(new)


main()
