#!/usr/bin/env python3
"""Judges the must-fail edits of a repository, by what `rt ci` said of them.

    edits.py ROOT LOG        LOG: what `rt ci` wrote

Prints one line `FILE: WHY` for each fault, and nothing where there is none.

An edit is there to show that a fact fails when a rule is broken. The form that is asked of its file:

    # rule: the rule that the edit breaks
    # input: an input on which it shows
    # right: what the rule gives on it
    # wrong: what the edited text gives on it
    file: specs/Name.antt
    old: ...
    new: ...

`rt` passes over every line that is none of the last three. Here each other line starts with '#' or is
empty, so that a misspelt word is not passed over in silence.

Of each edit `rt ci` prints a line, with the first error, of which it shows 160 characters. That decides whether a fact
failed. It did where it is not proved what a function promises or needs, where a tactic found no proof, and where two types
differ that state facts. It did not where a text cannot be read, a name is not in scope, a definition has a wrong type, a
proof only names what the edit took away, or a limit ended the try. Whatever is of no known kind counts as no failed fact.
"""
import os
import re
import sys

WORDS = ("rule", "input", "right", "wrong")
PLACES = ("src/", "specs/")


# ---- the form of an edit


def lines_of(path):
    with open(path, encoding="utf-8", errors="replace") as f:
        return f.read().split("\n")


def form_faults(lines):
    for word in WORDS:
        if not any(re.match(rf"#\s*{word}:\s*\S", line) for line in lines):
            yield f"it has no comment line '# {word}: TEXT'"
    for line in lines:
        if line.startswith("file: "):
            name = line[len("file: "):]
            if not name.startswith(PLACES) or ".." in name.split("/"):
                yield f"it edits {name}, and only files of src/ and specs/ are to be edited"
        elif line.strip() and not line.startswith(("old: ", "new:", "#")):
            yield f"a line is neither 'file: ', 'old: ', 'new: ' nor a '#' comment: {line}"


# ---- what the edit changed


def texts_of(crate, lines):
    """The files that an edit changes, by name: their lines before and after it, which keep their numbers."""
    old, name, texts = "", "", {}
    for line in lines:
        if line.startswith("file: "):
            name = line[len("file: "):].strip()
        elif line.startswith("old: "):
            old = line[len("old: "):]
        elif line.startswith("new:") and os.path.isfile(os.path.join(crate, name)):
            before, after = texts.get(name) or ["\n".join(lines_of(os.path.join(crate, name)))] * 2
            texts[name] = before, after.replace(old, re.sub(r"\Anew: ?", "", line))
    return {name: tuple(text.split("\n") for text in pair) for name, pair in texts.items()}


def is_changed(texts, name, number, declaration):
    """Whether the edit wrote this line, or a clause of this declaration."""
    before, after = texts.get(name, ([], []))
    changed = {n for n, (a, b) in enumerate(zip(before, after), 1) if a != b}
    clause = re.compile(rf"\s*{re.escape(declaration)}\s(?!\s*:)")
    return number in changed or any(clause.match(after[n - 1]) for n in changed)


# ---- what the prover said of it

SAID = re.compile(r"rt: must-fail ([^\s/]+)/(\S+)\.edit: (.*)")
REFUSED = re.compile(r"refused, as it must be(?: \(only (because a proof file|by a limit)[^)]*\))?(?:: (.*))?$")
UNMADE = re.compile(r"note: (\./)?\S+:\d+:\d+: it is not proved that ")
ERROR = re.compile(r"(?:\./)?(?P<file>\S+?):(?P<line>\d+):\d+: error: (?P<text>.*)$")
IN_A_DECLARATION = re.compile(r"`(?P<name>[^`]+)`: (?P<said>.*)$")
NO_SUCH_NAME = re.compile(r"that can be named from here|` is not in scope|has no field|has no `|is no name")
A_TACTIC = re.compile(r"`(rw|simp|search|grw|cc|omega|grind|subst)`: |give a proof of that as the last argument, `(simp|rw|grw) L t`")
DIFFER = re.compile(r"(as printed|computed as far as they go), the two (types|sides) (first )?(differ|are)\b")
ENDS_DIFFER = re.compile(r"but the extension \(path\) type requires")
EXPECTED = re.compile(r"expected type `([^`]*)")    # maybe cut off
FOUND = re.compile(r"this has type `([^`]*)`")    # one that is cut off is not judged


def plain(name):
    """A type without its modules and its implicit arguments."""
    return re.sub(r"\{[^{}]*\}", "", re.sub(r"[^\s(){}]+\.(?=[^\s.])", "", name)).strip()


def is_data(name):
    """True of a type that is made of the names of types alone, as `ℕ` or `List Bool → ℕ`: it states no fact."""
    words = re.findall(r"[^\s()]+", plain(name))
    return not {"Empty", "Path", "◌≡◌"} & set(words) and all(re.match(r"[A-Zℕℤ→×]|\d+$", w) for w in words)


def mismatch_fault(said):
    """Of two types that differ: why no fact failed, or None."""
    if DIFFER.search(said):
        return None
    expected, found = EXPECTED.search(said), FOUND.search(said)
    if not expected:
        return "of no kind that shows a failed fact"
    if plain(expected[1]) == "Unit":
        return "what is to be proved holds trivially, and the proof only does not fit it"
    if is_data(expected[1]) or (found and is_data(found[1]) and plain(found[1]) != "Unit"):
        return "a plain type error"
    return None


def error_fault(said, texts):
    """Why the first error shows no failed fact, or None."""
    if UNMADE.match(said):
        return None
    error = ERROR.match(said)
    if not error:
        return "of no kind that shows a failed fact"
    if NO_SUCH_NAME.search(error["text"]):
        return "a name is not there, so the text or the proof only does not fit"
    inside = IN_A_DECLARATION.match(error["text"])
    if not inside:
        return "the text cannot be read"
    if error["file"].startswith("src/"):
        return "a clause of src/ is not well formed"
    if is_changed(texts, error["file"], int(error["line"]), inside["name"]):
        return "the edited text itself is not well formed"
    if A_TACTIC.match(inside["said"]) or ENDS_DIFFER.search(inside["said"]):
        return None
    return mismatch_fault(inside["said"])


def said_fault(said, texts):
    """Why what `rt ci` said of an edit shows no failed fact, or None. (It counts those that are not refused or not tried itself.)"""
    if said is None:
        return "it was not tried: rt ci has no line of it"
    if said.startswith("BAD EDIT: "):
        return f"it is a bad edit, which shows nothing: {said[len('BAD EDIT: '):]}"
    if said.startswith(("NOT REFUSED", "NOT TRIED")):
        return None
    refused = REFUSED.match(said)
    if not refused:
        return f"rt ci says what is of no known kind of it: {said}"
    if refused[1] == "by a limit":
        why = "a limit ended the try"
    elif refused[1]:
        why = "a proof file only names what the edit took away"
    elif not refused[2]:
        why = "its line names no failed fact"
    else:
        why = error_fault(refused[2], texts)
    return why and f"it shows no failed fact: {why}; first error: {refused[2] or 'none'}"


# ---- all of them


def main(root, log):
    crates = os.path.join(root, "crates")
    said = {m.group(1, 2): m[3] for m in map(SAID.match, lines_of(log)) if m}
    for name in sorted(os.listdir(crates)):
        crate = os.path.join(crates, name)
        folder = os.path.join(crate, "must-fail")
        for where, _, files in os.walk(folder):
            for file in sorted(files):
                edit = os.path.join(where, file)
                label, kind = os.path.splitext(file)
                if kind != ".edit" or where != folder or file.startswith("."):
                    faults = ["it is no must-fail/NAME.edit, so nothing tries it"]
                else:
                    lines = lines_of(edit)
                    faults = [*form_faults(lines), said_fault(said.get((name, label)), texts_of(crate, lines))]
                for why in filter(None, faults):
                    print(f"{os.path.relpath(edit, root)}: {why}")


main(*sys.argv[1:])
