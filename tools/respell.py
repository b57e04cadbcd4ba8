#!/usr/bin/env python3
"""Spells the repository's own definitions and lemmas in snake case: once, at the top, after the kit's port script.

usage: respell.py [--check] [--all-the-same] [ROOT]

A name that a text of specs/ or proofs/ declares, and that has a dash or a capital inside, gets underscores: first-found and firstFound
both become first_found. A name of the Rust source that a text spells with dashes is spelled as the source has it. A lemma that would get the
name of the function that it is about ends in _lem (LEMMAS, SPELLED). Words that a file imports from a library stay there, as do functions of
src/, strings, and names that the check itself makes of the code. Names between backticks in README.md and docs/ are turned too, and the texts
of must-fail edits.
Where a name would meet another in some file, that is told, and nothing is written; --all-the-same writes, once those places have been read.
--check writes nothing in any case.
"""
import collections
import os
import re
import sys

WORD = r'[^\s(){}.;,@"«»`]+'
QUIET = re.compile(r'"(?:[^"\\\n]|\\.)*"|(?<![^\s(){}.;,@"«»])--[^\n]*|\{-.*?-\}', re.S)
DECLARED = re.compile(
    r"(?m)^ *(?:(?:pub|abbrev|unfoldable|opaque|data|record) +)*((?:%s +)*?%s)(?: +(?:\{[^{}\n]*\}|\([^()\n]*\)))* :(?!\S)( *tie\.)?"
    % (WORD, WORD)
)
USE = re.compile(r"(?m)^\s*(?:ghost +)?use ([^\s;{]+?)\.?(?:\{([^}]*)\})?(?: as ([^\s;]+))?;?\s*$")
RUST_WORD = re.compile(r"\b[a-z]\w*_\w*\b")
# lemmas that would get the name of the function that they are about
LEMMAS = set(
    "are-fields ends-text fixed-against held-at inst-of is-line limits-by line-text lines-text list-of lives-counted move-cost next-of of-gap"
    " of-register own-gap own-tried reload-cost reserved-taken segments-taken side-from spill-weight try-on uses-in weighs-against weights-text".split()
)
# the same of lemmas that the kit's script has spelled already, with the text that declares each
SPELLED = {"is_field": "FieldLaws", "join_first": "SoundLaws", "sum_below": "JobView", "row_before": "Reading", "first_below": "LiveTotal"}


def files(root, *endings):
    for folder, dirs, names in os.walk(os.path.join(root, "crates")):
        dirs[:] = sorted(d for d in dirs if d not in ("out", "data"))
        for name in sorted(names):
            if name.endswith(endings):
                yield os.path.join(folder, name)


def read(path):
    with open(path, encoding="utf-8") as f:
        return f.read()


def snake(name):
    if re.match("[a-z]", name):
        name = re.sub(r"(?<=[a-z0-9])[A-Z]", lambda m: "_" + m[0].lower(), name)
    return re.sub(r"(?<=\w)-(?=[\w¬])", "_", name)


def turns(name):
    """A name with a dash between words, or a word of several words in camel case."""
    return snake(name) != name and not name.endswith("-spec")


def is_library(path):
    steps = path.split(".")
    if steps[0] != "Rattle":
        return steps[0] not in ("tie",)
    return len(steps) > 1 and steps[1] not in CRATES


def imported(code):
    """The words that a text imports from a library."""
    words = set()
    for path, items, alias in USE.findall(code):
        if is_library(path):
            words.update(re.findall(WORD, items))
    return words


def declared(code):
    for names, tie in DECLARED.findall(code):
        if not tie:
            yield from re.findall(WORD, names)


def table(root):
    own, rust = {}, set()
    for path in files(root, ".antt"):
        for name in declared(QUIET.sub(" ", read(path))):
            if turns(name):
                own[name] = snake(name) + ("_lem" if name in LEMMAS else "")
    for path in files(root, ".rt"):
        rust.update(RUST_WORD.findall(read(path)))
    for name in sorted(rust):
        own.setdefault(name.replace("_", "-"), name)
    return own


def turned(text, names):
    def one(m):
        # behind a dot stands a step of the code, and no lemma
        if m[0] in LEMMAS and text[m.start() - 1 : m.start()] == ".":
            return snake(m[0])
        return names.get(m[0], m[0])

    return re.sub(WORD, one, text)


def spelled_here(path, code):
    """The lemmas of SPELLED that this text declares or imports."""
    for name, module in SPELLED.items():
        if os.path.basename(path) == module + ".antt" or any(p.endswith("." + module) and name in re.findall(WORD, i) for p, i, _ in USE.findall(code)):
            yield name


def spans(text, names):
    """Prose: names between backticks alone."""
    return re.sub(r"`[^`\n]+`", lambda m: turned(m[0], names), text)


def antt(text, names):
    out, at = [], 0
    for m in QUIET.finditer(text):
        out.append(turned(text[at : m.start()], names))
        out.append(m[0] if m[0].startswith('"') else spans(m[0], names))
        at = m.end()
    return "".join(out) + turned(text[at:], names)


RUST_QUIET = re.compile(r'//[^\n]*|"(?:[^"\\]|\\.)*"')


def rt(text, names):
    out, at = [], 0
    for m in RUST_QUIET.finditer(text):
        out.append(turned(text[at : m.start()], names))
        out.append(m[0] if m[0].startswith('"') else spans(m[0], names))
        at = m.end()
    return "".join(out) + turned(text[at:], names)


def main(argv):
    global CRATES
    check = "--check" in argv
    root = ([a for a in argv if not a.startswith("--")] or ["."])[0]
    CRATES = set(os.listdir(os.path.join(root, "crates")))
    names = table(root)
    met = 0
    writes = {}
    for path in files(root, ".antt", ".rt"):
        text = read(path)
        code = (QUIET if path.endswith(".antt") else RUST_QUIET).sub(" ", text)
        stay = imported(code)
        here = {old: new for old, new in names.items() if old not in stay}
        here.update((name, name + "_lem") for name in spelled_here(path, code))
        words = set(re.findall(WORD, code))
        by = collections.defaultdict(set)
        for word in words:
            by[here.get(word, word)].add(word)
        for new, olds in sorted(by.items()):
            if len(olds) > 1:
                met += 1
                print("meets:", os.path.relpath(path, root), new, "of", " ".join(sorted(olds)))
        now = antt(text, here) if path.endswith(".antt") else rt(text, here)
        if now != text:
            writes[path] = now
    for path in files(root, ".edit"):
        text = read(path)
        now = "".join(turned(line, names) if re.match("(old|new):", line) else line for line in text.splitlines(keepends=True))
        if now != text:
            writes[path] = now
    docs = [os.path.join(root, "README.md")] + [os.path.join(root, "docs", n) for n in sorted(os.listdir(os.path.join(root, "docs"))) if n.endswith(".md")]
    for path in docs:
        text = read(path)
        now = spans(text, names)
        if now != text:
            writes[path] = now
    print(f"respell: {len(names)} names, {len(writes)} files, {met} meetings")
    if check:
        return 0
    if met and "--all-the-same" not in argv:
        return 1
    for path, text in writes.items():
        with open(path, "w", encoding="utf-8") as f:
            f.write(text)
    return 0


if __name__ == "__main__":
    raise SystemExit(main(sys.argv[1:]))
