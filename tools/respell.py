#!/usr/bin/env python3
"""Brings the repository's own names to the spelling of today's Rattle, once, after port.py.

usage: tools/respell.py        at the top of the repository

- Definitions, lemmas, fields and constructors of antt in snake case: `stateOf` becomes `state_of`. Dashes, which join the
  parts of a lemma's name, types and modules stay, and so do functions of src/, strings and C names.
- A module of specs/ is no longer called `Contracts`, which Rattle takes for its own: it is `Promises`.
- `result` is a word of clauses: the client's definition of that name is `read_of`.
- The clauses that port.py left with a lambda lose it.
Must-fail edits and the pages of the repository get the same names.
"""
import os
import re
import sys

WORD = re.compile(r"[A-Za-z_\u25cc][\w\u25cc]*'*")
STRING = re.compile(r'b?"(?:\\.|[^"\\])*"')
# names that would fall together with another name of their file
OTHER = {
    "crates/refinement/proofs/Actions.antt": {"own_turn": "own_turn-quiet"},
    "crates/commit/proofs/Turns.antt": {"row_count": "row_count-lookup"},
}
KEEP = {"xHH"}
# each word that was turned, with what it became
TURNED = {}


def snake(word):
    if word in KEEP or not re.match(r"[a-z_]+[a-z0-9_]*[A-Z]", word):
        return word
    word = re.sub(r"([a-z0-9])([A-Z])", r"\1_\2", word)
    word = re.sub(r"([A-Z])([A-Z][a-z])", r"\1_\2", word)
    return word.lower()


def words(text):
    """The text with each word in snake case, strings left as they are."""
    out, at = [], 0
    for s in STRING.finditer(text):
        out += [WORD.sub(lambda m: spelt(m[0]), text[at:s.start()]), s[0]]
        at = s.end()
    return "".join(out) + WORD.sub(lambda m: spelt(m[0]), text[at:])


def spelt(word):
    """The word in snake case, noted for the pages."""
    new = snake(word)
    if new != word:
        TURNED[word] = new
    return new


def respell(path, text):
    crate = path.split(os.sep)[1]
    if path.endswith(".antt") and crate == "client" or path.endswith(".rt") and crate in ("client", "ffi"):
        text = re.sub(r"(?<![.\w'-])result(?= [rxanw0-9(])(?!\.)", "read_of", text)
        text = re.sub(r"(\.\{[^{}]*?)(?<![\w'-])result(?![\w'-])", r"\1read_of", text)
        text = re.sub(r"(?m)^(abbrev pub )result( :)", r"\1read_of\2", text)
        text = re.sub(r"(?m)^(unfolding .*)\bresult\b", r"\1read_of", text)
    for old, new in OTHER.get(path, {}).items():
        text = re.sub(rf"(?<![.\w'-]){old}(?![\w'-])", new, text)
    lines = []
    for line in text.split("\n"):
        if path.endswith(".edit") and line == "file: specs/Contracts.antt":
            line = "file: specs/Promises.antt"
        if path.endswith(".edit") and not line.startswith(("#", "old:", "new:")):
            lines.append(line)
            continue
        lines.append(words(line))
    text = "\n".join(lines)
    text = re.sub(r"(?<![\w'-])(specs\.)Contracts(?![\w'-])", r"\1Promises", text)
    if path.endswith("specs/Lib.antt"):
        text = re.sub(r"(?m)^((?:pub )?mod )Contracts$", r"\1Promises", text)
    if path.endswith(".rt"):
        text = re.sub(r"(ensures)\* \{ \u03bb (\w+)\. \u231c(.*?)\u231d \}", bare, text, flags=re.S)
    return text


def bare(m):
    name, body = m[2], m[3].strip()
    body = re.sub(rf"(?<![.\w'-]){name}(?![\w'-])", "result", body)
    return f"{m[1]} {{ {body} }}"


def main():
    for folder, dirs, files in os.walk("crates"):
        dirs[:] = sorted(d for d in dirs if d != "out")
        for f in sorted(files):
            if not f.endswith((".rt", ".antt", ".edit")):
                continue
            path = os.path.join(folder, f)
            with open(path, encoding="utf-8") as it:
                old = it.read()
            new = respell(path, old)
            to = path
            if f == "Contracts.antt" and folder.endswith("specs"):
                to = os.path.join(folder, "Promises.antt")
                os.rename(path, to)
            if new != old:
                with open(to, "w", encoding="utf-8") as it:
                    it.write(new)
    pages = ["README.md"] + sorted(os.path.join("docs", f) for f in os.listdir("docs") if f.endswith(".md") and f != "PORT.md")
    for page in pages:
        with open(page, encoding="utf-8") as it:
            old = it.read()
        new = WORD.sub(lambda m: TURNED.get(m[0], m[0]), old)
        new = new.replace("specs/Contracts.antt", "specs/Promises.antt")
        if new != old:
            with open(page, "w", encoding="utf-8") as it:
                it.write(new)
    print(f"respelt: {len(TURNED)} words")


if __name__ == "__main__":
    sys.exit(main())
