#!/usr/bin/env python3
"""Spells the repository's own names as today's Rattle does; runs once, at the top, right after port.py.

Definitions, lemmas, fields and variables of clauses, specs/ and proofs/ go from camelBack to snake_case, in the must-fail edits, the
twins and the documents too. The crates bytes and uuid, which now have the names of libraries, become bytes_base and uuid_value.
The definition `result` of state_readers becomes `result_answer`, since `result` is what a function returns in today's clauses; the
clauses that port.py left with a λ for that reason lose it. Functions of src/, exported names, strings, inputs and outputs keep their
names.
"""

import os
import re
import subprocess
import sys

WORD = re.compile(r"(?<![\w'])[A-Za-z_][\w₀-₉']*")
CAMEL = re.compile(r"[a-z][\w₀-₉']*$")
CRATES = {"bytes": "bytes_base", "uuid": "uuid_value"}
# lemmas that port.py left with the names that definitions get here
LEMMAS = ("goes_on", "no_result", "of_num", "word_fits")
TEXTS = (".antt", ".rt", ".edit")


def snake(word):
    return re.sub(r"(?<=[a-z0-9])([A-Z])", lambda m: "_" + m.group(1), word).lower()


def files(*roots):
    for root in roots:
        if os.path.isfile(root):
            yield root
        for folder, dirs, names in os.walk(root):
            dirs[:] = sorted(d for d in dirs if d not in ("out", ".git", "target"))
            for name in sorted(names):
                yield os.path.join(folder, name)


def read(path):
    with open(path, encoding="utf-8") as f:
        return f.read()


def write(path, text):
    with open(path, "w", encoding="utf-8") as f:
        f.write(text)


def camels():
    found = set()
    for path in files("crates"):
        if path.endswith(".antt"):
            for word in WORD.findall(read(path)):
                if CAMEL.match(word) and re.search("[A-Z]", word):
                    found.add(word)
    return {word: snake(word) for word in found}


def respelled(text, table):
    return WORD.sub(lambda m: table.get(m.group(0), m.group(0)), text)


def lemmas(text):
    for name in LEMMAS:
        text = re.sub(r"(?<![\w.'-])" + name + r"(?![\w'-])", name + "_lem", text)
    return text


def crate_names(path, text):
    for old, new in CRATES.items():
        text = text.replace(f"Rattle.{old}.", f"Rattle.{new}.")
        if path.endswith((".rt", ".edit")):
            text = re.sub(rf"(?<![\w:]){old}::", f"{new}::", text)
    return text


# `result` in the files that have it from the readers' definitions
READERS = re.compile(r"Readers\.\{[^}]*\bresult\b")
RESULT = re.compile(r"(?<![\w.'-])result(?![\w']|-(?!refus|told)| =)")
ABOUT = re.compile(r"(?<![\w.'-])result-(refused|told|refusal)(?![\w'-])")
STARRED = re.compile(r"ensures\*( \w+)? \{ λ (\w+)\. ⌜ (.*?) ⌝ \}", re.S)


def plain_clause(m):
    name, bound, fact = m.group(1) or "", m.group(2), m.group(3)
    if bound != "_":
        fact = re.sub(r"(?<![\w.'«-])" + bound + r"(?![\w'»-])", "result", fact)
    return f"ensures{name} {{ {fact} }}"


def readers(path, text):
    if READERS.search(text) or path == "crates/state_readers/specs/Readers.antt":
        code = lambda line: line if line.lstrip().startswith("--") else RESULT.sub("result_answer", line)
        if path.endswith(".antt"):
            text = "\n".join(code(line) for line in text.split("\n"))
        else:
            text = READERS.sub(lambda m: re.sub(r"\bresult\b", "result_answer", m.group(0)), text)
            text = re.sub(r"(≡ |\()result \(", r"\1result_answer (", text)
    text = ABOUT.sub(r"result_answer-\1", text)
    return STARRED.sub(plain_clause, text) if path.endswith(".rt") else text


def main():
    table = camels()
    for path in list(files("crates", "tests/edits", "tests/twins")):
        if not path.endswith(TEXTS):
            continue
        was = read(path)
        text = lemmas(was) if path.endswith(".antt") else was
        text = readers(path, crate_names(path, respelled(text, table)))
        if text != was:
            write(path, text)
    pages = ["README.md", "CONTRIBUTING.md"] + [p for p in files("docs") if p.endswith(".md") and not p.startswith("docs/src")]
    for path in pages:
        was = read(path)
        text = respelled(was, table)
        for old, new in CRATES.items():
            for top in ("crates", "tests/edits", "tests/twins"):
                text = text.replace(f"{top}/{old}/", f"{top}/{new}/")
            text = re.sub(rf"(?<![\w/.]){old}/(specs|proofs|src|must-fail)/", rf"{new}/\1/", text)
        if text != was:
            write(path, text)
    lines = []
    for line in read("crates.txt").split("\n"):
        if not line.startswith("#"):
            line = re.sub(r"\w+", lambda m: CRATES.get(m.group(0), m.group(0)), line)
        lines.append(line)
    write("crates.txt", "\n".join(lines))
    for old, new in CRATES.items():
        for top in ("crates", "tests/edits", "tests/twins"):
            if os.path.isdir(f"{top}/{old}"):
                subprocess.run(["git", "mv", f"{top}/{old}", f"{top}/{new}"], check=True)
    print(f"respell: {len(table)} words")


if __name__ == "__main__":
    sys.exit(main())
