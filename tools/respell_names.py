#!/usr/bin/env python3
"""Brings the names that this repository's own specs and proofs define to the kit's spelling.

Words, lemmas and fields get underscores (`lru-fetches` becomes `lru_fetches`), facts and records upper camel case (`Belady-least` becomes
`BeladyLeast`). It was run once, at the top of the repository, right after the kit's port.py:

    python3 tools/respell_names.py

It also gives the crate lru the name lru_cache, since the kit has a library of that name.

A name is one of ours where a line of crates/*/specs or crates/*/proofs defines it. What the checker names keeps its dashes, since those join
parts: goals, and the steps of a function. In sources only clauses and ghost lines are read, and of comments and pages what stands between
backticks.
"""
import os
import re

TOP = os.getcwd()
DEFINES = re.compile(r"^(?:(?:abbrev|unfoldable|pub|record|data)\s+)*([^\s:(){}\[\];,.]+)\s*[({:]|^\s+(?:(?:abbrev|unfoldable|pub|record|data)\s+)*([^\s:(){}\[\];,.]+)\s+:\s")
TOKEN = re.compile(r"(?<![^\s(){}\[\];,.λ⌜⌝`←])[^\s(){}\[\];,.λ⌜⌝`←]+(?![^\s(){}\[\];,.λ⌜⌝`])")
CLAUSE = re.compile(r"^\s*(ghost|requires|ensures)\b")


def files(*endings):
    for folder, below, names in os.walk(os.path.join(TOP, "crates")):
        below[:] = sorted(name for name in below if name != "out")
        for name in sorted(names):
            if name.endswith(endings):
                yield os.path.join(folder, name)


def defined(path):
    for line in open(path, encoding="utf-8"):
        found = DEFINES.match(line)
        name = found and (found.group(1) or found.group(2))
        if name and "-" in name and not name.startswith("--") and not re.search(r":\s*goal\.", line):
            yield name


def respelt(name):
    if name[0].isupper():
        return "".join(part[:1].upper() + part[1:] for part in name.split("-"))
    return name.replace("-", "_").replace("getD", "get_or")


def replaced(text, names):
    return TOKEN.sub(lambda found: names.get(found.group(0), found.group(0)), text)


def in_ticks(text, names):
    return re.sub(r"`[^`\n]+`", lambda found: replaced(found.group(0), names), text)


def in_source(text, names):
    lines, clause = [], False
    for line in text.split("\n"):
        code, mark, comment = line.partition("//")
        if CLAUSE.match(code):
            clause = True
        elif re.match(r"^\s*\{\s*$|^\s*$|^\s*(pub |fn |use |impl |struct |enum |const |let )", code):
            clause = False
        lines.append((replaced(code, names) if clause else code) + mark + in_ticks(comment, names))
        if clause and re.search(r"[;}],?\s*$", code) and code.count("{") == code.count("}"):
            clause = False
    return "\n".join(lines)


def with_crate(text, path):
    """The text with the crate lru under its new name."""
    text = text.replace("Rattle.lru.", "Rattle.lru_cache.")
    if path.endswith((".rt", ".edit")):
        return re.sub(r"(?<![\w:])lru::", "lru_cache::", text)
    if path.endswith("crates.txt"):
        return re.sub(r"(?m)^[^#\n]*$", lambda line: re.sub(r"\blru\b(?=[: \n]|$)", "lru_cache", line.group(0)), text)
    if path.endswith(".md"):
        return text.replace("crates/lru/", "crates/lru_cache/").replace("`lru::", "`lru_cache::")
    return text


def main():
    names = {}
    if os.path.isdir(os.path.join(TOP, "crates", "lru")):
        os.rename(os.path.join(TOP, "crates", "lru"), os.path.join(TOP, "crates", "lru_cache"))
    for path in files(".antt"):
        for name in defined(path):
            names[name] = respelt(name)
    pages = [os.path.join(TOP, "README.md")] + sorted(
        os.path.join(TOP, "docs", name) for name in os.listdir(os.path.join(TOP, "docs")) if name.endswith(".md") and not name.startswith("PORT"))
    for path in list(files(".antt", ".rt", ".edit")) + pages + [os.path.join(TOP, "crates.txt")]:
        with open(path, encoding="utf-8") as read:
            text = read.read()
        now = with_crate(text, path)
        if path.endswith(".antt"):
            now = replaced(now, names)
        elif path.endswith(".rt"):
            now = in_source(now, names)
        elif path.endswith(".md"):
            now = in_ticks(now, names)
        if now != text:
            with open(path, "w", encoding="utf-8") as write:
                write.write(now)


if __name__ == "__main__":
    main()
