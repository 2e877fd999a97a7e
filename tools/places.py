#!/usr/bin/env python3
"""Lists the places of the sources where an older form of the language may stand, point by point, and counts them.

    python3 tools/places.py            at the top of the repository: the counts
    python3 tools/places.py 3          the places of a point
    python3 tools/places.py 3 FOLDER   those of another checkout

What is listed is a candidate: docs/DESIGN-PASS.md says which of them are places, and what became of each.

1   an error or an absence told by something else than Result or Option: enums, errors in an Option, flags beside a value, numbers that stand
    for a kind or for none
2   twins: a function's name that several crates define, and runs of six equal lines that stand twice
3   a `while`, and a `for` over a range of numbers whose body indexes by its variable
4   written by hand: results taken apart to be put together again, types without Debug, names of variants, bytes by division, searches and
    comparisons in a loop
5   a `requires` that stands in three or more functions of a crate
6   arrays that are filled in part, fields of arrays, lengths beside them
7   a `match` on a number or a kind that says what runs
8   lines of proof, crate by crate
"""
import collections
import os
import re
import sys

CODES = re.compile(r"=> (\d+|\([A-Z_]+, \w+\)|Some\(\d+\)),?$|^\s*pub const \w+: (u64 = 0x1_0000_000|\(u64, u64\))|policy: (u8|Option<usize>|usize)|\bnumber: u64")
NONE = re.compile(r"//.*(\b0 where|\bor 0\b|\b0 before|where it is not there|where it does\b|where none is\b|or 2\^32|or n where|no number that|says that it did)|unwrap_or\(u64::MAX\)")
SHAPES = re.compile(r"\benum \w+|-> Option<Refusal>|-> Result<bool|-> \(.*\bbool\b.*\)")
BUFFER = re.compile(r"= \[[^\]]*; [^\]]*\]|^\s*(pub )?(pub\(crate\) )?\w+: \[.*; .*\],$|^\s*(pub )?(pub\(crate\) )?(len|count|length|total): (usize|u64),$")


def sources(top):
    for folder, below, names in os.walk(os.path.join(top, "crates")):
        below[:] = sorted(name for name in below if name != "out")
        for name in sorted(names):
            if name.endswith(".rt"):
                path = os.path.join(folder, name)
                yield os.path.relpath(path, top), open(path, encoding="utf-8").read().split("\n")


def crate(path):
    return path.split("/")[1]


def lines_with(top, *patterns):
    for path, lines in sources(top):
        for at, line in enumerate(lines):
            if any(pattern.search(line) for pattern in patterns):
                yield f"{path}:{at + 1}: {line.strip()}"


def block(lines, at):
    depth = 0
    for end in range(at, len(lines)):
        depth += lines[end].count("{") - lines[end].count("}")
        if depth <= 0 and "{" in "".join(lines[at:end + 1]):
            return lines[at + 1:end]
    return []


def shapes(top):
    return list(lines_with(top, SHAPES, CODES, NONE))


def twins(top):
    names, runs = collections.defaultdict(set), collections.defaultdict(set)
    for path, lines in sources(top):
        code = [(at, line.strip()) for at, line in enumerate(lines) if line.strip() and not line.strip().startswith(("//", "use ", "ghost use", "mod ", "pub mod", "pub use"))]
        for at, line in code:
            name = re.match(r"(?:pub(?:\(crate\))? )?fn (\w+)", line)
            if name and name.group(1) not in ("main", "new", "fmt", "from"):
                names[name.group(1)].add(f"{path}:{at + 1}")
        for first in range(len(code) - 5):
            run = tuple(line for _, line in code[first:first + 6])
            if sum(map(len, run)) > 90:
                runs[run].add(f"{path}:{code[first][0] + 1}")
    for name, places in sorted(names.items()):
        if len({crate(place) for place in places}) > 1:
            yield f"fn {name}: " + " ".join(sorted(places))
    seen = set()
    for run, places in runs.items():
        files = tuple(sorted({place.rsplit(":", 1)[0] for place in places}))
        if len(places) > 1 and files not in seen:
            seen.add(files)
            yield "six equal lines: " + " ".join(sorted(places))


def loops(top):
    for path, lines in sources(top):
        for at, line in enumerate(lines):
            counted = re.match(r"\s*(?:'\w+: )?for (\w+) in .*\.\.", line)
            body = "\n".join(block(lines, at)) if counted else ""
            if re.match(r"\s*while ", line) or counted and re.search(r"(\[[^\]]*|\.get\([^)]*)\b%s\b" % counted.group(1), body):
                yield f"{path}:{at + 1}: {line.strip()}"


def by_hand(top):
    for path, lines in sources(top):
        for at, line in enumerate(lines):
            word = line.strip()
            found = re.match(r"Err\((\w+)\) => (return )?Err\(", word) or re.search(r"\.is_err\(\) \{$", word) or re.search(r"-> &'static str$", word)
            found = found or re.search(r"[/%] ?(256|65536|16777216)\b|\b(256|65536|16777216) \*", word) and not word.startswith("//")
            if re.match(r"(pub(\(crate\))? )?(struct|enum) ", word):
                found = "Debug" not in (lines[at - 1] if at else "")
            if re.match(r"(?:'\w+: )?(for|while) ", word):
                found = any(re.match(r"\s*return (true|false|i|Some\(i\)|\*page|Some\(.*\));$", inner) for inner in block(lines, at))
            if found:
                yield f"{path}:{at + 1}: {word}"


def facts(top):
    count = collections.Counter()
    for path, lines in sources(top):
        for line in lines:
            fact = re.match(r"\s*requires \w* ?\{ (.*) \}$", line)
            if fact:
                count[(crate(path), re.sub(r"\b(self|row|hits|cache|seen|before|index|buf|trace|next)\.(now|old)\b", r"\1", fact.group(1)))] += 1
    for (name, fact), times in sorted(count.items()):
        if times > 2:
            yield f"{name}: {times} x {fact}"


def steps(top):
    return list(lines_with(top, re.compile(r"\bmatch .*(kind|policy|number|program|option)\b.*\{$")))


def proofs(top):
    total = collections.Counter()
    for folder, below, names in os.walk(os.path.join(top, "crates")):
        below[:] = [name for name in below if name != "out"]
        if "/proofs" in folder:
            for name in names:
                total[folder[len(top):].strip("/").split("/")[1]] += len(open(os.path.join(folder, name), encoding="utf-8").read().split("\n")) - 1
    return [f"{name}: {count}" for name, count in sorted(total.items())] + [f"in all: {sum(total.values())}"]


POINTS = [shapes, twins, loops, by_hand, facts, lambda top: list(lines_with(top, BUFFER)), steps, proofs]


def main():
    top = os.path.abspath(sys.argv[2] if len(sys.argv) > 2 else ".")
    if len(sys.argv) > 1:
        print("\n".join(POINTS[int(sys.argv[1]) - 1](top)))
        return
    for number, point in enumerate(POINTS, 1):
        found = list(point(top))
        print(f"{number}: {found[-1] if point is proofs else len(found)}")


main()
