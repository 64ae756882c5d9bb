#!/usr/bin/env python3
"""Counts, in the src/ of every crate at a commit, the places that an older Rattle would have written so.

    tools/places.py COMMIT [POINT..]      each point's number, its count, and its places

Each point of docs/DESIGN-PASS.md has its patterns here. A place is a line of src/.
"""
import re
import subprocess
import sys
from collections import Counter, defaultdict


def git(*words):
    return subprocess.run(("git",) + words, capture_output=True, text=True, check=True).stdout


def sources(commit):
    names = git("ls-tree", "-r", "--name-only", commit).splitlines()
    for name in names:
        if re.fullmatch(r"crates/[^/]+/src/.*\.rt", name):
            yield name, git("show", f"{commit}:{name}").splitlines()


# Lines, by point.
LINES = {
    1: [
        r"=> return (Err|None)\b",
        r"Some\((\w+)\) => Ok\(\1\)",
        r"Ok\((\w+)\) => (Some|Ok)\(\1\)",
        r"Ok\((\w+)\) => \1,",
        r"Some\((\w+)\) => \1,$",
        r"None => Err\(",
        r"Err\(_\) => (Err|None|0|255)\b",
        r"Ok\(_\) => \{\}",
        r"return Ok\((None|false|Err\(\w+\))\);",
        r"Result<Result<",
        r"^ *Nothing,$",
        r"fn (push|insert)\b.*-> bool",
        r"Option<\(",
        r"-> \(?\w*\(?usize, usize, usize\)|Result<\(\w+, \w+, \w+\)",
        r"^ *pub kind: u32|fn \w+\(kind: u32|^ *kind: usize|\((heap: Global, )?at: u32|\(first: bool|\bat: u32, words\b",
        r"fn kind_of\(|fn place\(names",
    ],
    4: [
        r"impl\b.*\b(PartialEq|Eq|PartialOrd|Ord|Clone|Copy|Debug) for\b",
        r"fn (is|is_\w*same\w*|is_sp|same|told|number|from_\w+|(inst|note)_from|read_(conv|calls|flags)|key_number|with_key_b)\((self|&self|key|modifier|n: u32|r: Refusal|words|sheet|kind|first|\*)",
        r"fn (of|code|parts|words)\((self|code: u8)\)",
    ],
    6: [
        r"^    (pub(\(crate\))? )?(count|top|len): usize,$",
        r"\[T\], (count|n): usize|^    count: usize,$",
        r"if k\.number > number",
    ],
    7: [
        r"match (k|at|kind|k [/%] \d) \{",
        r"const \w+: \[&str; \d+\]",
        r"Piece::\w+ =>|Kind::\w+ =>|Any::\w+(\(\w+\))? =>",
    ],
}


def by_lines(point, files):
    found = []
    for name, lines in files:
        for n, line in enumerate(lines, 1):
            if line.lstrip().startswith("//"):
                continue
            if any(re.search(p, line) for p in LINES[point]):
                found.append(f"{name}:{n}: {line.strip()}")
    return found


def counted(files):
    """Loops that count by hand: `while`, `v[i]` over a range, a loop with no end but `break`, a search that returns its index, a counter."""
    found = []
    for name, lines in files:
        loops = []
        for n, line in enumerate(lines, 1):
            indent = len(line) - len(line.lstrip())
            loops = [i for i in loops if indent > i or not line.strip()]
            near = " ".join(lines[n : n + 5])
            m = re.search(r"\bfor (\w+) in \(?[01]\.\.", line)
            by_index = m and re.search(rf"\[[^\]]*\b{m[1]}\b", near)
            endless = m and re.search(r"u64::MAX|len\(\) \+ 1", line)
            search = "enumerate()" in line and re.search(r"return (Some\()?\w\)?;", near)
            counter = loops and re.search(r"^ *(?!self\.)[\w.]+ (\+= 1;|= [\w.]+\.(saturating|wrapping)_add\(1\);)", line)
            if re.search(r"^ *while\b", line) or by_index or endless or search or counter:
                found.append(f"{name}:{n}: {line.strip()}")
            if re.match(r" *(for|while)\b", line):
                loops.append(indent)
    return found


def blocks(lines):
    """The bodies of functions, with their names: (name, line, text)."""
    n = 0
    while n < len(lines):
        m = re.match(r"( *)(pub(\(crate\))? )?fn (\w+)", lines[n])
        if not m:
            n += 1
            continue
        indent, start = m.group(1), n
        while n < len(lines) and lines[n].rstrip() != indent + "}" and not lines[n].rstrip().endswith(";"):
            n += 1
        yield m.group(4), start + 1, lines[start : n + 1]
        n += 1


def shape(fn, text):
    """A function without its own name, and without types, variants, constants, numbers and texts."""
    body = " ".join(l.strip() for l in text if not re.match(r" *(ensures|requires|//)", l))
    body = re.sub(r"\b(?:u8|u16|u32|u64|usize|i16|i32|i64)\b", "T", re.sub(r'"[^"]*"', "S", body))
    body = re.sub(r"\b0[xb][0-9a-fA-F_]+\b|\b\d+\b", "N", body)
    return re.sub(r"\b[A-Z]\w*\b", "T", re.sub(rf"\b{fn}\b", "f", body))


def twins(files):
    """Functions of five lines and more that differ from another only in types, numbers and texts."""
    by_shape = defaultdict(list)
    for name, lines in files:
        for fn, n, text in blocks(lines):
            if len(text) >= 5:
                by_shape[shape(fn, text)].append(f"{name}:{n}: {fn}")
    return [" = ".join(v) for v in by_shape.values() if len(v) > 1]


def together(files):
    """Clauses and pairs of parameters that stand in three or more functions of a crate.

    A writer and the allocator are passed beside everything, as the library does: they make no pair.
    """
    clauses, pairs = Counter(), Counter()
    for name, lines in files:
        crate = name.split("/")[1]
        for fn, n, text in blocks(lines):
            for line in text:
                m = re.match(r" *requires (.*)", line)
                if m:
                    clauses[crate, re.sub(r"^\w+ \{", "{", m.group(1))] += 1
            head = " ".join(l.strip() for l in text).split("{")[0].split("ensures")[0].split("requires")[0]
            names = sorted(set(re.findall(r"\b([a-z]\w*): [&A-Z\[u]", head)) - {"f", "out", "heap", "rt"})
            for i, a in enumerate(names):
                for b in names[i + 1 :]:
                    pairs[crate, f"({a}, {b})"] += 1
    found = [f"{c}: {k} in {v} contracts" for (c, k), v in clauses.items() if v >= 3]
    return found + [f"{c}: {k} in {v} functions" for (c, k), v in pairs.items() if v >= 3]


def answers(commit):
    names = git("ls-tree", "-r", "--name-only", commit).splitlines()
    found = []
    for name in names:
        if re.fullmatch(r"crates/[^/]+/proofs/.*(Answers|Proof)\.antt", name):
            count = len(re.findall(r"^pub ", git("show", f"{commit}:{name}"), re.M))
            found.append(f"{name}: {count} answers")
    return found


def main():
    commit = sys.argv[1]
    points = [int(w) for w in sys.argv[2:]] or range(1, 9)
    files = list(sources(commit))
    for point in points:
        if point == 2:
            found = twins(files)
        elif point == 3:
            found = counted(files)
        elif point == 5:
            found = together(files)
        elif point == 8:
            found = answers(commit)
        else:
            found = by_lines(point, files)
        print(f"point {point}: {len(found)} places")
        for place in found:
            print("   ", place)


main()
