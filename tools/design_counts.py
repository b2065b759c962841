#!/usr/bin/env python3
"""Counts, in crates/*/src of the checkout in the current folder, the places of the points of docs/DESIGN-PASS.md.
With a number, as in tools/design_counts.py 3, it prints that point's places too."""
import glob
import re
import sys
from collections import defaultdict


def sources():
    for path in sorted(glob.glob("crates/*/src/**/*.rt", recursive=True)):
        with open(path, encoding="utf-8") as file:
            lines = file.read().split("\n")
        code = [re.sub(r"//.*", "", line) for line in lines]
        yield path, code


def functions(code):
    """(name, parameters, body) of each function."""
    text = "\n".join(code)
    for m in re.finditer(r"\bfn (\w+)(?:<[^(]*>)?\(", text):
        depth, i = 1, m.end()
        while depth:
            depth += {"(": 1, ")": -1}.get(text[i], 0)
            i += 1
        parameters = text[m.end() : i - 1]
        j = re.compile(r"^\s*\{|\{$", re.M).search(text, i)
        k = text.find("\n{", i)
        start = k + 1 if k >= 0 and (not j or k <= j.start() + 1) else (j.end() - 1 if j else i)
        depth, e = 0, start
        while e < len(text):
            depth += {"{": 1, "}": -1}.get(text[e], 0)
            e += 1
            if depth == 0:
                break
        yield m.group(1), parameters, text[start:e]


def enums(code):
    text = "\n".join(code)
    for m in re.finditer(r"\benum (\w+) \{(.*?)^\}", text, re.S | re.M):
        cases = re.findall(r"^    (\w+)", m.group(2), re.M)
        yield m.group(1), cases


EMPTY = {"Refused", "None", "Fault", "Missing", "Done"}


def point1():
    for path, code in sources():
        for name, cases in enums(code):
            if len(cases) <= 3 and EMPTY & set(cases):
                yield path, f"enum {name}: {', '.join(cases)}"
        for i, line in enumerate(code):
            if re.match(r"\s+(pub |pub\(crate\) )?\w+: bool,?$", line):
                yield path, f"flag {line.strip()}"
        with open(path, encoding="utf-8") as file:
            for line in file:
                if re.search(r"//.*(there is none|none of them|where none|where all are|no root\b.*\+ 1|for none|otherwise the number)", line):
                    yield path, "sentinel " + line.strip()[:100]
            file.seek(0)
        for name, parameters, body in functions(code):
            if re.search(r"\b(kind|operation|letter): u(8|32)", parameters):
                yield path, f"number for a kind: {name}"


def shape(parameters, body):
    text = parameters + body
    text = re.sub(r"\b(u8|u16|u32|u64|i32|i64|usize|b'.')\b", "T", text)
    text = re.sub(r"\b\d+(T|u8|u32|u64|i32|i64|usize)?\b", "N", text)
    names = {}
    text = re.sub(r"\b[a-z_]\w*\b", lambda m: names.setdefault(m.group(), f"v{len(names)}"), text)
    return re.sub(r"\s+", "", text)


def point2():
    seen = defaultdict(list)
    for path, code in sources():
        for name, parameters, body in functions(code):
            if len(body) > 40:
                seen[shape(parameters, body)].append((path, name))
        text = "\n".join(code)
        for m in re.finditer(r"\bstruct (\w+) \{(.*?)^\}", text, re.S | re.M):
            seen["struct" + re.sub(r"\s|pub(\(crate\))?", "", m.group(2))].append((path, m.group(1)))
    for places in seen.values():
        for path, name in places[1:]:
            yield path, f"{name} like {places[0][1]} of {places[0][0]}"


def point3():
    for path, code in sources():
        for i, line in enumerate(code):
            if re.search(r"\bwhile\b", line) and not re.search(r"while let", line):
                yield path, f"{i + 1}: {line.strip()}"


def point4():
    for path, code in sources():
        text = "\n".join(code)
        for name, parameters, body in functions(code):
            if re.search(r"_answer$|^(smaller|answer_number|refused)$", name):
                yield path, f"conversion {name}"
        for m in re.finditer(r"if (\w+) < (\w+) \{ \1 \} else \{ \2 \}", text):
            yield path, f"least of two: {m.group()}"
        for m in re.finditer(r"#\[derive\(Clone, Copy\)\]\n(pub(?:\(crate\))? )?enum (\w+)", text):
            yield path, f"enum with no equality: {m.group(2)}"


GROUPS = [
    ("p", "n", "m"), ("residues", "levels"), ("codes", "p", "n"), ("over", "node"), ("row", "c"), ("g", "len"), ("f", "c"), ("out", "k"),
    ("a", "t"),
]


def point5():
    groups = defaultdict(list)
    for path, code in sources():
        for name, parameters, body in functions(code):
            names = re.findall(r"(?:^|,)\s*(?:mut )?(\w+):", parameters)
            for group in GROUPS:
                if set(group) <= set(names):
                    groups[group].append((path, f"{', '.join(group)}: {name}"))
    for places in groups.values():
        if len(places) >= 3:
            yield from places


def point6():
    for path, code in sources():
        for name, parameters, body in functions(code):
            flat = " ".join(parameters.split())
            if re.search(r"\[\w+; \w+\], (c|k|len|count|row): usize", flat):
                yield path, f"array and length: {name}"
            if re.search(r"sort|bisect|first_not_below|insertion", name):
                yield path, f"by hand: {name}"
        text = "\n".join(code)
        for m in re.finditer(r"struct (\w+) \{([^}]*\[[^}]*)\}", text):
            if re.search(r"\b(k|count|classes|number): \w+", m.group(2)):
                yield path, f"struct of array and length: {m.group(1)}"


def point7():
    for path, code in sources():
        for name, parameters, body in functions(code):
            if re.search(r"match (kind|operation|number / \d+)", body):
                yield path, f"switch: {name}"


def point8():
    for path in sorted(glob.glob("crates/*/proofs/**/Answers.antt", recursive=True)):
        with open(path, encoding="utf-8") as file:
            text = file.read()
        n = len(re.findall(r"^pub (?:loop|returns|overflow|index|[\w+]+-requires)[\w+-]* :", text, re.M))
        yield path, f"{n} answers, {text.count(chr(10))} lines"


POINTS = [point1, point2, point3, point4, point5, point6, point7, point8]

if __name__ == "__main__":
    for number, point in enumerate(POINTS, 1):
        places = list(point())
        print(f"point {number}: {len(places)}")
        if len(sys.argv) > 1 and sys.argv[1] == str(number):
            for path, what in places:
                print(f"    {path}: {what}")
