#!/usr/bin/env python3
"""Counts the places in crates/*/src that docs/DESIGN-PASS.md speaks of, point by point, and names each.

    python3 tools/places.py [POINT..]     of the files as they stand; with no POINT all of 1 to 7
"""
import difflib
import itertools
import re
import sys
from collections import defaultdict
from pathlib import Path
from typing import Dict, Iterator, List, NamedTuple, Tuple

ROOT = Path(__file__).resolve().parent.parent / "crates"
KEYWORDS = {"if", "else", "while", "loop", "for", "in", "let", "mut", "return", "match", "as", "break", "continue", "true", "false"}
# Two bodies of so many words at least, as alike as this once names and numbers are left out, are twins.
TWIN_WORDS, TWIN_RATIO = 25, 0.95
# Parameters that as many functions have, with the same names and types, travel together.
TOGETHER = 4


class Function(NamedTuple):
    place: str
    head: str
    body: str


def sources() -> List[Tuple[str, List[str]]]:
    paths = sorted(ROOT.glob("*/src/*.rt"))
    return [(p.relative_to(ROOT).as_posix().replace("/src/", "/").replace("/lib.rt", "").replace(".rt", ""), p.read_text().split("\n")) for p in paths]


def code(lines: List[str]) -> Iterator[Tuple[int, str]]:
    return ((i, l) for i, l in enumerate(lines, 1) if not l.lstrip().startswith("//") and not l.startswith("ghost use"))


def functions() -> List[Function]:
    found = []
    for place, lines in sources():
        i = 0
        while i < len(lines):
            m = re.match(r"\s*(?:pub(?:\(crate\))? )?fn (\w+)", lines[i])
            if not m:
                i += 1
                continue
            indent = lines[i][: len(lines[i]) - len(lines[i].lstrip())]
            j = i
            while lines[j] != indent + "{" and not (lines[j].endswith("{") and not re.match(indent + "    ", lines[j])):
                j += 1
            k = next(n for n in range(j + 1, len(lines)) if lines[n] == indent + "}")
            found.append(Function(f"{place}::{m.group(1)}", " ".join(lines[i : j + 1]), "\n".join(lines[j + 1 : k])))
            i = k + 1
    return found


def blocks(kind: str) -> Iterator[Tuple[str, str, List[str]]]:
    """The structs or enums, each with its lines."""
    for place, lines in sources():
        for m in re.finditer(rf"^(?:pub )?{kind} (\w+)[^\n;(]*\{{\n(.*?)^\}}", "\n".join(lines), re.M | re.S):
            yield place, m.group(1), [l.strip() for l in m.group(2).split("\n") if l.strip() and not l.strip().startswith("//")]


def matching(pattern: str) -> List[str]:
    return [f"{place}:{i} {l.strip()}" for place, lines in sources() for i, l in code(lines) if re.search(pattern, l)]


def point1() -> Dict[str, List[str]]:
    none = r"^(No|Not|Nothing|Misplaced|Malformed|Skipped|Missing|End)\w*,$"
    enums = [f"{p}::{n}" for p, n, ls in blocks("enum") if any("(" in l for l in ls) or any(re.match(none, l) for l in ls)]
    flags = [f"{p}::{n}.{l.split(':')[0].replace('pub ', '')}" for p, n, ls in blocks("struct") if len(ls) > 1 for l in ls if l.endswith(": bool,")]
    numbers = matching(r"\b(refusal|number|fault|found|other|broken): u64\b|\bRefused\(u64|-> u64 \{?$.*refus")
    made = [f.place for f in functions() if re.search(r"-> u64", f.head) and re.search(r"(return |\{ | |=> )(\d+|OUTSIDE);?( \}|$|,)", f.body, re.M) and re.search(r"refus|fault|filled|judge|room|take_|met|first|rank", f.place)]
    kinds = matching(r"\b(kind|way|direction|asked): (u8|u64|usize)\b")
    return {"enums that carry a value or have a variant for none": enums, "flags in structs": flags, "refusals as numbers, in types and parameters": numbers, "functions that answer a refusal as a number": made, "kinds as numbers": kinds}


def words(body: str) -> List[str]:
    tokens = re.findall(r"[A-Za-z_]\w*|\d[\w_]*|\S", re.sub(r"//.*", "", body))
    return [t if t in KEYWORDS or not re.match(r"\w", t) else ("number" if t[0].isdigit() else "name") for t in tokens]


def point2() -> Dict[str, List[str]]:
    known = [(f.place, words(f.body)) for f in functions()]
    alike = []
    for (a, x), (b, y) in itertools.combinations(known, 2):
        if min(len(x), len(y)) >= TWIN_WORDS and abs(len(x) - len(y)) <= 6:
            ratio = difflib.SequenceMatcher(None, x, y, autojunk=False).ratio()
            if ratio >= TWIN_RATIO:
                alike.append(f"{a} ~ {b} {ratio:.2f}")
    return {"pairs of functions that differ in names and numbers alone": alike}


def point3() -> Dict[str, List[str]]:
    return {"while and loop": matching(r"^\s*('\w+: )?(while|loop)\b"), "for": matching(r"^\s*('\w+: )?for\b")}


def point4() -> Dict[str, List[str]]:
    return {
        "bytes as hexadecimal numbers": matching(r"\b0x[0-9A-F]{2}\b"),
        "fields copied one by one": matching(r"\b(\w+): \w+(\.\w+)*\.\1,"),
        "words and kinds turned into numbers by hand": [f.place for f in functions() if re.search(r"::(number_of|are_same|key_of|ten_to|met_by)$", f.place)],
        "derives and impls": matching(r"^#\[derive|^impl\b"),
    }


def point5() -> Dict[str, List[str]]:
    where = defaultdict(set)
    for f in functions():
        m = re.search(r"\((.*?)\)( ->| requires| ensures| \{|$)", f.head)
        named = re.findall(r"(\w+): ([^,]+)", m.group(1)) if m else []
        for pair in itertools.combinations([f"{n}: {t.strip()}" for n, t in named], 2):
            where[pair].add(f.place)
    rows = sorted(((len(v), k) for k, v in where.items() if len(v) >= TOGETHER), reverse=True)
    return {f"pairs of parameters in {TOGETHER} functions or more": [f"{n} {a}, {b}" for n, (a, b) in rows]}


def point6() -> Dict[str, List[str]]:
    held = [f"{p}::{n}" for p, n, ls in blocks("struct") if any(re.search(r": \[\w+; \w+\],", l) for l in ls) and any(l.endswith(": usize,") for l in ls)]
    return {"arrays with a length beside": held, "tables in arrays": matching(r"^(pub )?const \w+: \[")}


def point7() -> Dict[str, List[str]]:
    switched = [f.place for f in functions() if re.search(r"^    if \w+ == \d+ \{\n.*?\(.*?\n    \}\n", f.body, re.M)]
    return {"a number that says which function is called": switched}


POINTS = {"1": point1, "2": point2, "3": point3, "4": point4, "5": point5, "6": point6, "7": point7}


def main(asked: List[str]) -> None:
    for point in asked or sorted(POINTS):
        for what, places in POINTS[point]().items():
            print(f"point {point}, {what}: {len(places)}")
            for place in places:
                print(f"    {place}")


if __name__ == "__main__":
    main(sys.argv[1:])
