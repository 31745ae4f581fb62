#!/usr/bin/env python3
"""Brings the names that this repository declares to the spelling of today's Rattle, once, right after port.py.

usage: python3 tools/respell.py        at the top of the checkout

port.py spells only some of the repository's own names anew. This script turns the others: words in snake case, with a dash only between two names; types, facts,
modules and the cases of a type keep their capitals. What it writes:

  crates/*/specs, proofs   definitions and lemmas, where they are declared and where they are cited
  crates/*/src             the same names in clauses, imports and comments; no name of the code
  crates/*/must-fail       the same names, and the older spelling of clauses and operators, in edits that port.py leaves alone
  docs, README.md          the same names in backquotes

A lemma that would have the name of a definition or a function gets _lem. A name stays as it is where its new spelling is taken already.
It is kept so that the port can be held against the tree before it: run on a fresh checkout after port.py, it writes what the port began from.
"""
from __future__ import annotations

import os
import re
from typing import Iterator

CAMEL = re.compile(r"(?<![A-Za-z0-9_'])[a-z][a-z0-9]*(?:[A-Z][A-Za-z0-9]*)+(?![A-Za-z0-9])")
WORD = re.compile(r"[^\s(){}.,;:`\"\[\]@]+")
# A word, or a text in quotes, which stays as it is.
PIECE = re.compile(r"\"(?:[^\"\\\n]|\\.)*\"|" + WORD.pattern)
DECLARED = re.compile(r"^( *)((?:(?:abbrev|opaque|unfoldable|pub)\s+)*)(?:(record|data|module)\s+)?([^\s:(){},.=|]+)((?:\s+[^=:]*?)?)\s*:(?:\s|$)(.*)")
# Names that stand for themselves in std's lemmas, so that a dash may join them.
OF_STD = set("length take drop set map replicate append get_or add sub mul div mod pow le lt eq suc zero cons nil sum min max reverse".split())
# Plain words, though something may be called so.
PLAIN = set("a above all an any apart as at back before below both by each first for from go in is it last least less more most no none of off on one open or other out past same some the to turn two under up with within".split())
# A lemma with the name of a definition or a function beside it.
LEMMAS = {"by_key", "fields_in", "form_in", "held_after", "over_by", "record_of", "rows_few"}
# The module of one outcome has a name that Rattle makes itself.
MODULE = ("Contracts", "OneOutcome")
# The gate keeps the library's if .. then .. else for the library's own. This repository's choice by a test does not unfold by itself, and is called when.
CHOICE = ("if◌then◌else◌", "when◌then◌else◌")
IF = re.compile(r"(?<![\w.'◌-])if(?![\w'◌-])")
# What port.py does to the words of edits' texts, which it does not read.
OPERATORS = [(r"(?<![\w_])_([^\w\s,{}()_]+)_(?![\w_])", r"◌\1◌"), (r"\bif_then_else_", "if◌then◌else◌"), ("′", "'"), (r"Rattle·(\w+)·specs\.specs", r"Rattle.\1.specs"), (r"Rattle·(\w+)\.specs", r"Rattle.\1.specs")]


def files(ends: tuple[str, ...]) -> Iterator[str]:
    for folder, dirs, names in os.walk("crates"):
        dirs[:] = sorted(d for d in dirs if d != "out")
        for name in sorted(names):
            if name.endswith(ends):
                yield os.path.join(folder, name)


def read(path: str) -> str:
    with open(path, encoding="utf-8") as file:
        return file.read()


def write(path: str, text: str) -> None:
    with open(path, "w", encoding="utf-8") as file:
        file.write(text)


def snake(name: str) -> str:
    def turn(match: re.Match[str]) -> str:
        if match[0] == "getD":
            return "get_or"
        return re.sub(r"(?<=[a-z0-9])(?=[A-Z])", "_", match[0]).lower()

    return CAMEL.sub(turn, name)


def declared() -> tuple[set[str], set[str]]:
    """The names that antt files declare: definitions and types; and lemmas. An answer to a goal is neither."""
    definitions: set[str] = set()
    lemmas: set[str] = set()
    for path in files((".antt",)):
        fields = -1
        for line in read(path).split("\n"):
            text = re.sub(r"\s*--.*", "", line)
            if text.strip() and len(text) - len(text.lstrip()) <= fields:
                fields = -1
            match = DECLARED.match(text)
            if not match or match[4] in ("use", "let", "λ", "in", "_"):
                continue
            if match[3] == "record":
                fields = len(match[1])
                definitions.add(match[4])
            elif match[3] == "data":
                definitions.add(match[4])
            elif fields >= 0 or "tie." in match[6] or match[3]:
                continue
            elif "abbrev" in match[2] or "unfoldable" in match[2] or "opaque" in match[2]:
                definitions.add(match[4])
            else:
                lemmas.add(match[4])
    return definitions, lemmas


def of_the_code() -> set[str]:
    return {name for path in files((".rt",)) for name in re.findall(r"\b(?:fn|const|struct|enum|mod) (\w+)", read(path))}


def names() -> dict[str, str]:
    """Each name that changes, with its new spelling."""
    definitions, lemmas = declared()
    code = of_the_code()
    known = ({snake(name) for name in definitions} | code | OF_STD) - PLAIN
    taken = {word for path in files((".antt", ".rt")) for word in WORD.findall(read(path))}
    new: dict[str, str] = {}
    for name in sorted(definitions | lemmas):
        turned = snake(name)
        if turned != name:
            new[name] = turned
    spelled = {new.get(name, name) for name in taken}
    for name in sorted(lemmas - definitions):
        if "-" not in name or name.endswith("-spec") or not re.fullmatch(r"[\w'-]+", name):
            continue
        parts = new.get(name, name).split("-")
        turned = parts[0]
        for before, part in zip(parts, parts[1:]):
            is_joined = before in known and part in known or before[:1].isupper() or part[:1].isupper()
            turned += ("-" if is_joined else "_") + part
        if turned != new.get(name, name) and turned not in spelled and turned not in known | PLAIN:
            new[name] = turned
            spelled.add(turned)
    return new


def respelled(text: str, new: dict[str, str], whole: bool) -> str:
    """The text with each name turned; of a whole antt file each word in camel case too, a bound variable among them."""
    def turn(match: re.Match[str]) -> str:
        word = match[0]
        if word[0] == '"':
            return word
        if word in new and text[match.start() - 1 : match.start()] != ".":
            return new[word]
        return snake(word) if whole else word

    return PIECE.sub(turn, text)


def clause(text: str) -> str:
    """A clause of an edit in today's spelling, as port.py writes those of src/."""
    text = re.sub(r"λ r\. ⌜ (.*) ⌝", lambda m: re.sub(r"\br\b(?: \.(\w+))?", lambda n: "result" + ("." + n[1] if n[1] else ""), m[1]), text)
    text = re.sub(r"λ _\. ⌜", "⌜", text)
    text = re.sub(r"⌜ (.*) ⌝", r"\1", text)
    text = re.sub(r"now \((\w+) \.exit\)", r"\1.new", text)
    text = re.sub(r"now \((\w+) \.entry\)", r"\1.now", text)
    text = re.sub(r"now (\w+)", r"\1.now", text)
    return fields(text)


def spine(text: str, end: int) -> int:
    """Where the application begins that ends at a place: its words and its parts in parentheses, back to an operator or a parenthesis around it."""
    start = end
    while start > 0:
        at = start
        if text[at - 1] == ")":
            depth = 0
            while at > 0:
                at -= 1
                depth += (text[at] == ")") - (text[at] == "(")
                if depth == 0:
                    break
        else:
            while at > 0 and re.match(r"[\w'.\-]", text[at - 1]):
                at -= 1
        if at == start or re.fullmatch(r"λ|\.|→", text[at:start]):
            break
        start = at
        if start > 0 and text[start - 1] == " " and re.match(r"[\w')]", text[start - 2 : start - 1] or "("):
            start -= 1
        else:
            break
    return start + (len(text[start:]) - len(text[start:].lstrip()) if start < end else 0)


def fields(text: str) -> str:
    """Projections written tight, as in x.f. In the older text a projection stands behind the whole application: f x .g is (f x).g."""
    while (match := re.search(r" \.(\w+)", text)) is not None:
        begin = spine(text, match.start())
        whole = text[begin : match.start()]
        if " " in whole and not (whole.startswith("(") and whole.endswith(")") and whole.count("(") == 1):
            whole = f"({whole})"
        text = text[:begin] + whole + "." + match[1] + text[match.end() :]
    return re.sub(r"(?<=\s)\((\w+'*(?:\.\w+)+)\)", r"\1", text)


def chosen(line: str, is_antt: bool) -> str:
    """A line of a definition, a proof or a clause with the choice by a test under its own name; comments and code keep their if."""
    at = line.find("--") if is_antt else len(line)
    code, rest = (line[:at], line[at:]) if at >= 0 else (line, "")
    if is_antt or re.match(r"\s*(requires|ensures)\b", line):
        pieces = re.split(r'("(?:[^"\\]|\\.)*")', code)
        code = "".join(piece if k % 2 else IF.sub("when", piece) for k, piece in enumerate(pieces))
    return (code + rest).replace(*CHOICE)


def turn_edit(text: str, new: dict[str, str]) -> str:
    lines = []
    of_antt = False
    for line in text.split("\n"):
        if line.startswith("file: "):
            of_antt = line.endswith(".antt")
        head, sign, rest = line.partition(": ")
        if sign and head in ("old", "new"):
            for older, newer in OPERATORS:
                rest = re.sub(older, newer, rest)
            if re.match(r"\s*(ensures|requires)\b", rest):
                rest = clause(rest)
            elif of_antt:
                rest = fields(rest)
            rest = respelled(rest, new, True)
            line = head + sign + chosen(rest, of_antt)
        lines.append(line)
    return "\n".join(lines)


def main() -> None:
    old_file = "crates/sequences/specs/" + MODULE[0] + ".antt"
    if os.path.exists(old_file):
        os.rename(old_file, "crates/sequences/specs/" + MODULE[1] + ".antt")
        for path in files((".antt", ".rt")):
            text = read(path)
            moved = text.replace("sequences.specs." + MODULE[0], "sequences.specs." + MODULE[1])
            if path == "crates/sequences/specs/Lib.antt":
                moved = moved.replace("pub mod " + MODULE[0], "pub mod " + MODULE[1])
            if moved != text:
                write(path, moved)
    lemma = re.compile(r"(?<![\w.'-])(" + "|".join(sorted(LEMMAS)) + r")(?![\w'-])")
    for path in files((".antt",)):
        text = read(path)
        write(path, lemma.sub(r"\1_lem", text))
    new = names()
    for path in files((".antt", ".rt", ".edit")):
        text = read(path)
        if path.endswith(".edit"):
            turned = turn_edit(text, new)
        else:
            is_antt = path.endswith(".antt")
            turned = "\n".join(chosen(line, is_antt) for line in respelled(text, new, is_antt).split("\n"))
        if turned != text:
            write(path, turned)
    pages = ["README.md"] + [os.path.join(folder, name) for folder, _, names_in in os.walk("docs") for name in names_in if name.endswith(".md")]
    for path in pages:
        text = read(path)
        turned = re.sub(r"`[^`\n]+`", lambda match: respelled(match[0], new, False), text)
        if turned != text:
            write(path, turned)
    for name in sorted(new):
        print(name, new[name])


if __name__ == "__main__":
    main()
