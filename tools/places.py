#!/usr/bin/env python3
"""Places to look at in crates/*/src, point by point: python3 tools/places.py [FOLDER] [POINT]

It reads the .rt files below FOLDER (this repository by default) as text and prints each place as file:line. Points:
1 enums, flags and numbers for cases · 2 functions that are alike · 3 loops over an index · 4 conversions and comparisons by hand
5 facts in three contracts or more · 6 arrays and counts in types · 7 functions as values, and mains · 8 answers and lines of proofs"""
import difflib
import pathlib
import re
import sys

ROOT = pathlib.Path(sys.argv[1] if len(sys.argv) > 1 else pathlib.Path(__file__).parent.parent)
ONLY = sys.argv[2] if len(sys.argv) > 2 else ""


def files(pattern):
    return [f for f in sorted(ROOT.glob(pattern)) if "out" not in f.relative_to(ROOT).parts]


SOURCES = {f.relative_to(ROOT): f.read_text().split("\n") for f in files("crates/*/src/**/*.rt")}


def code(line):
    return line.split("//")[0]


def lines(pattern):
    for name, text in SOURCES.items():
        for number, line in enumerate(text, 1):
            if re.search(pattern, code(line)):
                yield f"{name}:{number}", line.strip()


def functions():
    """Each function with a body: where it stands, its name, and the tokens of its body."""
    for name, text in SOURCES.items():
        for number, line in enumerate(text):
            found = re.match(r"\s*(?:pub(?:\(crate\))? )?fn (\w+)", code(line))
            if not found:
                continue
            indent = re.match(r"\s*", line).group()
            end = number
            while not re.search(r"[{;]$|\{\}$", text[end]):
                end += 1
            if text[end].endswith(";"):
                continue
            while not text[end].endswith("{}") and text[end] != indent + "}":
                end += 1
            body = [code(x) for x in text[number : end + 1] if not re.match(r"\s*(requires|ensures)", x)]
            tokens = re.findall(r"\w+|[^\w\s]", "\n".join(body))
            yield f"{name}:{number + 1}", found.group(1), tokens


def shape(tokens):
    words = {"fn", "let", "match", "for", "in", "if", "else", "return", "Ok", "Err", "Some", "None", "self", "mut", "while", "pub", "crate"}
    return [t if not re.match(r"\w", t) or t in words else ("1" if t[0].isdigit() else "x") for t in tokens]


def alike():
    every = [(at, name, tokens, shape(tokens)) for at, name, tokens in functions() if len(tokens) > 40]
    for i, (at, name, tokens, form) in enumerate(every):
        for other in every[i + 1 :]:
            if min(len(tokens), len(other[2])) * 2 < max(len(tokens), len(other[2])):
                continue
            same = difflib.SequenceMatcher(None, form, other[3], False).ratio()
            words = difflib.SequenceMatcher(None, tokens, other[2], False).ratio()
            if same > 0.8 and words > 0.55:
                yield at, f"{name} ~ {other[1]} at {other[0]}"


def one_choice():
    """Functions that are one `match` or `if` over an argument, and comparisons by `matches!`."""
    for at, name, tokens in functions():
        text = " ".join(tokens)
        body = text[text.find("{") + 1 :].strip()
        if re.match(r"(match (\* )?\w+( \. \w+)? \{|if \w+ (==|= =))", body) and len(tokens) < 90:
            yield at, name
    yield from lines(r"matches!|256 \* |-> &'static str")


def facts():
    """What three `requires` or more say, with a form, a row and a place in it under one name each."""
    said = {}
    for at, line in lines(r"^\s*requires"):
        for part in re.split(r"×", re.search(r"\{(.*)\}", line).group(1)):
            part = re.sub(r"[()]", " ", part)
            part = re.sub(r"form_of +(self|form)(\.now)?", "form_of F", part)
            part = re.sub(r"\b(way|at) \+", "at +", part)
            said.setdefault(" ".join(part.split()), []).append(at)
    for fact, places in said.items():
        if len(places) > 2:
            for at in places:
                yield at, fact


def proofs():
    for crate in sorted(ROOT.glob("crates/*")):
        texts = [f.read_text() for f in files(f"crates/{crate.name}/proofs/**/*.antt")]
        answers = sum(len(re.findall(r"^pub \S+ : goal\.", t, re.M)) for t in texts)
        yield f"crates/{crate.name}/proofs", f"{answers} answers, {sum(t.count(chr(10)) for t in texts)} lines"


POINTS = {
    "1": lambda: [*lines(r"\benum \w+"), *lines(r": bool,|Result<bool|=> \(0, 0\)"), *lines(r"^\s*0 =>|> 1 |<= RECORD")],
    "2": lambda: list(alike()),
    "3": lambda: [*lines(r"\bfor [a-z]\w* in [^{]*\.\."), *lines(r"\bwhile\b(?! let)"), *lines(r"\+= 1;|(\w+) = \1\.saturating_add")],
    "4": lambda: list(one_choice()),
    "5": lambda: list(facts()),
    "6": lambda: [*lines(r"^\s*(pub(\(crate\))? )?\w+: \[.*; *\w+\],|\{ count: usize"), *lines(r"^\s*(pub(\(crate\))? )?(count|start|end|len): usize")],
    "7": lambda: [*lines(r"\bdyn\b|\bFn(Once|Mut)?\(|: fn\("), *lines(r"fn (main|run)\(")],
    "8": lambda: list(proofs()),
}

for point, places in POINTS.items():
    if ONLY in ("", point):
        found = sorted(set(places()))
        print(f"{point}: {len(found)}")
        for at, what in found:
            print(f"  {at}  {what}")
