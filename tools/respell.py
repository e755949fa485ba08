#!/usr/bin/env python3
"""Spells the repository's own words as Rattle spells them now: run once, at the top, right after the kit's port.py.

A definition or lemma is in snake case, and one that is a type or a fact is in upper camel case. What the checker names itself (goals,
invariants, measures) and what the library names is left alone, and so is text in comments, but for names between backticks.

    python3 tools/respell.py          writes the files
    python3 tools/respell.py --list   only lists old and new names, and names that would fall together
"""

import os
import re
import sys

TOKEN = re.compile(r"[^\W\d][\w'ℕℤ]*(?:-[\w'ℕℤ]+)*")
SIGNATURE = re.compile(
    r"^(?P<indent> *)(?P<words>(?:(?:unfoldable|abbrev|pub|data|record) )*)(?P<name>[^\W\d][\w'ℕℤ]*(?:-[\w'ℕℤ]+)*)(?P<args>(?: [({][^:]*:[^)}]*[)}])*) *:(?= |$)(?P<type>.*)$"
)
MADE = re.compile(r"^(?:invariant|decreases|ghost)-")

# Words that need another spelling than the rule gives: the rule's word is there already, for something else.
BY_HAND = {"behind": "IsBehind"}


def files(root):
    for folder, dirs, names in os.walk(os.path.join(root, "crates")):
        dirs[:] = sorted(d for d in dirs if d not in ("out", "data"))
        for name in sorted(names):
            if name.endswith((".antt", ".rt")):
                yield os.path.join(folder, name)


def signatures(text):
    """The name, the type and the words before the name of each definition of a file."""
    lines = text.split("\n")
    for i, line in enumerate(lines):
        m = SIGNATURE.match(line)
        if not m or line.lstrip().startswith(("--", "use ")):
            continue
        indent, kind, k = len(m["indent"]), m["type"], i + 1
        while k < len(lines) and lines[k].strip() and len(lines[k]) - len(lines[k].lstrip()) > indent and not SIGNATURE.match(lines[k]):
            kind += " " + lines[k].strip()
            k += 1
        yield m["name"], kind.split(" where")[0].strip(), m["words"]


def camel(name):
    return "".join(part[:1].upper() + part[1:] for part in re.split("[-_]", name))


def spelled(name, kind, words):
    if name in BY_HAND:
        return BY_HAND[name]
    if "data" in words or "record" in words or re.search(r"(^|→ )Type 0$", kind):
        return camel(name)
    return name.replace("-", "_")


def new_names(root):
    found = {}
    for path in files(root):
        if not path.endswith(".antt"):
            continue
        with open(path, encoding="utf-8") as f:
            text = f.read()
        for name, kind, words in signatures(text):
            if MADE.match(name) or kind.startswith("goal."):
                continue
            found.setdefault(name, {}).setdefault(spelled(name, kind, words), []).append(path)
    return found


def respell_code(text, names):
    return TOKEN.sub(lambda m: names.get(m[0], m[0]), text)


def respell(text, names, comment):
    """Turns the names in code, and between backticks in comments."""
    lines = []
    for line in text.split("\n"):
        at = re.search(r"(^|\s)" + re.escape(comment) + r"( |$)", line)
        code, rest = (line[: at.start()], line[at.start() :]) if at else (line, "")
        rest = re.sub(r"`[^`]*`", lambda m: respell_code(m[0], names), rest)
        lines.append(respell_code(code, names) + rest)
    return "\n".join(lines)


def imported(text, crates):
    """What a file imports from elsewhere, under the library's own names."""
    found = set()
    for path, inside in re.findall(r"use ([\w.+]+)\.\{([^}]*)\}", text):
        if not any(path.startswith(f"Rattle.{crate}.") for crate in crates):
            found.update(word.split(" as ")[0].strip() for word in inside.split(","))
    return found


def ghost_only(text, names):
    """A source file: only its `ghost` lines and what stands between the braces of a clause."""
    lines = []
    for line in text.split("\n"):
        bare = line.strip()
        if bare.startswith(("ghost ", "requires", "ensures")):
            line = respell_code(line, names)
        elif bare.startswith("//"):
            line = re.sub(r"`[^`]*`", lambda m: respell_code(m[0], names), line)
        lines.append(line)
    return "\n".join(lines)


def main(argv):
    found = new_names(".")
    names, bad = {}, []
    for old, news in sorted(found.items()):
        if len(news) > 1:
            bad.append(f"{old}: {', '.join(sorted(news))}")
        new = sorted(news)[0]
        if new != old:
            names[old] = new
    taken = set(found) - set(names)
    for old, new in names.items():
        if new in taken:
            bad.append(f"{old} would be {new}, which there is")
    for new in sorted(set(names.values())):
        olds = [o for o in names if names[o] == new]
        if len(olds) > 1:
            bad.append(f"{' and '.join(olds)} would both be {new}")
    for line in bad:
        print("look: " + line)
    if argv == ["--list"]:
        for old in sorted(names):
            print(f"{old} -> {names[old]}")
        return 0
    crates = os.listdir("crates")
    for path in files("."):
        with open(path, encoding="utf-8") as f:
            text = f.read()
        here = {old: new for old, new in names.items() if old not in imported(text, crates)}
        new = respell(text, here, "--") if path.endswith(".antt") else ghost_only(text, here)
        if new != text:
            with open(path, "w", encoding="utf-8") as f:
                f.write(new)
    return 0


if __name__ == "__main__":
    raise SystemExit(main(sys.argv[1:]))
