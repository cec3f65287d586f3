#!/usr/bin/env python3
"""Brings the names of this repository's own definitions, lemmas, fields and local variables to snake case.

usage: python3 tools/snake_names.py [--dry]      at the top of the repository, once, after port.py

In proof files, specifications and contracts a name of several words is written with `_`. Answers and invariants are
left. A name that a file takes from the library, or from a module that Rattle makes (`Goals`, `Tie`, ..), keeps its
spelling, and so does the name of a field that Rattle makes. In a comment, a name is turned where it stands in backticks
or is a declared name of three or more words; in a page, where it stands in backticks. Lists every name that would fall
together with another one, and then writes nothing.
"""

import os
import re
import sys

MADE = re.compile(r"\.proofs\..*\.(Goals|Given|Statement|Tie|Lts)$")
TOKEN = re.compile(r"[^\s(){}\[\];,.λ@\"`|]+")
USE = re.compile(r"^\s*(?:unfoldable )?(?:pub )?(?:ghost )?use ([^\s{]+?)(?:\.\{([^}]*)\}| as .*)?;?\s*$")
DECLARED = re.compile(
    r"^\s*(?:(?:abbrev|unfoldable|pub|private|opaque|law) )*([^\s(){}:.,;=λ]+)(?: \{[^}]*\})? :(?=\s|$)"
)
NAMED = re.compile(r"^\s*(?:pub )?(?:data|record) ([^\s(){}:]+)")
FIELD_VALUE = re.compile(r"[{;]\s*([^\s(){}:.,;=λ]+) =(?=\s)")
OWN_WORDS = {"getD": "get_or"}
# Parameters of one law each, beside fields of that name in another file.
PARAMETERS = {"false-side", "true-side"}


def files(root, ends):
    for folder, dirs, names in os.walk(os.path.join(root, "crates")):
        dirs[:] = sorted(d for d in dirs if d != "out")
        for name in sorted(names):
            if name.endswith(ends) and name not in ("Answers.antt", "Invariants.antt"):
                yield os.path.join(folder, name)


def snake(name):
    return "_".join(OWN_WORDS.get(w, w) for w in name.split("-"))


def is_dashed(token):
    return "-" in token and re.fullmatch(r"[A-Za-z0-9_'′ℕℤ¬]+(-[A-Za-z0-9_'′ℕℤ]+)+", token) and re.match(r"[A-Za-z]", token)


def split_comment(line, mark):
    """The code of a line and its comment."""
    at = line.find(mark) if line.lstrip().startswith(mark) else -1
    if at < 0:
        m = re.search(r"(?<=\s)" + re.escape(mark) + r"(?=\s|$)", line)
        at = m.start() if m else len(line)
    return line[:at], line[at:]


def is_taken_from(path, own):
    """Whether a module is the library's, or one that Rattle makes."""
    first = path.split(".")
    of_own = first[0] == "Rattle" and len(first) > 1 and first[1] in own
    return not of_own or bool(MADE.search(path)) or ".declared" in path


def taken(text, crates):
    """The names by which a file calls what it takes from the library or from a module that Rattle makes."""
    names = set()
    for line in text.split("\n"):
        m = USE.match(line)
        if m and m.group(2) is not None and is_taken_from(m.group(1), crates):
            names.update(n.split(" as ")[-1].strip() for n in m.group(2).split(","))
    return names


def declared(root, wanted):
    """Every name that the repository declares, and those of fields, constructors and module members."""
    found = set()
    for path in files(root, ".antt"):
        for line in open(path, encoding="utf-8"):
            code, _ = split_comment(line.rstrip("\n"), "--")
            for pattern in (DECLARED, NAMED):
                m = pattern.match(code)
                if m:
                    found.add(m.group(1))
            found.update(FIELD_VALUE.findall(code))
    return {n for n in found if wanted(n)}


def turn_code(code, keep, own):
    def one(m):
        token = m.group()
        if not is_dashed(token):
            return token
        if m.start() and code[m.start() - 1] == ".":
            return snake(token) if token in own else token
        return token if token in keep else snake(token)

    return TOKEN.sub(one, code)


def turn_comment(comment, keep, own):
    def quoted(m):
        return "`" + turn_code(m.group(1), keep, own) + "`"

    text = re.sub(r"`([^`]*)`", quoted, comment)

    def bare(m):
        token = m.group()
        return snake(token) if token in own and token.count("-") > 1 and token not in keep else token

    return re.sub(r"[A-Za-z][A-Za-z0-9_'-]*", bare, text)


GHOST = re.compile(r"^\s*ghost ")
CLAUSE = re.compile(r"^\s*(requires|ensures|decreases|invariant|also_owns|also_shares|let)\b")


def turn_antt(text, keep, own, crates):
    lines = []
    for line in text.split("\n"):
        m = USE.match(line)
        if m and is_taken_from(m.group(1), crates):
            lines.append(re.sub(r"(?<=[^,{] as )[\w'-]+(?=;?$)", lambda n: snake(n.group()), line))
            continue
        code, comment = split_comment(line, "--")
        lines.append(turn_code(code, keep, own) + turn_comment(comment, keep, own))
    return "\n".join(lines)


def turn_rt(text, keep, own, crates):
    """Ghost items and clauses alone: the names of the code stay."""
    lines, depth = [], 0
    for line in text.split("\n"):
        m = USE.match(line)
        if m and is_taken_from(m.group(1), crates):
            lines.append(re.sub(r"(?<=[^,{] as )[\w'-]+(?=;?$)", lambda n: snake(n.group()), line))
            continue
        code, comment = split_comment(line, "//")
        if depth or GHOST.match(code) or CLAUSE.match(code):
            turned = turn_code(code, keep, own)
            depth = max(0, depth + code.count("{") - code.count("}"))
            code = turned
        lines.append(code + turn_comment(comment, keep, own))
    return "\n".join(lines)


def turn_page(text, own, names):
    """The declared names that stand in backticks, those that port.py turned among them."""

    def one(m):
        name = m.group()
        return snake(name) if name in own or "-" in name and snake(name) in names else name

    def quoted(m):
        return re.sub(r"[A-Za-z][A-Za-z0-9_'-]*", one, m.group())

    return re.sub(r"`[^`\n]*`", quoted, text)


def main(argv):
    root = "."
    own_crates = set(os.listdir("crates"))
    own = declared(root, is_dashed)
    before, after = {}, {}
    for path in files(root, (".antt", ".rt")):
        text = open(path, encoding="utf-8").read()
        keep = taken(text, own_crates)
        turned = turn_antt(text, keep, own, own_crates) if path.endswith(".antt") else turn_rt(text, keep, own, own_crates)
        before[path], after[path] = text, turned
    names = declared(root, lambda n: True)
    bad = 0
    for name in sorted(own):
        if snake(name) in names and name not in PARAMETERS:
            print(f"falls together: {name} and {snake(name)} are declared")
            bad += 1
    for path, text in before.items():
        seen = {}
        for t in sorted(t for t in set(TOKEN.findall(text)) if is_dashed(t)):
            if snake(t) in seen:
                print(f"falls together: {path}: {t} and {seen[snake(t)]}")
                bad += 1
            seen[snake(t)] = t
    if bad:
        return 1
    if "--dry" in argv:
        return 0
    for path in ["README.md"] + [os.path.join("docs", n) for n in sorted(os.listdir("docs")) if n.endswith(".md") and n != "CHANGES.md"]:
        before[path] = open(path, encoding="utf-8").read()
        after[path] = turn_page(before[path], own, names)
    for path, text in after.items():
        if text != before[path]:
            with open(path, "w", encoding="utf-8") as f:
                f.write(text)
    return 0


if __name__ == "__main__":
    raise SystemExit(main(sys.argv[1:]))
