#!/usr/bin/env python3
"""Respells this repository's own definitions and lemmas in snake case.

usage: respell.py            at the top of a checkout, once, right after /opt/rattle/port/port.py

The names stand in respell-names.txt, beside this file. It writes: in .antt files each name, in comments only names with a capital inside;
in .rt files each name outside strings, and comments as above; in must-fail/*.edit the texts; in README.md, docs/ and oracle/README.md what stands between
backticks. In a Proof.antt a name with a dash behind a dot is one that Rattle makes, and stays.
"""
import os
import re
import sys

HERE = os.path.dirname(os.path.realpath(__file__))


def table():
    own, ported = {}, {}
    with open(os.path.join(HERE, "respell-names.txt"), encoding="utf-8") as f:
        for line in f:
            if line.startswith("#"):
                continue
            words = line.split()
            (ported if len(words) == 3 else own)[words[0]] = words[1]
    return own, ported


OWN, PORTED = table()
ALL = {**PORTED, **OWN}
WORD = re.compile(r"(?<![\w'◌·-])(\.?)([A-Za-z0-9_][\w'-]*)(?![\w'◌])")


def respell(text, names, made=False):
    def one(m):
        if made and m.group(1) and "-" in m.group(2):
            return m.group(0)
        return m.group(1) + names.get(m.group(2), m.group(2))

    return WORD.sub(one, text)


def capitals(text):
    return respell(text, {k: v for k, v in ALL.items() if "-" not in k and k != "half_in"})


def antt(text, made):
    lines = []
    for line in text.split("\n"):
        at = line.find("--")
        code, said = (line, "") if at < 0 else (line[:at], line[at:])
        lines.append(respell(code, OWN, made) + capitals(said))
    return "\n".join(lines)


def rust(text):
    lines = []
    for line in text.split("\n"):
        parts = re.split(r'("(?:[^"\\]|\\.)*"|//.*$)', line)
        for i, part in enumerate(parts):
            if part.startswith("//"):
                parts[i] = capitals(part)
            elif not part.startswith('"'):
                parts[i] = respell(part, OWN)
        lines.append("".join(parts))
    return "\n".join(lines)


def edit(text):
    lines = []
    for line in text.split("\n"):
        m = re.match(r"(old|new): (.*)$", line)
        lines.append(m.group(1) + ": " + respell(m.group(2), ALL) if m else line)
    return "\n".join(lines)


def page(text):
    return re.sub(r"`[^`\n]+`", lambda m: m.group(0) if re.search(r"[/$]", m.group(0)) and " " not in m.group(0) else respell(m.group(0), ALL), text)


def main():
    changed = 0
    for folder, dirs, files in os.walk("."):
        dirs[:] = [d for d in dirs if d not in (".git", "out", "target", "tools")]
        for name in files:
            path = os.path.join(folder, name)
            inside = path.startswith("./crates/")
            if inside and name.endswith(".antt"):
                turn = lambda t: antt(t, name == "Proof.antt")
            elif inside and name.endswith(".rt"):
                turn = rust
            elif inside and name.endswith(".edit"):
                turn = edit
            elif name.endswith(".md"):
                turn = page
            else:
                continue
            with open(path, encoding="utf-8") as f:
                old = f.read()
            new = turn(old)
            if new != old:
                with open(path, "w", encoding="utf-8") as f:
                    f.write(new)
                changed += 1
    print(f"respell: {changed} files")
    return 0


if __name__ == "__main__":
    sys.exit(main())
