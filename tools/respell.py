#!/usr/bin/env python3
"""Brings the repository's own names to the library's spelling: words in snake case, a dash only between two names in the name of a lemma.

usage: tools/respell.py [--list]        at the top of the repository; --list prints the new names and changes nothing

It reads what specs/ and proofs/ declare and rewrites exact names in .antt files and in the clauses of .rt files.
Comments, text in quotes and the names that the check makes of code are left alone. It also moves the crate `log`, whose name
the library has, to `logs`. Run it once.
"""
import collections
import os
import re
import subprocess
import sys

WORDS = {"length", "take", "drop", "append", "map", "replicate", "set", "get_or", "and", "or", "cond", "joined", "bit_and", "bit_or", "not"}
SIGNATURE = re.compile(r"^(\s*)(?:(?:pub|abbrev|unfoldable|record|data)\s+)*([^\s(){}:.,;]+)\s*(?:\{[^}]*\}\s*|\([^)]*\)\s*)*:\s*(.*)$")
PLAIN = re.compile(r"[A-Za-z][A-Za-z0-9_']*(?:-[A-Za-z0-9_']+)+$")
TOKEN = re.compile(r"(?<![\w'◌-])[A-Za-z][A-Za-z0-9_']*(?:-[A-Za-z0-9_']+)+(?![\w'◌-])")


def files(root, ends):
    for folder, dirs, names in os.walk(os.path.join(root, "crates")):
        dirs[:] = sorted(d for d in dirs if d != "out")
        for name in sorted(names):
            if name.endswith(ends):
                yield os.path.join(folder, name)


def read(path):
    with open(path, encoding="utf-8") as f:
        return f.read()


def without_comment(line):
    return re.sub(r"(^|\s)--(\s.*)?$", "", line)


def declared(root):
    """The dashed names that are declared, each with the kinds of its declarations."""
    kinds = collections.defaultdict(set)
    for path in files(root, ".antt"):
        spec = "/specs/" in path
        for line in read(path).splitlines():
            line = without_comment(line)
            m = SIGNATURE.match(line)
            if m and PLAIN.match(m.group(2)):
                goal = re.match(r"(goal|given)\.", m.group(3))
                kinds[m.group(2)].add("goal" if goal else "spec" if spec else "lemma")
            for m in re.finditer(r"[({]([A-Za-z][\w' -]*?) :", line):
                for word in m.group(1).split():
                    if PLAIN.match(word):
                        kinds[word].add("local")
            for m in re.finditer(r"let ([A-Za-z][\w'-]*)", line):
                if PLAIN.match(m.group(1)):
                    kinds[m.group(1)].add("local")
            for m in re.finditer(r"λ ([^.]*)\.", line):
                for word in re.findall(r"[\w'-]+", m.group(1)):
                    if PLAIN.match(word):
                        kinds[word].add("local")
    return kinds


def lemma_name(name, names):
    words = name.split("-")
    parts, i = [], 0
    while i < len(words):
        for j in range(len(words), i, -1):
            whole = "_".join(words[i:j])
            if whole in names:
                parts.append((whole, True))
                i = j
                break
        else:
            parts.append((words[i], False))
            i += 1
    text = parts[0][0]
    for (_, before), (part, is_name) in zip(parts, parts[1:]):
        text += ("-" if before and is_name else "_") + part
    return text


def renamings(root):
    kinds = declared(root)
    specs = {n.replace("-", "_") for n, k in kinds.items() if "spec" in k}
    for path in files(root, ".antt"):
        if "/specs/" in path:
            for line in read(path).splitlines():
                m = SIGNATURE.match(without_comment(line))
                if m and re.match(r"[a-z][a-z0-9_']*$", m.group(2)) and not m.group(1):
                    specs.add(m.group(2))
    names = specs | WORDS
    new = {}
    for name, k in kinds.items():
        if k == {"goal"}:
            continue
        if "goal" in k:
            print(f"respell: {name} is also the name of a goal: left", file=sys.stderr)
            continue
        to = name.replace("-", "_") if "spec" in k or k == {"local"} else lemma_name(name, names)
        if to != name:
            new[name] = to
    return new


def fall_together(root, new):
    """New names that two old ones share, or that are declared already."""
    back = collections.defaultdict(list)
    for a, b in new.items():
        back[b].append(a)
    have = set()
    for path in files(root, ".antt"):
        for line in read(path).splitlines():
            m = SIGNATURE.match(without_comment(line))
            if m:
                have.add(m.group(2))
    for b, old in sorted(back.items()):
        if len(old) > 1:
            print(f"respell: {', '.join(old)} fall together as {b}", file=sys.stderr)
        if b in have:
            print(f"respell: {old[0]} becomes {b}, which is declared already", file=sys.stderr)


def respell(line, new, code):
    comment = re.search(r"//" if code else r"(?:^|\s)--(?:\s|$)", line)
    end = comment.start() if comment else len(line)
    text, rest = line[:end], line[end:]
    out = []
    for part in re.split(r'("(?:[^"\\]|\\.)*")', text):
        if part.startswith('"'):
            out.append(part)
        else:
            out.append(TOKEN.sub(lambda m: m.group(0) if part[: m.start()].endswith(" c.") or part[: m.start()].endswith("(c.") else new.get(m.group(0), m.group(0)), part))
    return "".join(out) + rest


def move_log(root):
    old, to = os.path.join(root, "crates", "log"), os.path.join(root, "crates", "logs")
    if not os.path.isdir(old):
        return
    subprocess.run(["git", "mv", old, to], cwd=root, check=True)
    for path in files(root, (".antt", ".rt", ".edit")):
        text = read(path)
        turned = re.sub(r"\bRattle\.log\.", "Rattle.logs.", text)
        turned = re.sub(r"\buse log::", "use logs::", turned)
        if turned != text:
            with open(path, "w", encoding="utf-8") as f:
                f.write(turned)
    lines = os.path.join(root, "crates.txt")
    text = read(lines)
    turned = re.sub(r"(?m)^log:", "logs:", text)
    turned = re.sub(r"(?m)^(\w+:.*) log\b", r"\1 logs", turned)
    with open(lines, "w", encoding="utf-8") as f:
        f.write(turned)


def main():
    root = os.getcwd()
    new = renamings(root)
    fall_together(root, new)
    if "--list" in sys.argv:
        for a, b in sorted(new.items()):
            print(a, b)
        return
    for path in files(root, (".antt", ".rt")):
        text = read(path)
        code = path.endswith(".rt")
        turned = "\n".join(respell(line, new, code) for line in text.split("\n"))
        if turned != text:
            with open(path, "w", encoding="utf-8") as f:
                f.write(turned)
    move_log(root)


main()
