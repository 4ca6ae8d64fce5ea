#!/usr/bin/env python3
"""Brings the names of this repository's own definitions, lemmas, fields and constructors to snake case.

usage: tools/respell.py [FOLDER]      after port.py, once; FOLDER is the repository, without it the one that this file is in

A name that a file of specs/ or proofs/ declares and that has a dash or an inner capital gets underscores in all .antt files, in the clauses and
`ghost use` lines of .rt files, and between backticks in comments and pages. Functions, strings, exported names, inputs and outputs stay. Where two
names would fall together, the definition of specs/ has the name, and the other gets `_lem`; each such pair is printed.
"""

import collections
import os
import re
import sys

DECLARED = re.compile(r"^( *)(?:(?:abbrev|unfoldable) +)?(?:pub +)?(?:(?:record|data) +)?((?:[^\s(){}.;,@\"«»:=←]+ )+)((?:[{(][^{}()]*[})] ?)*):(?!:)")
TOKEN = re.compile(r"[^\s(){}.;,@\"«»\[\]|`]+")
USE = re.compile(r"^ *(?:pub +)?(?:ghost +)?use ([^\s;{]+?)(?:\.\{([^}]*)\})?(?: as \S+)?;?$", re.M)
WORDS = {"pub", "mutual", "module", "where", "abbrev", "unfoldable", "record", "data", "use", "mod", "let", "λ"}


def files(root, endings):
    for folder, dirs, names in os.walk(os.path.join(root, "crates")):
        dirs[:] = sorted(it for it in dirs if it != "out")
        for name in sorted(names):
            if name.endswith(endings):
                yield os.path.join(folder, name)


def read(path):
    with open(path, encoding="utf-8") as it:
        return it.read()


def in_snake_case(name):
    name = name.replace("getD", "get_or").replace("-", "_")
    return re.sub(r"(?<=[a-z0-9])([A-Z])(?=[a-z]|$|_)", lambda it: "_" + it[1].lower(), name)


def is_old(name):
    return name[0].isalpha() and bool(re.search(r"[a-z0-9][A-Z]", name) and name[0].islower() or "-" in name)


def declared(text):
    for line in text.splitlines():
        if re.match(r" *(--|(pub )?use |(pub )?mod )", line):
            continue
        found = DECLARED.match(line)
        if found:
            for name in found[2].split():
                if name not in WORDS:
                    yield len(found[1]), name


def table(root):
    specs, proofs = {}, collections.defaultdict(set)
    for path in files(root, ".antt"):
        for depth, name in declared(read(path)):
            if "/specs/" in path:
                specs[name] = path
            proofs[name].add(path)
    texts = [read(path) for path in files(root, ".antt")]
    words = [(set(TOKEN.findall(text)), of_libraries(text)) for text in texts]
    new, taken = {}, {}
    for name in sorted(proofs, key=lambda it: (it not in specs, is_old(it), it)):
        to = in_snake_case(name) if is_old(name) else name
        meets = is_old(name) and any(name in here and to in lent for here, lent in words)
        while meets or taken.get(to, name) != name:
            print(f"falls together: {name} and {'a library' if meets else taken[to]}: {to}_lem")
            to, meets = to + "_lem", False
        taken.setdefault(to, name)
        if to != name:
            new[name] = to
    return new


def is_own(module):
    return module.startswith("Rattle.") and not re.match(r"Rattle\.(core|std|io|libc|os)\b", module)


def of_libraries(text):
    names = set()
    for module, items in USE.findall(text):
        if not is_own(module) and items:
            names |= {it.split(" as ")[0].strip() for it in items.split(",")}
    return names


def turned(text, new, stays=frozenset()):
    return TOKEN.sub(lambda it: new[it[0]] if it[0] in new and it[0] not in stays else it[0], text)


def in_ticks(text, new):
    return re.sub(r"`[^`\n]+`", lambda it: turned(it[0], new), text)


def turn_antt(text, new):
    stays = of_libraries(text)
    lines = []
    for line in text.split("\n"):
        code, dashes, comment = line.partition("--") if re.match(r" *--", line) else (line, "", "")
        lines.append(turned(code, new, stays) + dashes + in_ticks(comment, new))
    return "\n".join(lines)


def turn_rt(text, new):
    stays, lines, depth = of_libraries(text), [], 0
    for line in text.split("\n"):
        start = line.lstrip()
        if start.startswith("//"):
            lines.append(in_ticks(line, new))
        elif depth or re.match(r"(requires|ensures|ghost)\b", start):
            lines.append(turned(line, new, stays))
            depth += line.count("{") - line.count("}")
        else:
            lines.append(line)
    return "\n".join(lines)


def main(argv):
    root = argv[0] if argv else os.path.dirname(os.path.dirname(os.path.realpath(__file__)))
    new = table(root)
    pages = [os.path.join(root, "README.md")]
    for folder, _, names in os.walk(os.path.join(root, "docs")):
        pages += [os.path.join(folder, it) for it in sorted(names) if it.endswith(".md")]
    for paths, turn in ((files(root, ".antt"), turn_antt), (files(root, ".rt"), turn_rt), (pages, in_ticks)):
        for path in list(paths):
            text = read(path)
            to = turn(text, new)
            if to != text:
                with open(path, "w", encoding="utf-8") as it:
                    it.write(to)
    print(f"{len(new)} names respelled")
    return 0


if __name__ == "__main__":
    raise SystemExit(main(sys.argv[1:]))
