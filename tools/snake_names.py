#!/usr/bin/env python3
"""Respells the definitions and lemmas of the crates: types in upper camel case, all else in snake case.

usage: python3 tools/snake_names.py    at the top of the repository

Names that Rattle makes (goals, steps), names of its library, functions of src/ and texts keep their spelling.
"""
import collections
import glob
import os
import re
import sys

WORD = re.compile(r"[^\s(){}\[\].,;:\"⌜⌝]+")
DECLARED = re.compile(r"^( *)((?:(?:abbrev|unfoldable|pub) )*)([^\s(){}\[\].,;:\"λ?=]+(?: [^\s(){}\[\].,;:\"λ?=]+)*) :(?: |$)")
LOCAL = re.compile(r"\blet (\S+) [:=] |[({]([^\s(){}\[\].,;:\"λ?=]+) : |\bas ([^\s,}]+)[,}]")
BLOCK = re.compile(r"^ *(?:pub )?(record|data) (\S+)")
USE = re.compile(r"^\s*(?:pub |ghost )*use (\S+?)\.\{([^}]*)\}")


def is_shared(path):
    """Whether a file has definitions or lemmas, and not the proof of one function."""
    return re.match(r"crates/\w+/(specs|proofs)/\w+\.antt$", path) is not None


def code(line):
    return re.split(r"(?:^|\s)--(?:\s|$)", line)[0]


def declared(paths):
    """The names that the files give: those of facts and types, and all others."""
    types, others = set(), set()
    for path in paths:
        for line in open(path, encoding="utf-8"):
            line = code(line)
            block = BLOCK.match(line)
            if block:
                types.add(block.group(2))
                continue
            names = [name for found in LOCAL.finditer(line) for name in found.groups() if name]
            found = DECLARED.match(line)
            if found and not line.lstrip().startswith(("use ", "let ", "module ", "open ")):
                names += found.group(3).split()
            for name in names:
                if name not in ("pub", "abbrev", "unfoldable"):
                    (types if name[0].isupper() else others).add(name)
    return types, others


def camel(name):
    return "".join(part[:1].upper() + part[1:] for part in name.split("-"))


def snake(name):
    return re.sub(r"(?<=[a-z])Z(?![a-z])", "_z", name).replace("-", "_")


def renaming(paths):
    """The new spelling of each name that these files give and that has another one."""
    types, others = declared(paths)
    respelled = {name: camel(name) for name in types}
    respelled.update({name: snake(name) for name in others})
    respelled = {old: new for old, new in respelled.items() if old != new}
    for new, olds in collections.Counter(respelled.values()).items():
        if olds > 1:
            print("falls together:", new, [o for o in respelled if respelled[o] == new])
    for old, new in respelled.items():
        if new in types | others:
            print("is there already:", old, new)
    return respelled


def made(lines):
    """The names in the proof of a function that Rattle made: its goals, and what is imported from their modules."""
    names = set()
    for line in lines:
        found = re.match(r"\s*(?:abbrev |unfoldable |pub )*(\S+) : goal\.", line)
        if found:
            names.add(found.group(1))
        used = USE.match(line)
        if used and re.search(r"\.(Goals|Given|Tie)$", used.group(1)):
            names.update(re.split(r"[,\s]+", used.group(2)))
    return names


def kept(lines):
    """What a file imports from elsewhere than this repository's crates."""
    crates = {os.path.basename(d) for d in glob.glob("crates/*")}
    names = set()
    for line in lines:
        used = USE.match(line)
        if used and not (used.group(1).startswith("Rattle.") and used.group(1).split(".")[1] in crates):
            names.update(item.split(" as ")[0].strip() for item in used.group(2).split(","))
    return names


def respell(path, respelled):
    text = open(path, encoding="utf-8").read()
    lines = text.split("\n")
    foreign = kept(lines)
    of_function = path.endswith(".antt") and not is_shared(path)
    names = made(lines) if of_function else set()
    if of_function:
        respelled = respelled | renaming([path])
    out = []
    for line in lines:
        body = code(line) if path.endswith(".antt") else line

        def turned(found, line=body):
            word = found.group(0)
            core = word.lstrip("«").rstrip("»")
            before = line[: found.start()]
            if core not in respelled or core in foreign or core in names:
                return word
            if of_function and re.search(r"(^|[\s(])(c|l|g|w|goal)\.$", before):
                return word
            return word.replace(core, respelled[core])

        out.append(WORD.sub(turned, body) + line[len(body):])
    new = "\n".join(out)
    # comments and documents name them in backquotes
    new = re.sub(r"`([^`\s]+)`", lambda m: "`" + respelled.get(m.group(1), m.group(1)) + "`", new)
    if new != text:
        open(path, "w", encoding="utf-8").write(new)


def main():
    if not os.path.exists("crates.txt"):
        sys.exit("run this at the top of the repository")
    files = sorted(f for f in glob.glob("crates/**/*", recursive=True) if f.endswith((".rt", ".antt")) and "/out/" not in f)
    respelled = renaming([f for f in files if f.endswith(".rt") or is_shared(f)])
    for path in files:
        respell(path, respelled)
    for path in sorted(glob.glob("docs/*.md") + glob.glob("README.md")):
        text = open(path, encoding="utf-8").read()
        new = re.sub(r"`([^`\s]+)`", lambda m: "`" + respelled.get(m.group(1), m.group(1)) + "`", text)
        if new != text:
            open(path, "w", encoding="utf-8").write(new)
    print(len(respelled), "names respelled")


main()
