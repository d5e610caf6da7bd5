#!/usr/bin/env python3
"""Brings the definitions and lemmas of specs/ and proofs/ to snake case: python3 tools/respell.py, at the top, once.

A word of a name is joined by `_`. A dash stays where it joins the names of two definitions or follows a type, and where the name with
`_` would fall together with another word of the crates. Types, modules, generated names, functions of src/, strings, inputs and
outputs stay. It turns specs/, proofs/, the contracts in src/, the wrong programs, and names in backquotes of README and docs/.
"""

import collections
import re
import subprocess
from pathlib import Path

WORD = re.compile(r'[^\s(){}.;,@"«»]+')
HEAD = re.compile(r"^( *)((?:unfoldable |abbrev |pub )*)(?!use |open |where|import )([^\s:(){}λ,;∷.\[\]|↦=]+) *(?::(?!=) *(\S.*)?)?$")
GENERATED = re.compile(r"^(tie|goal)\.")


def snake(word):
    return re.sub(r"(?<=[a-z0-9])([A-Z]+)", lambda m: "_" + m[1].lower(), word)


def files():
    names = subprocess.run(["git", "ls-files", "-z"], capture_output=True, text=True, check=True).stdout.split("\0")
    return [Path(n) for n in names if n and Path(n).is_file()]


def declared(paths):
    """The names that are declared: those of definitions, and those of all."""
    definitions, names = set(), set()
    for path in paths:
        mine = path.parts[2]
        lines = path.read_text().split("\n")
        for n, line in enumerate(lines):
            found = HEAD.match(line)
            if not found or found[3] in ("record", "data", "module", "where", "unfolding", "ruleset"):
                continue
            said = found[4]
            if said is None and not line.rstrip().endswith(":"):
                after = lines[n + 1] if n + 1 < len(lines) else ""
                if not after.strip().startswith(":") or len(after) - len(after.lstrip()) <= len(found[1]):
                    continue
                said = after.strip()[1:].strip()
            if mine == "proofs" and said and GENERATED.match(said):
                continue
            if mine == "proofs" and re.match(r"(invariant|decreases)-", found[3]):
                continue
            names.add(found[3])
            if mine == "specs" and not found[1] and re.search("unfoldable|abbrev", found[2]):
                definitions.add(found[3])
    return definitions, names


def spelled(name, definitions):
    parts = [snake(p) if p[:1].islower() else p for p in name.split("-")]
    new = parts[0]
    for i, part in enumerate(parts[1:], 1):
        left, right = "-".join(name.split("-")[:i]), "-".join(name.split("-")[i:])
        keeps = left[:1].isupper() or (left in definitions and right in definitions)
        new += ("-" if keeps else "_") + part
    return new


def parameters(text):
    """The parameters and fields of a file of src/: a clause reads such a name as theirs."""
    return set(re.findall(r"(?<![\w:])([a-z]\w*) ?:(?!:)", text))


def table(paths):
    """Old and new: a definition's name before a lemma's, and no name that a file with the old one has already."""
    antt = [p for p in paths if p.suffix == ".antt" and p.parts[0] == "crates"]
    code = [p for p in paths if p.suffix == ".rt" and p.parts[0] == "crates"]
    definitions, names = declared(antt)
    holds, stands = collections.defaultdict(set), {}
    for path in antt + code:
        text = path.read_text()
        for word in set(WORD.findall(text)):
            holds[word].add(path)
        bare = {m[0] for m in WORD.finditer(text) if text[m.start() - 1 : m.start()] != "."}
        stands[path] = bare if path.suffix == ".antt" else parameters(text)
    new, whose = {}, collections.defaultdict(set)

    def free(name, turned):
        if any(turned in stands[path] for path in holds[name]):
            return False
        return not any(holds[name] & holds[other] for other in whose[turned])

    for name in sorted(names, key=lambda n: (n not in definitions, n)):
        if not re.match(r"^[a-z][\w'-]*$", name):
            continue
        first = spelled(name, definitions)
        dashed = "-".join(snake(p) for p in name.split("-"))
        for turned in (first, first + "_lem", dashed, first + "_of"):
            if turned == name and turned == first:
                break
            if turned == first + "_lem" and (name in definitions or turned[:-4] not in whose):
                continue
            if turned != name and free(name, turned):
                new[name] = turned
                whose[turned].add(name)
                if turned != first:
                    print(f"{name}: {turned}, since {first} stands")
                break
        else:
            print(f"stays: {name}")
    return new


def turn(text, new):
    return WORD.sub(lambda m: new.get(m[0], m[0]), text)


def outside_strings(text, new):
    parts = re.split(r'("(?:\\.|[^"\\])*")', text)
    return "".join(p if i % 2 else turn(p, new) for i, p in enumerate(parts))


def in_quotes(text, new):
    return re.sub(r"`[^`\n]+`", lambda m: re.sub(r"[A-Za-z][\w'-]*", lambda w: new.get(w[0], w[0]), m[0]), text)


def main():
    paths = files()
    new = table(paths)
    for path in paths:
        if path.suffix == ".antt" and path.parts[0] == "crates" or path.suffix == ".edit":
            turned = turn(path.read_text(), new)
        elif path.suffix == ".rt" and path.parts[0] == "crates":
            turned = outside_strings(path.read_text(), new)
        elif path.suffix == ".md":
            turned = in_quotes(path.read_text(), new)
        else:
            continue
        if turned != path.read_text():
            path.write_text(turned)
    print(f"{len(new)} names")
    return new


if __name__ == "__main__":
    main()
