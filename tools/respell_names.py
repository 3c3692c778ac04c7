#!/usr/bin/env python3
"""Respells the repository's own definitions and lemmas as the library spells its own.

usage: tools/respell_names.py [--write]     at the top of the repository, once, after the scripts of the kit

Types and facts go in camel case (`Means-E8` becomes `MeansE8`), every other definition, lemma, field and constructor in snake case
(`size-bytes` becomes `size_bytes`, `onState` becomes `on_state`), a prime becomes an apostrophe. Names that Rattle makes (the goals
and what they are made of) keep their dashes, and so do names of the library. The crate `bytes`, whose name is one of the kit's
libraries, becomes `byte_strings`. Functions and types of src/, exported names, strings and comments stay as they are, but for names
in backticks. Without --write it only says what it would do, and which names fall together.
"""
import collections
import os
import re
import sys

NAME = r"[^\s(){}\[\],.;\"λ:@⟨⟩`]+"
DECLARED = re.compile(r"^\s*((?:pub |abbrev |unfoldable )*)(record |data )?(" + NAME + r")(?: +:\s|\s+where|\s*\(|\s*\{|\s*$)(.*)$")
CRATE = ("bytes", "byte_strings")
# names that would fall together with one of the library's, or of our own, in a file that cites both
OWN = {}
for line in """
byte-bit byte_from_bit
element-at constant_element
runs-exchanged runs_exchange
bit-and bit_of_and
bit-or bit_of_or
bit-xor bit_of_xor
bit-mod bit_of_mod
bit-shl bit_of_shl
bit-shl-high bit_of_shl_high
bit-shl-low bit_of_shl_low
bit-shr bit_of_shr
""".split("\n"):
    if line.strip():
        old, new = line.split()
        OWN[old] = new


def files():
    for root, folders, names in os.walk("crates"):
        folders[:] = sorted(f for f in folders if f != "out")
        for name in sorted(names):
            if name.endswith((".antt", ".rt")):
                yield os.path.join(root, name)


def declared():
    """The names that our .antt files declare, each with its files; goals that a file answers are Rattle's names."""
    names = collections.defaultdict(set)
    for path in files():
        if not path.endswith(".antt"):
            continue
        for line in open(path, encoding="utf-8"):
            m = DECLARED.match(line)
            if not m or line.lstrip().startswith("--"):
                continue
            if re.match(r"\s*(goal|given|need|needs)\.", m.group(4)):
                continue
            if not m.group(2) and " :" not in line:
                continue
            if m.group(3) in ("use", "mod", "module", "unfolding", "where", "pub"):
                continue
            names[m.group(3)].add(path)
    return names


def respelled(name):
    if name in OWN:
        return OWN[name]
    if name[:1].isupper():
        return "".join(part[:1].upper() + part[1:] for part in re.split("[-_]", name))
    parts = []
    for part in name.split("-"):
        parts.append(re.sub(r"(?<=[a-z0-9])([A-Z])", lambda m: "_" + m.group(1).lower(), part))
    return "_".join(parts)


def main():
    os.chdir(os.path.join(os.path.dirname(os.path.abspath(__file__)), ".."))
    write = "--write" in sys.argv[1:]
    names = declared()
    change = {n: respelled(n) for n in names if re.search(r"[-A-Z]|^[A-Z].*_", n) and respelled(n) != n}
    backwards = collections.defaultdict(set)
    for old, new in change.items():
        backwards[new].add(old)
    for new, olds in sorted(backwards.items()):
        if len(olds) > 1:
            print(f"fall together: {sorted(olds)} as {new}")
    token = re.compile(NAME)
    for path in files():
        text = open(path, encoding="utf-8").read()
        comment = "--" if path.endswith(".antt") else "//"
        seen = set()
        out = []
        for line in text.split("\n"):
            code, mark, said = line, "", ""
            at = line.find(comment + " ") if '"' not in line else (0 if line.lstrip().startswith(comment) else -1)
            if at >= 0:
                code, mark, said = line[:at], comment, line[at + 2:]
            parts = re.split(r'(b?"(?:[^"\\]|\\.)*")', code)
            for i in range(0, len(parts), 2):
                seen.update(token.findall(parts[i]))
                parts[i] = token.sub(lambda m: change.get(m.group(0), m.group(0)), parts[i])
                parts[i] = re.sub(r"\b" + CRATE[0] + r"(?=::[a-z])|(?<=Rattle\.)" + CRATE[0] + r"(?=\.)", CRATE[1], parts[i])
            said = re.sub(r"`([^`]+)`", lambda m: "`" + token.sub(lambda t: change.get(t.group(0), t.group(0)), m.group(1)) + "`", said)
            out.append("".join(parts) + mark + said)
        for old in seen & change.keys():
            if change[old] in seen:
                print(f"{path}: {old} falls together with {change[old]}")
        if write:
            with open(path, "w", encoding="utf-8") as f:
                f.write("\n".join(out))
    print(f"{len(change)} names respelled")
    if write:
        lines = []
        for line in open("crates.txt", encoding="utf-8"):
            if not line.startswith("#"):
                head, _, deps = line.partition(":")
                words = [CRATE[1] if w == CRATE[0] else w for w in [head] + deps.split()]
                line = (words[0] + ": " + " ".join(words[1:])).rstrip() + "\n" if head.strip() else line
            lines.append(line)
        open("crates.txt", "w", encoding="utf-8").writelines(lines)
        os.rename("crates/" + CRATE[0], "crates/" + CRATE[1])


if __name__ == "__main__":
    main()
