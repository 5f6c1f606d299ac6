#!/usr/bin/env python3
"""Brings the repository's own definitions and lemmas to the toolchain's spelling: words in snake case.

usage: python3 tools/respell.py [--dry]        at the top of the repository, once, right after the toolchain's port.py

A name is the repository's own where a file of specs/ or proofs/ declares it: a definition, a lemma, a local helper below a
`where`, a record's field, a constructor. Types, facts and modules keep their capitals. Names of src/, exported C names, strings,
inputs and outputs are not touched: none of them has a hyphen or a capital inside. Names that Rattle makes for the proof of a
function (after `tie.`, and fields of its records) keep their dashes.
"""

import collections
import os
import re
import sys

STOP = r"\s(){}\[\];,.:`\"'|λ⌜⌝"
DECLARED = re.compile(
    r"^(\s*)((?:(?:abbrev|unfoldable|pub|data|record|ruleset|opaque|syntax)\s+)*)([^\s(){}:;,.]+)\s*"
    r"(?:\{[^}]*\}\s*|\([^)]*\)\s*)*:(?:\s|$)"
)
USED = re.compile(r"^\s*(?:ghost |pub )*use\s+([^\s{;]+?)\.\{([^}]*)\}", re.M)


def files(*ends):
    for top in ("crates",):
        for folder, dirs, names in os.walk(top):
            dirs[:] = sorted(d for d in dirs if d != "out")
            for name in sorted(names):
                if name.endswith(ends):
                    yield os.path.join(folder, name)


def snake_word(word):
    if not word or not word[0].islower():
        return word
    return re.sub(r"(?<=[a-z0-9])([A-Z])", lambda m: "_" + m.group(1).lower(), word)


def snake(name):
    return "_".join(snake_word(part) for part in name.split("-"))


def declared():
    """Each own name with the files that declare it, and whether it is a field of a record or a name of its own."""
    places, fields = collections.defaultdict(set), set()
    for path in files(".antt"):
        in_record = False
        for line in open(path, encoding="utf-8"):
            if re.match(r"\s*(pub\s+)?(record|data)\b", line):
                in_record = True
            elif line.strip() and not line[0].isspace():
                in_record = False
            found = DECLARED.match(line)
            if not found:
                continue
            name = found.group(3)
            if "use" in found.group(2).split() or not re.match(r"[a-z]", name):
                continue
            if found.group(1) and not in_record and not re.match(r"\s{4}", found.group(1)) and found.group(1) != "  ":
                continue
            places[name].add(path)
            if in_record and found.group(1):
                fields.add(name)
    return places, fields


def borrowed():
    """The names that files import from other libraries than the repository's own."""
    own = set(os.listdir("crates"))
    found = collections.defaultdict(set)
    for path in files(".antt", ".rt"):
        for module, names in USED.findall(open(path, encoding="utf-8").read()):
            parts = module.split(".")
            if parts[0] == "Rattle" and parts[1] in own:
                continue
            for name in re.split(r"[,\s]+", names):
                if name:
                    found[name].add(path)
    return found


def main():
    dry = "--dry" in sys.argv
    places, fields = declared()
    library = borrowed()
    # bound by a lambda or a match, and so on no line of their own
    for name in ("refusalOf", "notWide", "notFinite", "secondPlace", "partPlace", "firstPlace"):
        places[name].add("bound")
    kept = ("invariant-loop", "decreases-loop")
    new = {name: snake(name) for name in places if snake(name) != name and not name.startswith(kept)}
    definitions = {turned for name, turned in new.items() if "-" not in name} | (set(places) - set(new)) | set(library)
    for name in new:
        # the toolchain's rule: a lemma that would have its function's name gets _lem
        if "-" in name and new[name] in definitions:
            new[name] += "_lem"
    taken = set()
    for path in files(".antt", ".rt"):
        taken |= set(re.split(rf"[{STOP}]+", open(path, encoding="utf-8").read()))
    turned = collections.Counter(new.values())
    for name in sorted(new):
        if name in library:
            print(f"library too: {name} in {sorted(places[name])[:3]}, imported in {sorted(library[name])[:3]}")
        if new[name] in taken:
            print(f"taken: {name} -> {new[name]} of {sorted(places[name])[:2]}")
        if turned[new[name]] > 1:
            print(f"falls together: {name} -> {new[name]}")
        if new[name].endswith("_lem"):
            print(f"lemma: {name} -> {new[name]} of {sorted(places[name])[:2]}")
    print(f"{len(new)} names")
    if dry:
        return
    words = sorted(new, key=len, reverse=True)
    pattern = re.compile(rf"(?<![^{STOP}])(?:{'|'.join(re.escape(w) for w in words)})(?![^{STOP}])")

    def turn(text, path):
        lib = {n for n in new if n in library and path in library[n]}
        made = path.endswith("Proof.antt")

        def one(found):
            name, start = found.group(0), found.start()
            if name in lib:
                return name
            before = text[:start]
            if before.endswith("."):
                if before.endswith("tie."):
                    return name
                after_module = re.search(r"Rattle\.[\w.]*\.$", before)
                if not after_module and name not in fields:
                    return name
                if made and "-" in name and not after_module:
                    return name
            return new[name]

        return pattern.sub(one, text)

    for path in files(".antt", ".rt", ".edit"):
        text = open(path, encoding="utf-8").read()
        after = turn(text, path)
        if after != text:
            open(path, "w", encoding="utf-8").write(after)
    in_ticks = re.compile(r"`[^`\n]+`")
    pages = [os.path.join(d, f) for d, _, fs in os.walk("docs") for f in fs if f.endswith(".md")] + ["README.md", "CHANGELOG.md"]
    for path in pages:
        text = open(path, encoding="utf-8").read()
        after = in_ticks.sub(lambda m: turn(m.group(0), path), text)
        if after != text:
            open(path, "w", encoding="utf-8").write(after)


main()
