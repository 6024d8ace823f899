#!/usr/bin/env python3
"""Brings the definitions and lemmas of this repository to the spelling of the kit: words in snake case, types and modules in camel case.

Run once, at the top of the repository, after the kit's own port.py, which respells only names that a library had too.

    python3 tools/respell_names.py [--list]

It collects every name that a file of specs/ or a lemma file of proofs/ declares and that is in lower camel case or has a dash, and
respells it wherever it stands as a whole word in .rt, .antt and .edit files; in comments and in pages (.md) only between backticks.
It stops, and changes nothing, where two names would become one in one file.
"""
import collections
import glob
import re
import sys

WORD = re.compile(r"[^\s(){}\[\].,;:λ\"`@|]+")
DECLARED = re.compile(r"^\s*(?:(?:pub|abbrev|unfoldable) )*([^\s(){}.,;:]+)((?: [({][^)}]*[)}])*) :(?: |$)")
# An import's other name.
ALIAS = re.compile(r" as ([a-z][^\s(){}.,;:]*)")
# Parameters and local names that stand in definitions and laws, and that the rule below does not see.
LOCAL = """sheetText isDeclared bases-room cells-room inOperations inBlocks no-every no-low sameRegions sameBlocks sameOperations
sameArguments sameResults sameOperands few-values each-region""".split()
# Names that a rule would spell badly, or that would meet another name: what they become.
BY_HAND = {
    "f8E5M3FNU": "f8e5m3fnu",
    "oneMore": "one_attribute_more",
    "typeRow": "type_row_of",
    "valueRow": "value_row_of",
    "ofValues": "tables_of_values",
    "ofOperations": "tables_of_operations",
    "ofAttributes": "tables_of_attributes",
    "ofBlocks": "tables_of_blocks",
    "ofRegions": "tables_of_regions",
    "ofFunctions": "tables_of_functions",
    "ofTypes": "tables_of_types",
    "ofOperands": "tables_of_operands",
}


def snake(name):
    if name in BY_HAND:
        return BY_HAND[name]
    name = re.sub(r"([a-z0-9])([A-Z])", r"\1_\2", name)
    return name.replace("-", "_").replace("′", "'").lower()


def logic_files():
    return sorted(glob.glob("crates/*/specs/**/*.antt", recursive=True)) + sorted(glob.glob("crates/*/proofs/*.antt"))


def read(path):
    with open(path, encoding="utf-8") as f:
        return f.read()


def names():
    found, taken = {name: snake(name) for name in LOCAL}, set()
    for path in logic_files():
        for line in read(path).splitlines():
            if line.startswith("use "):
                for name in ALIAS.findall(line):
                    if "-" in name or re.search(r"[A-Z]", name):
                        found[name] = snake(name)
            m = DECLARED.match(line)
            if not m:
                continue
            name = m.group(1)
            old = "-" in name and not name.startswith("-") or re.match(r"[a-z][^-]*[A-Z]", name) or "′" in name
            if old and not name[0].isupper() and re.match(r"[a-z]", name):
                found[name] = snake(name)
            elif re.match(r"[a-z][a-z0-9_]*$", name):
                taken.add(name)
    # A lemma that would have its function's name gets _lem.
    taken |= {new for old, new in found.items() if "-" not in old}
    return {old: new + "_lem" if "-" in old and new in taken else new for old, new in found.items()}


def split_comment(line, mark):
    """The line before a comment mark, and the comment."""
    at = line.find(mark)
    return (line, "") if at < 0 else (line[:at], line[at:])


def respell(text, table, kind):
    word = lambda m: table.get(m.group(0), m.group(0))
    quoted = lambda m: "`" + WORD.sub(word, m.group(1)) + "`"
    out = []
    for line in text.split("\n"):
        if kind == "md":
            out.append(re.sub(r"`([^`]*)`", quoted, line))
            continue
        mark = "//" if kind == "rt" else "--" if kind == "antt" else "\0"
        if kind == "antt" and not re.search(r"(^|\s)--( |$)", line):
            mark = "\0"
        code, comment = split_comment(line, mark)
        parts = re.split(r'("(?:[^"\\]|\\.)*")', code)
        code = "".join(p if i % 2 else WORD.sub(word, p) for i, p in enumerate(parts))
        out.append(code + re.sub(r"`([^`]*)`", quoted, comment))
    return "\n".join(out)


def standing(text, kind):
    """The words that stand in a file as names: no part of a module's path, no field, no comment; in code, parameters and bindings alone."""
    lines = [split_comment(l, "// " if kind == "rt" else "-- ")[0] for l in text.split("\n")]
    text = re.sub(r"Rattle\.[^\s{}();]*", " ", re.sub(r'"[^"]*"', " ", "\n".join(lines)))
    if kind == "rt":
        return set(re.findall(r"\b([a-z]\w*):[ &]", text)) | set(re.findall(r"let (?:mut )?(\w+)", text)) | set(re.findall(r"[{,] ?(\w+)(?=[,}])", text)) | set(re.findall(r"\b[a-z]+[A-Z]\w*|[^\s(){}]+-[^\s(){}]+", text))
    return set(WORD.findall(re.sub(r"(?<=[^\s(])\.[^\s(){}\[\],;.:]+", " ", text)))


def main():
    table = names()
    back = collections.defaultdict(set)
    for old, new in table.items():
        back[new].add(old)
    files = [(p, "antt") for p in glob.glob("crates/**/*.antt", recursive=True)]
    files += [(p, "rt") for p in glob.glob("crates/**/*.rt", recursive=True)]
    files += [(p, "edit") for p in glob.glob("crates/**/*.edit", recursive=True)]
    files += [(p, "md") for p in ["README.md"] + glob.glob("docs/*.md") if "PORT" not in p]
    met = []
    for path, kind in files:
        if kind == "md":
            continue
        words = standing(read(path), kind)
        for new, olds in back.items():
            here = [o for o in olds if o in words]
            if len(here) > 1 or here and new in words:
                met.append((path, new, sorted(here), new in words))
    if "--list" in sys.argv:
        for old, new in sorted(table.items()):
            print(old, new)
    for path, new, olds, stands in met:
        print(f"{path}: {', '.join(olds)} would become {new}{', which stands there' if stands else ''}")
    if met:
        sys.exit(1)
    if "--list" in sys.argv:
        return
    changed = 0
    for path, kind in files:
        text = read(path)
        new = respell(text, table, kind)
        if new != text:
            changed += 1
            with open(path, "w", encoding="utf-8") as f:
                f.write(new)
    print(f"{len(table)} names, {changed} files")


main()
