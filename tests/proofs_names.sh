#!/bin/sh
# every definition, law, contract and file that docs/PROOFS.md cites is there, in the crate that it says
python3 - <<'PYTHON'
import glob, os, re, sys

crates = {os.path.basename(c) for c in glob.glob("crates/*")}
bad, seen = [], 0


def text(crate, part):
    ends = ("rt",) if part == "src" else ("antt",)
    return "\n".join(open(f, encoding="utf-8").read() for f in sorted(glob.glob(f"crates/{crate}/{part}/**", recursive=True)) if f.split(".")[-1] in ends)


sources = {c: (text(c, "src"), text(c, "specs") + "\n" + text(c, "proofs")) for c in crates}


# A name that is declared, not one that is merely used: a function or type of the code, or a definition, law, record or field.
def declared(name, crate):
    n = re.escape(name)
    code, logic = sources[crate]
    return re.search(rf"\b(fn|struct|enum|const) {n}\b", code) or re.search(rf"(?m)^\s*((abbrev|unfoldable|opaque|pub|data|record|codata) +)*{n}(?= *[:({{]| +where\b| +:)", logic)


# The tables of the page that begin with what the paper says.
def rows():
    told = False
    for number, line in enumerate(open("docs/PROOFS.md", encoding="utf-8"), 1):
        told = line.startswith("| The paper |") or told and line.startswith("|")
        if told and not line.startswith(("| The paper |", "|---")):
            yield number, line


for number, line in rows():
    cells = line.strip()[1:-1].split("|")
    if len(cells) != 3:
        bad.append(f"line {number}: {len(cells)} cells")
    tokens = re.findall(r"`([^`]+)`", " ".join(cells[-2:]))
    here = [re.split(r"::|/", t)[0] for t in tokens if re.split(r"::|/", t)[0] in crates]
    for token in tokens:
        seen += 1
        crate, *rest = re.split(r"::|/", token)
        if "/" in token:
            if not os.path.exists(f"crates/{token}.antt"):
                bad.append(f"line {number}: no file crates/{token}.antt")
        elif "::" in token:
            if crate not in crates or not declared(rest[-1], crate):
                bad.append(f"line {number}: {token} is not in that crate")
        elif token in crates:
            continue
        else:
            files = [f"crates/{c}/{d}/{token}.antt" for c in here for d in ("specs", "proofs")]
            if not any(map(os.path.exists, files)) and not any(declared(token, c) for c in here or crates):
                bad.append(f"line {number}: {token} is not declared in {', '.join(sorted(set(here))) or 'any crate'}")
    # A file of laws is cited as `crate` Laws.
    for crate, name in re.findall(r"`([a-z_]+)` ([A-Z][A-Za-z]+)", " ".join(cells[-2:])):
        if crate in crates and not any(os.path.exists(f"crates/{crate}/{d}/{name}.antt") for d in ("proofs", "specs")):
            bad.append(f"line {number}: {crate} has no file {name}.antt")
if seen < 100:
    bad.append(f"only {seen} names were found: the page has another form")
print("\n".join(bad) if bad else f"{seen} names")
sys.exit(bool(bad))
PYTHON
