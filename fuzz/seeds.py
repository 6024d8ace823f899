# The first inputs of each target, from texts: seeds.py OUT SEEDS LIST SHEET FILE.. writes folders under OUT. SEEDS is bench.c built -DSEEDS,
# LIST what `text_cases list` says, SHEET a rule sheet, and each FILE holds module texts parted by a line `end`.
import collections, os, re, subprocess, sys

out, seeds, listed, sheet, *files = sys.argv[1:]
EACH = 12  # of the listed texts with one answer


def text_of(shown):
    codes = {b"|": b"\t", b"/": b"\n", b"\\s": b" ", b"\\r": b"\r", b"\\0": b"\0", b"\\e": b""}
    def one(m):
        return bytes([int(m[0][2:], 16)]) if m[0].startswith(b"\\x") else codes[m[0]]
    return re.sub(rb"\\x[0-9A-F]{2}|\\[sr0e]|[|/]", one, shown)


def keep(target, name, data):
    os.makedirs(f"{out}/{target}", exist_ok=True)
    with open(f"{out}/{target}/{name}", "wb") as f:
        f.write(data)


modules, sheets = [], [open(sheet, "rb").read(), b"sheet\t1\n"]
many = collections.Counter()
for line in open(listed, "rb").read().split(b"\n"):
    if line:
        answer, rest = line.split(b" ", 1)
        text = text_of(rest.split(b"  ")[0])
        many[answer, text[:5]] += 1
        if many[answer, text[:5]] <= EACH:
            (sheets if text.startswith(b"sheet") else modules).append(text)
for name in files:
    modules += [m for m in re.split(rb"(?m)^end\n", open(name, "rb").read()) if m]
for k, text in enumerate(sheets):
    keep("read_sheet_bytes", k, text)
for k, text in enumerate(modules):
    keep("read_module_bytes", k, text)
    keep("texts_bytes", k, sheets[k % 2] + b"\0" + text)
    tables = subprocess.run([seeds], input=text, capture_output=True)
    if tables.returncode == 0:
        keep("check_tables_bytes", k, tables.stdout)
        keep("read_back_lists", k, tables.stdout)
