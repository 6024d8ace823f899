#!/bin/sh
# every command of docs/GUIDE.md prints what the page shows
python3 - <<'PYTHON'
import re, subprocess, sys

# A command is an indented line that begins with `$`; the indented lines after it are what it prints. ./test is not run inside itself.
blocks = re.findall(r"(?m)^    \$ (.*)\n((?:    (?!\$ ).*\n)*)", open("docs/GUIDE.md", encoding="utf-8").read())
bad, many = [], 0
for command, shown in blocks:
    if command.startswith("./test"):
        continue
    shown = re.sub(r"(?m)^    ", "", shown)
    said = subprocess.run(["sh", "-c", command], capture_output=True, text=True)
    if said.stdout != shown and shown:
        bad.append(f"{command}\nprints\n{said.stdout}{said.stderr}and the page shows\n{shown}")
    if said.returncode not in (0, 1):
        bad.append(f"{command}\nends with {said.returncode}: {said.stderr}")
    many += 1
if many < 10:
    bad.append(f"only {many} commands were found: the page has another form")
print("\n".join(bad) if bad else f"{many} commands")
sys.exit(bool(bad))
PYTHON
