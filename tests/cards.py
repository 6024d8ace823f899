"""Compares what the program `cards` runs and is to print, case by case.

  cards.py proved        with the list `cards` of crates/card_texts/specs/Cards.antt, which is computed here
  cards.py rust ORACLE   with what the running Rust answers; it has no table checks, so codes 3 and 4 are not asked of it
"""
import re
import subprocess
import sys

SPEC = "crates/card_texts/specs/Cards.antt"
SHEETS = {"plain": "plain.sheet", "with_widths": "widths.sheet"}
TOKEN = re.compile(r'"(?:[^"\\]|\\.)*"|\[\]|[()]|∷|\+\+|[^\s()]+')


def body(name):
    """The definition of a name: its parameters, and the tokens after `=`."""
    plain = re.sub(r"--.*", "", open(SPEC).read())
    found = re.search(r"(?m)^%s((?: \w+)*) =(.*\n(?: .*\n|\n)*)" % name, plain)
    return found.group(1).split(), TOKEN.findall(found.group(2))


class Reader:
    """Lists, strings, numbers and calls, as far as the cards use them."""

    def __init__(self, tokens, held):
        self.tokens, self.at, self.held = tokens, 0, held

    def peek(self):
        return self.tokens[self.at] if self.at < len(self.tokens) else ")"

    def take(self):
        self.at += 1
        return self.tokens[self.at - 1]

    def whole(self):
        first = self.call()
        if self.peek() == "∷":
            self.take()
            return [first] + self.whole()
        if self.peek() == "++":
            self.take()
            return first + self.whole()
        return first

    def call(self):
        parts = []
        while self.peek() not in (")", "∷", "++"):
            parts.append(self.atom())
        return parts[0](*parts[1:]) if callable(parts[0]) else parts[0]

    def atom(self):
        token = self.take()
        if token == "(":
            inner = self.whole()
            self.take()
            return inner
        if token == "[]":
            return []
        if token[0] == '"':
            return token[1:-1].replace("\\t", "\t")
        if token.isdigit():
            return int(token)
        return self.held[token] if token in self.held else value(token)


def value(name):
    parameters, tokens = body(name)
    if not parameters:
        return Reader(tokens, BUILT_IN).whole()
    return lambda *given: Reader(tokens, {**BUILT_IN, **dict(zip(parameters, given))}).whole()


def ok(functions):
    return ["ok"] + ["n\t%d\t%s" % (i, ",".join(map(str, ns))) for i, ns in enumerate(functions)]


BUILT_IN = {
    "set": lambda ls, i, l: ls[:i] + [l] + ls[i + 1:],
    "take": lambda n, ls: ls[:n],
    "drop": lambda n, ls: ls[n:],
    "card": lambda sheet, text, says: (sheet, text, says),
    "ok": ok,
    "no": lambda *three: ["no\t%d\t%d\t%d" % three],
}


def lines(name):
    return open("crates/cards/data/" + name).read().splitlines()


def run():
    """Of each case: what it asks, its sheet, its module, and what is printed."""
    asked = re.findall(r'(plain|with_widths)\(\s*rt,\s*"([^"]*)",\s*"([^"]*)"', open("crates/cards/src/main.rt").read())
    printed = [part.splitlines() for part in open("crates/cards/stdout").read().split("card ")[1:]]
    if [title for _, title, _ in asked] != [part[0] for part in printed]:
        sys.exit("the program asks other cards than its stdout has")
    return [(title, SHEETS[way], module, part[1:]) for (way, title, module), part in zip(asked, printed)]


def same(title, ran, other):
    if ran != other:
        print("card %s: run as %r, not as %r" % (title, ran, other))
    return ran == other


def proved():
    cases = [case for case in run() if int(case[0].split(":")[0]) <= 9]
    cards = value("cards")
    good = same("1 to 9", len(cases), len(cards))
    for (title, sheet, module, answer), card in zip(cases, cards):
        good &= same(title, (lines(sheet), lines(module), answer), card)
    return good, len(cases)


def answered(oracle, module, sheet):
    """The Rust's first refusal over its four parts, or its numbers."""
    data = "crates/cards/data/"
    said = subprocess.run([oracle, data + module, data + sheet], capture_output=True, text=True).stdout.splitlines()
    parts = [line.split("|") for line in said]
    for part, *rest in parts:
        if part in ("dom", "num", "req", "ops") and rest[0] != "ok":
            return ["\t".join(["no"] + rest)]
    numbers = next(rest for part, *rest in parts if part == "num")
    return ["ok"] + ["n\t%d\t%s" % (i, listed) for i, listed in enumerate(numbers[2:])]


def rust(oracle):
    cases = [case for case in run() if not case[3][0].startswith(("no\t3\t", "no\t4\t"))]
    good = True
    for title, sheet, module, answer in cases:
        good &= same(title, answer, answered(oracle, module, sheet))
    return good, len(cases)


good, count = proved() if sys.argv[1:] == ["proved"] else rust(sys.argv[2])
if good:
    print("%d cases" % count)
sys.exit(not good)
