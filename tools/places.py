#!/usr/bin/env python3
"""Counts the places in src/ that docs/DESIGN-PASS.md speaks of; with --list, a line for each.

    python3 tools/places.py [--list] [COMMIT]

It reads the text of crates/*/src/*.rt, of a commit or of the working tree. It knows no types and
judges nothing: what it takes for a place of a point is said beside the function of that point.
"""
import re
import subprocess
import sys
from collections import defaultdict

FN = r"^\s*(?:pub )?(?:extern \"C\" )?fn (\w+)"
WORDS = {"if", "else", "while", "loop", "for", "in", "return", "let", "mut", "match", "as", "break", "continue"}


def git(*args):
    return subprocess.run(("git",) + args, capture_output=True, text=True, check=True).stdout


def files(commit, pattern):
    names = git("ls-tree", "-r", "--name-only", commit) if commit else git("ls-files")
    for name in sorted(n for n in names.split("\n") if re.fullmatch(pattern, n)):
        yield name, git("show", f"{commit}:{name}") if commit else open(name, encoding="utf-8").read()


class Item:
    """A function or a type: where it stands, its name, its text up to the body, and the body."""

    def __init__(self, file, text, match, body_at):
        self.file, self.name = file, match.group(1)
        self.line = text.count("\n", 0, match.start() + len(match.group(0)) - len(match.group(0).lstrip())) + 1
        end = closing(text, body_at)
        self.head, self.body = text[match.start() : body_at], text[body_at : end + 1]

    def at(self, offset=0):
        return f"{self.file}:{self.line + self.head.count(chr(10)) + self.body[:offset].count(chr(10))}"

    def __str__(self):
        return f"{self.file}:{self.line}: {self.name}"


def closing(text, at):
    depth = 0
    for i in range(at, len(text)):
        depth += {"{": 1, "}": -1}.get(text[i], 0)
        if depth == 0:
            return i
    return len(text) - 1


def functions(file, text):
    for m in re.finditer(FN, text, re.M):
        body = re.compile(r"^\s*\{$|\)[^\n;{]*\{$", re.M).search(text, m.start())
        if body:
            yield Item(file, text, m, body.end() - 1)


def types(kind, file, text):
    for m in re.finditer(rf"^(?:pub )?{kind} (\w+)[^\n]*\{{$", text, re.M):
        yield Item(file, text, m, m.end() - 1)


def fields(item):
    return re.findall(r"^\s+(?:pub )?(\w+): (.*),$", item.body, re.M)


def parameters(f):
    flat = " ".join(f.head.split())
    inner = re.search(r"fn \w+(?:<[^(]*>)?\((.*?),? ?\)(?: ->| requires| ensures|$)", flat)
    return [p for p in re.split(r", (?=\w+:|&)", inner.group(1).strip()) if p] if inner else []


def result(f):
    found = re.search(r"\) -> (.*?)(?: requires| ensures|$)", " ".join(f.head.split()))
    return found.group(1).strip() if found else ""


def loops(f):
    """Each `while` or `loop` of a function, with its place and its body."""
    for m in re.finditer(r"^(\s*)(while [^\n]*|loop) \{$", f.body, re.M):
        yield m.start(), m.group(2), f.body[m.end() : closing(f.body, m.end() - 1)]


# 1: an enum of two cases, or with a case for a refusal or for nothing.
def own_options(items):
    for e in items["enum"]:
        cases = re.findall(r"^\s+(\w+)(?:\(.*\))?,$", e.body, re.M)
        if len(cases) == 2 or set(cases) & {"Refused", "Nothing", "NoRule", "NoTaker", "Over"}:
            yield f"{e} = {' | '.join(cases)}"


# 1: a struct with a `bool`, or with an enum that tells of a refusal, beside other fields.
def flags(items):
    tells = {"bool", "Outcome", "Verdict", "Step", "Found"}
    for s in items["struct"]:
        flag = [f for f, t in fields(s) if t in tells]
        if flag and len(fields(s)) > 1:
            yield f"{s}.{flag[0]}"


# 1: a function that answers a fixed number in one case and works one out in another; and each number of a question that
# is written into an answer.
def codes(items):
    for f in items["fn"]:
        fixed = set(re.findall(r"^\s*(?:return )?(\d+|NOT_LENT);?$", f.body, re.M))
        ends = re.findall(r"^\s*return .+;$", f.body, re.M)
        if re.fullmatch(r"u8|u16|u32|u64|usize", result(f)) and fixed and len(fixed) <= len(ends):
            yield f"{f}: {', '.join(sorted(fixed))}"
        number = r"\b(?:answer|failed|refused|refusal|Refused)\((\d+|NOT_LENT),|\b(?:number|question): (\d+|[A-Z][A-Z_]+),|= \[(\d+),"
        for m in re.finditer(number, f.body):
            yield f"{f.at(m.start())}: {f.name}: question {''.join(g or '' for g in m.groups())}"


# 2: functions whose bodies differ in names and numbers alone.
def twins(items):
    same = defaultdict(list)
    for f in items["fn"]:
        order = {}
        words = re.findall(r"\w+|[^\w\s]", re.sub(r"//[^\n]*", "", f.body))
        shape = [w if w in WORDS or not re.match(r"\w", w) else "0" if w[0].isdigit() else order.setdefault(w, str(len(order))) for w in words]
        if len(words) > 14:
            same[" ".join(shape)].append(f)
    for group in same.values():
        for f in group if len(group) > 1 else []:
            yield f"{f}, as {', '.join(g.name + ' of ' + g.file.split('/')[1] for g in group if g is not f)}"


# 3: a loop that steps a variable by a fixed amount each time.
def counted(items):
    step = r"^\s*(\w+) (?:\+=|-=) \d+;$|^\s*(\w+) = \w+ [+-] 1;$"
    for f in items["fn"]:
        for at, head, body in loops(f):
            if re.search(step, body, re.M):
                yield f"{f.at(at)}: {f.name}: {head}"


# 4: a function that by its name compares, copies, converts or prints, or finds the lesser of two.
def by_hand(items):
    name = r"same_\w+|wide|widened|three|\w+_numbers|put_(byte|word|decimal|number|last|one|two)|hexadecimal_digit"
    name += r"|show_(word|pair|numbers|byte|front|entries)|lesser|least|append_part|at_end|copy\w*|fill"
    for f in items["fn"]:
        if re.fullmatch(name, f.name):
            yield str(f)


# 5: more than five parameters.
def many_parameters(items):
    for f in items["fn"]:
        if len(parameters(f)) > 5:
            yield f"{f}: {len(parameters(f))}"


# 6: an array and a length beside it, or several arrays by one index, as parameters or fields.
def beside(items):
    for f in items["fn"]:
        array = [p for p in parameters(f) if re.search(r"\[\w+; \w+\]", p)]
        length = [p for p in parameters(f) if re.match(r"(count|items|size|met|classes|due|height): usize", p)]
        if array and length:
            yield str(f)
    for s in items["struct"]:
        arrays = [n for n, t in fields(s) if re.match(r"\[\w+; \w+\]", t)]
        if len(arrays) > 1 or (arrays and any(n in ("count", "items", "classes") for n, _ in fields(s))):
            yield f"{s}: {', '.join(arrays)}"


# 7: a flag or an enum that says which step to run.
def switches(items):
    for f in items["fn"]:
        if re.search(r"\bif !?(by_rows|words)\b|\bmatch kind\b", f.body):
            yield str(f)


def main():
    rest = [a for a in sys.argv[1:] if a != "--list"]
    commit = rest[0] if rest else None
    items = {"fn": [], "struct": [], "enum": []}
    for file, text in files(commit, r"crates/[^/]+/src/.*\.rt"):
        items["fn"] += functions(file, text)
        items["struct"] += types("struct", file, text)
        items["enum"] += types("enum", file, text)
    answers = sum(
        len(re.findall(r"^(?:pub )?\S+ : goal\.", text, re.M))
        for _, text in files(commit, r"crates/.*/proofs/.*/Answers\.antt")
    )
    points = [
        ("1 own enum like Option or Result", own_options), ("1 flag with a value beside it", flags),
        ("1 number for a kind or a refusal", codes), ("2 functions of one shape", twins),
        ("3 loop that counts by hand", counted), ("4 by hand what a derive or the library does", by_hand),
        ("5 more than five parameters", many_parameters), ("6 array with its length beside it", beside),
        ("7 switch on which step to run", switches),
    ]
    for name, count in points:
        places = list(count(items))
        print(f"{name}: {len(places)}")
        for place in places if "--list" in sys.argv else []:
            print("    " + place)
    print(f"8 answers to goals: {answers}")


main()
