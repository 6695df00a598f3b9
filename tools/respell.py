#!/usr/bin/env python3
"""Respells the repository's own definitions and lemmas in specs/, proofs/ and the clauses of src/; run once, after the port of the kit.

usage: tools/respell.py [--check]     --check writes nothing and lists what would change

Definitions, fields, constructors and local names are in snake case. A lemma's name is in snake case too, but a dash joins two names
that stand beside each other in it: a definition of this repository, or a word of the library from WORDS. Names of src/, strings, and
what an older proof file calls `tie.NAME` stay. Two names that would fall together in a file are reported, and nothing is written.
"""

import collections
import glob
import re
import sys

NAME = r'[^\s(){}.;,@"«»]+'
COMMENT = re.compile(r'(?<![^\s(){}.;,@"«»])--[^\n]*')
DECLARED = re.compile(r"(?m)^( *)((?:(?:abbrev|pub|unfoldable|data|record) )*)(" + NAME + r")((?: \{[^{}\n]*\}| \([^()\n]*\))*) :(?= |$)([^\n]*)")
HEAD = re.compile(r"(?m)^( *)(?:pub )?(?:data|record) (" + NAME + r")(?= )")
USE = re.compile(r"(?m)^(?:pub |ghost )*use ([^\s;{]+?)(?:\.\{([^}]*)\})?(?: as (\S+?))?;?$")
WORDS = set(
    """length append take drop map get_or slice_set set replicate reverse nil cons mem sum filter flat_map head tail add sub mul div mod pow
    min max or and not xor bit_or bit_and bit_xor beq eqb leb ltb cond true false some none zero suc all any step lt le eq ne""".split()
)
OLD_WORDS = {"getD": "get_or", "flatMap": "flat_map"}
# A lemma that would get the name of a definition beside it.
BY_HAND = {"bit-or": "bit-or", "bit-and": "bit-and", "bit-xor": "bit-xor"}


def paths():
    return sorted(glob.glob("crates/*/specs/**/*.antt", recursive=True) + glob.glob("crates/*/proofs/**/*.antt", recursive=True))


def read(path):
    with open(path, encoding="utf-8") as f:
        return f.read()


def words(name):
    return "_".join(OLD_WORDS.get(w, w) for w in re.split("[-_]", name)).split("_")


def snake(name):
    return "_".join(words(name))


def joined(name, known):
    """The lemma's name: dashes between names that stand beside each other."""
    parts, left, out = [], words(name), ""
    while left:
        n = next((k for k in range(len(left), 0, -1) if "_".join(left[:k]) in known), 0)
        parts.append(("_".join(left[: n or 1]), n > 0))
        left = left[n or 1 :]
    for i, (text, is_name) in enumerate(parts):
        out += ("" if i == 0 else "-" if is_name and parts[i - 1][1] else "_") + text
    return out


def declarations():
    """What the texts declare: name -> its kinds, out of definition, type, member and lemma."""
    kinds = collections.defaultdict(set)
    for path in paths():
        text = COMMENT.sub("", read(path))
        heads = [(m.start(), len(m[1]), m[2]) for m in HEAD.finditer(text)]
        inside = None
        for m in DECLARED.finditer(text):
            depth, head, name, typed = len(m[1]), m[2].split(), m[3], m[5]
            while heads and heads[0][0] <= m.start():
                inside = heads[0][1]
                kinds[heads.pop(0)[2]].add("type")
            if "data" in head or "record" in head:
                continue
            if inside is not None and depth <= inside:
                inside = None
            if "tie." in typed or name.endswith(("-spec", "_spec")) and path.endswith("Proof.antt"):
                continue
            if inside is not None:
                kinds[name].add("member")
            elif "abbrev" in head or "unfoldable" in head:
                kinds[name].add("definition")
            else:
                kinds[name].add("lemma" if depth == 0 or "pub" in head else "local")
    return kinds


def imports(text):
    own, others = set(), set()
    for path, items, alias in USE.findall(text):
        steps = path.split(".")
        names = re.findall(NAME, items) or [alias or steps[-1]]
        of_others = steps[0] != "Rattle" or re.fullmatch(r"core|std(_\w+)?|libc|io|os|check", steps[1] if len(steps) > 1 else "")
        (others if of_others else own).update(names)
    return own, others


class Respelling:
    def __init__(self):
        self.kinds = declarations()
        self.kinds.pop("◌∷◌", None)
        known = WORDS | {snake(n) for n, k in self.kinds.items() if k & {"definition", "type"} and len(n) > 1}
        self.new = {}
        for n, k in self.kinds.items():
            if not re.search("[-_]|getD|flatMap", n) or "◌" in n:
                continue
            if n in BY_HAND:
                self.new[n] = BY_HAND[n]
            elif k == {"type"}:
                continue
            elif k & {"definition", "member", "local"}:
                self.new[n] = snake(n)
            else:
                self.new[n] = joined(n, known)
        self.members = {n for n, k in self.kinds.items() if "member" in k}
        self.said = []

    def in_code(self, code, others, local):
        """The words of code, respelled; a name behind a dot turns if it is a member, or stands behind a module."""

        def turn(m):
            word, at = m[0], m.start()
            if at and code[at - 1] == ".":
                before = re.search(NAME + r"\.$", code[:at][-80:])
                head = before[0][:-1] if before else ""
                if head == "tie" or head in others:
                    return word
                if word in self.members or head[:1].isupper() and word in self.kinds:
                    return self.new.get(word, word)
                return word
            if word in others:
                return word
            if word in self.new:
                return self.new[word]
            if local and "-" in word and re.fullmatch(r"[a-z][\w'-]*[₀-₉]*", word):
                self.local.add(word)
                return snake(word)
            return word

        return re.sub(NAME, turn, code)

    def file(self, path):
        text = read(path)
        own, others = imports(text if path.endswith(".antt") else "\n".join(l for l in text.split("\n") if l.startswith("ghost use")))
        others -= own
        self.local = set()
        is_old_proof = path.endswith("/Proof.antt")
        bare = {w for w in re.findall(NAME, COMMENT.sub("", text)) if w in self.new}
        out, last = [], 0
        for m in re.finditer(r"--[^\n]*" if path.endswith(".antt") else r"//[^\n]*|\"(?:\\.|[^\"\\])*\"", text):
            if path.endswith(".antt") and not COMMENT.match(text, m.start()):
                continue
            out.append(self.turn_code(path, text[last : m.start()], others, not is_old_proof))
            said = m[0]
            if not said.startswith('"'):
                said = re.sub(r"`[^`\n]*`", lambda s: self.in_code(s[0][1:-1], set(), False).join("``"), said)
                said = re.sub(NAME, lambda s: self.new[s[0]] if s[0] in bare and "-" in s[0] else s[0], said)
            out.append(said)
            last = m.end()
        out.append(self.turn_code(path, text[last:], others, not is_old_proof))
        new = "".join(out)
        self.collisions(path, text, new, others)
        return text, new

    def turn_code(self, path, code, others, local):
        if path.endswith(".antt"):
            return self.in_code(code, others, local)
        clause = r"(?:requires|ensures|ghost)\*?\s+(?:\w+\s*)?(?::\s*)?\{|ghost use\b[^;]*;"
        out, last = [], 0
        for m in re.finditer(clause, code):
            if m.start() < last:
                continue
            end = m.end()
            if not m[0].startswith("ghost use"):
                deep = 1
                while deep and end < len(code):
                    deep += {"{": 1, "}": -1}.get(code[end], 0)
                    end += 1
            out += [code[last : m.start()], self.in_code(code[m.start() : end], others, True)]
            last = end
        return "".join(out) + code[last:]

    def collisions(self, path, text, new, others):
        code = USE.sub(lambda m: m[2] or "", COMMENT.sub("", text))
        if path.endswith(".rt"):
            code = " ".join(re.findall(r"(?:requires|ensures)[^{]*\{([^{}]*)", code)) + " ".join(imports("\n".join(l for l in text.split("\n") if l.startswith("ghost use")))[0])
        code = re.sub(r"\." + NAME, "", code)
        met = {}
        for w in sorted(set(re.findall(NAME, code))):
            to = w if w in others else self.new.get(w, snake(w) if w in self.local else w)
            if to in met and met[to] != w:
                self.said.append(f"{path}: {met[to]} and {w} would both be {to}")
            met[to] = w


def main():
    check = "--check" in sys.argv[1:]
    it = Respelling()
    done = [(p, *it.file(p)) for p in paths() + sorted(glob.glob("crates/*/src/*.rt"))]
    taken = collections.defaultdict(set)
    for n in it.kinds:
        taken[it.new.get(n, n)].add(n)
    for to, names in sorted(taken.items()):
        if len(names) > 1:
            print("note: one name for", *sorted(names))
    if check:
        for n in sorted(it.new):
            if it.new[n] != n:
                print(f"{n}\t{it.new[n]}\t{','.join(sorted(it.kinds[n]))}")
    if it.said:
        print("\n".join(it.said))
        if not check:
            raise SystemExit(1)
    if not check:
        for path, old, new in done:
            if old != new:
                with open(path, "w", encoding="utf-8") as f:
                    f.write(new)


if __name__ == "__main__":
    main()
