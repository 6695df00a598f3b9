#!/usr/bin/env python3
"""What must be believed: the definitions that the demands and the contracts of the exported functions rest on.

    tools/believed.py            the total
    tools/believed.py --list     the definitions, file by file, with their lines

Names are followed through crates/*/specs, from the records of the demands and from the contracts of the exported functions. The
functions of which the demands are proved (`cited` in the demands' proofs) are not followed: what they do is what the demands say.
It exits with 1 if an exported function has no contract, or if the contracts cite other functions than these. Comments, blank lines
and imports do not count. The script reads text and not meaning."""
import collections
import pathlib
import re
import sys

ROOT = pathlib.Path(__file__).resolve().parent.parent / "crates"
USE = re.compile(r"(?:ghost )?use Rattle\.(\w+?)\.(?:specs|proofs)\.([\w.]+?)(?:\.\{(.*?)\})?(?: as ([\w-]+))?;?$")
HEAD = re.compile(r"((?:(?:abbrev|unfoldable|pub)\s+)*)(data |record )?(\S+)\s*([:({].*)?$")
WORD = re.compile(r"[^\s(){}\[\];,λ|⌜⌝]+")


class Module:
    """One file of specs: its definitions (name to lines), its constructors (name to data type), and what it imports."""

    def __init__(self, lines):
        self.names, self.constructors, self.uses, self.aliases = {}, {}, {}, {}
        current = kind = None
        opened = []
        for line in lines:
            text = re.sub(r"(^|\s)--.*", "", line).rstrip()
            if not text or text.startswith(("infix", "pub mod ", "mod ")):
                continue
            if imports(self, text):
                continue
            head = HEAD.match(text.strip())
            marked = re.match(r" {2}(abbrev|unfoldable|pub|data|record) (?!\{)", text)
            if text.startswith("module "):
                current, kind, opened = None, None, [text]
                continue
            if not text[0].isspace() or (marked and kind not in ("data ", "record ")):
                if head and head[3] != "unfolding":
                    if head[4] or head[2]:
                        current, kind = head[3], head[2]
                        self.names.setdefault(current, opened if text[0].isspace() else [])
                        opened = []
                    elif head[3] in self.names:
                        current = head[3]
            elif kind == "data ":
                self.constructors[text.split(":")[0].replace("pub", "").strip()] = current
            if current:
                self.names[current].append(text)


def imports(module, text):
    found = USE.match(text)
    if found:
        place = (found[1], found[2])
        for name in (found[3] or "").split(","):
            module.uses[name.strip()] = place
        if found[4]:
            module.aliases[found[4]] = place
    return found or text.startswith("use ")


def load():
    modules = {}
    for path in [*ROOT.glob("*/specs/**/*.antt"), *ROOT.glob("demands/proofs/laws/Proofs.antt")]:
        crate, _, *inner = path.relative_to(ROOT).with_suffix("").parts
        modules[crate, ".".join(inner)] = Module(path.read_text(encoding="utf-8").split("\n"))
    return modules


def find(modules, place, word):
    """The definition that a word means in a module, as place and name."""
    module = modules[place]
    if "." in word and word.split(".")[0] in module.aliases:
        alias, word = word.split(".", 1)
        return own(modules, module.aliases[alias], word)
    for name in (word, f"◌{word}◌"):
        found = own(modules, place, name) or own(modules, module.uses.get(name), name)
        if found:
            return found
    for name in [*module.names, *module.uses]:
        if "◌" in name and word in [part for part in name.split("◌") if part]:
            return own(modules, place, name) or own(modules, module.uses.get(name), name)
    return None


def own(modules, place, name):
    module = modules.get(place)
    if module is None:
        return None
    name = name if name in module.names else module.constructors.get(name)
    return (place, name) if name else None


def reached(modules, seeds, closed):
    seen, todo = set(), list(seeds)
    while todo:
        place, name = todo.pop()
        if (place, name) in seen or (place, name) in closed:
            continue
        seen.add((place, name))
        for line in modules[place].names[name]:
            for word in WORD.findall(line):
                found = find(modules, place, word)
                if found:
                    todo.append(found)
    return seen


def contracts(modules):
    """What the contracts of the exported functions cite."""
    source = (ROOT / "vinzagew/src/lib.rt").read_text(encoding="utf-8")
    place = ("vinzagew", "the exported functions")
    modules[place] = module = Module([])
    for line in source.split("\n"):
        imports(module, line.strip())
    for name, contract in re.findall(r'extern "C" fn (\w+)\([^)]*\)(.*?)\n\{', source, re.S):
        if "ensures" not in contract:
            sys.exit(f"believed: {name} has no contract")
        for word in WORD.findall(contract):
            found = find(modules, place, word)
            if found:
                yield found


def main():
    modules = load()
    proofs = ("demands", "laws.Proofs")
    cited = " ".join(modules[proofs].names["cited"])
    closed = {find(modules, proofs, word) for word in re.findall(r"\w = ([\w-]+)[;\s}]", cited.split("{", 1)[1])}
    seeds = [(("demands", "Demands"), name) for name in modules["demands", "Demands"].names]
    exported = list(contracts(modules))
    if not closed <= set(exported):
        sys.exit(f"believed: the contracts do not cite {sorted(name for _, name in closed - set(exported))}")
    seen = reached(modules, [*seeds, *exported], closed)
    files = collections.defaultdict(list)
    for place, name in seen:
        files[place].append((name, len(modules[place].names[name])))
    if "--list" in sys.argv[1:]:
        for place in sorted(files):
            lines = sum(count for _, count in files[place])
            print(f"{lines:4}  {place[0]}/{place[1]}: {' '.join(sorted(name for name, _ in files[place]))}")
    total = sum(count for found in files.values() for _, count in found)
    print(f"to be believed: {total} lines in {len(seen)} definitions of {len(files)} files")


main()
