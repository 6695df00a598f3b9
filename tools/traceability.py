#!/usr/bin/env python3
"""Holds docs/TRACEABILITY.md against the tree: every definition, theorem, function and edit that a row cites is declared at the place
that the row names. Exits with 1 and says what is not there. Whether it is the right one is for a reader."""
import pathlib
import re
import sys

ROOT = pathlib.Path(__file__).resolve().parent.parent
CITED = re.compile(r"(\w+): ((?:laws\.|proofs\.)?\w+|must-fail): ((?:`[^`]+`(?:, )?)+)")


def declared(crate, module):
    """The names that are declared at a place: in a module of specs or proofs, in the source, or as edits."""
    folder = ROOT / "crates" / crate
    if module == "must-fail":
        return {path.stem for path in folder.glob("must-fail/*.edit")}
    if module == "src":
        text = "\n".join(path.read_text(encoding="utf-8") for path in folder.glob("src/*.rt"))
        return set(re.findall(r"\b(?:fn|struct|enum|const) (\w+)", text))
    place = module.replace(".", "/")
    sides = [place] if module.startswith("proofs.") else [f"specs/{place}", f"proofs/{place}"]
    paths = [path for path in ((folder / side).with_suffix(".antt") for side in sides) if path.is_file()]
    if not paths:
        return None
    text = re.sub(r"--.*", "", "\n".join(path.read_text(encoding="utf-8") for path in paths))
    heads = r"^\s*(?:abbrev |unfoldable )?(?:pub )?(?:data |record )?([^\s(){}:]+)\s*(?=[:({])"
    return set(re.findall(heads, text, re.M))


def main():
    cited, wrong = 0, []
    for number, line in enumerate((ROOT / "docs/TRACEABILITY.md").read_text(encoding="utf-8").split("\n"), 1):
        for crate, module, names in CITED.findall(line) if line.startswith("|") else []:
            there = declared(crate, module)
            for name in re.findall(r"`([^`]+)`", names):
                cited += 1
                if there is None or not set(name.split(".")) <= there:
                    wrong.append(f"docs/TRACEABILITY.md:{number}: no {name} in {crate}: {module}")
    for message in wrong:
        print(message, file=sys.stderr)
    if wrong or not cited:
        sys.exit(1)
    print(f"traceability: {cited} citations, each found at its place")


main()
