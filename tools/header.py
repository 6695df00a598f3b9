#!/usr/bin/env python3
"""Holds include/vinzagew.h against the source: the same exported functions with the same parameters in the same order, none of
them with a result, and the version of the Rust package. Exits with 1 and says what differs. What the functions do is not
looked at."""
import pathlib
import re
import sys

ROOT = pathlib.Path(__file__).resolve().parent.parent
C_TYPES = {"u8": "uint8_t", "u16": "uint16_t", "u64": "uint64_t"}


def exported():
    """Each exported function's prototype in C: a slice is a pointer and a length, and nothing else is passed."""
    source = (ROOT / "crates/vinzagew/src/lib.rt").read_text(encoding="utf-8")
    found = re.findall(r'#\[unsafe\(no_mangle\)\]\s*pub extern "C" fn (\w+)\(([^)]*)\)\s*(.*)', source)
    if len(found) != source.count("no_mangle"):
        sys.exit("header: an exported function of the source could not be read")
    for name, parameters, rest in found:
        words = []
        for parameter in filter(None, (part.strip() for part in parameters.split(","))):
            slice_of = re.fullmatch(r"(\w+): &(mut )?\[(\w+)\]", parameter)
            if not slice_of or rest.startswith("->"):
                sys.exit(f"header: {name} has a result, or the parameter '{parameter}', which is no slice")
            const = "" if slice_of[2] else "const "
            words.append(f"{const}{C_TYPES[slice_of[3]]} *{slice_of[1]}, size_t {slice_of[1]}_len")
        yield name, ", ".join(words)


def declared(header):
    """Each prototype in the header, with its result."""
    code = re.sub(r"/\*.*?\*/|^#.*?(?<!\\)$", "", header, flags=re.S | re.M)
    for result, name, parameters in re.findall(r"([\w *]+?)\b(\w+)\(([^)]*)\);", code):
        yield name, ("" if result.strip() == "void" else result.strip() + " ") + " ".join(parameters.split())


def main():
    header = (ROOT / "include/vinzagew.h").read_text(encoding="utf-8")
    source, found = dict(exported()), dict(declared(header))
    wrong = [name for name in sorted({*source, *found}) if source.get(name) != found.get(name)]
    for name in wrong:
        print(f"{name}: the source has ({source.get(name)}), the header ({found.get(name)})", file=sys.stderr)
    package = re.search(r'^version = "(.*)"$', (ROOT / "rust/Cargo.toml").read_text(encoding="utf-8"), re.M)[1]
    version = re.search(r'^#define VINZAGEW_VERSION "(.*)"$', header, re.M)
    if not version or version[1] != package:
        print(f"version: the package has {package}, the header {version and version[1]}", file=sys.stderr)
        wrong.append("version")
    if wrong or not source:
        sys.exit(1)
    print(f"header: {len(source)} functions and the version as in the source")


main()
