#!/usr/bin/env python3
"""Brings the names that this repository gives to definitions, fields and lemmas to Rattle's spelling.

usage: python3 tools/respell.py [--dry]      at the top, once, right after the kit's port.py

Definitions, fields and lemmas are in snake case, modules in camel case. A dash stays where a lemma about the length of
something joins two names, as in length-pick, and in the names that Rattle makes of the source (goals, loops, fields of c).
Functions of src/, strings, inputs and outputs keep their names. Names that would fall together are listed, and nothing is written.
"""

import glob
import os
import re
import subprocess
import sys

NAME = r"[A-Za-z_][\w']*(?:-[\w']+)+"
TOKEN = re.compile(r"(?<![\w'-])" + NAME + r"(?![\w'-])")
DECLARED = re.compile(r"^\s*(?:(?:pub|abbrev|unfoldable) )*(" + NAME + r")\s*(?:\([^)]*\)\s*|\{[^}]*\}\s*)*:(?!=)")
TYPE = re.compile(r"^\s*(?:pub )?(?:record|data) (" + NAME + r")")
MADE = re.compile(r"\b(?:goal|need|given|choice)\.")
FOLDER = re.compile(r"^crates/\w+/proofs/.*/(?:Answers|Invariants|Choices)\.antt$")
# names that would fall together with another one, and what they are called instead
OTHER = {
    "atom-known": "atom_is_known",
    "atom-place": "place_of_atom",
    "atom-range": "atom_in_range",
    "atom-shape": "atom_has_shape",
    "below-zero": "below_zero_lem",
    "bit-or": "bit-bit_or",
    "count-below": "number_below",
    "edge-kind": "edge_has_kind",
    "edge-known": "edge_is_known",
    "edge-range": "edge_in_range",
    "edge-shape": "edge_has_shape",
    "getD-none": "get_or-none",
    "head-kind": "head_has_kind",
    "head-range": "head_in_range",
    "head-shape": "head_has_shape",
    "joint-head": "joint_head_lem",
    "opposite-number": "opposite_number_lem",
    "pair-words": "pair_words_lem",
    "past-left": "past_left_part",
    "right-atom": "right_atom_lem",
    "right-head": "right_head_lem",
    "within-limits": "fits_limits",
}
MODULES = {"laws": "Laws"}


def texts():
    return sorted(glob.glob("crates/*/specs/**/*.antt", recursive=True) + glob.glob("crates/*/proofs/**/*.antt", recursive=True))


def sources():
    return sorted(glob.glob("crates/*/src/**/*.rt", recursive=True))


def read(path):
    with open(path, encoding="utf-8") as f:
        return f.read()


def declared():
    names = set()
    for path in texts():
        for line in read(path).splitlines():
            for m in (DECLARED.match(line), TYPE.match(line)):
                if m and not (FOLDER.match(path) and MADE.search(line)):
                    names.add(m[1])
    return names


def imported():
    """The dashed names that come from outside the repository."""
    own = "|".join(sorted(os.listdir("crates")))
    names = set()
    for path in texts() + sources():
        for m in re.finditer(r"use (\S+?)\.\{([^}]*)\}", read(path)):
            if not re.match(rf"Rattle\.(?:{own})\.", m[1]):
                names.update(TOKEN.findall(m[2]))
    return names


def renames():
    turned = {}
    for n in sorted(declared() - imported()):
        if not n.startswith("length-"):
            turned[n] = OTHER.get(n, n.replace("-", "_"))
    return turned


def together(turned):
    words = set()
    for path in texts() + sources():
        words.update(re.findall(r"(?<![\w'-])[A-Za-z_][\w']*(?![\w'-])", read(path)))
    new = list(turned.values())
    return sorted({n for n in new if n in words or new.count(n) > 1})


GHOST = re.compile(r"\bghost\b|\brequires\b|\bensures\b|[≡→×λ∷ℕ]")


def respelled(path, turned):
    text = read(path)

    def one(m):
        return turned.get(m[0], m[0])

    if path.endswith(".rt"):
        lines = [TOKEN.sub(one, l) if GHOST.search(l) else l for l in text.split("\n")]
        text = "\n".join(lines)
    else:
        text = TOKEN.sub(one, text)
    for old, new in MODULES.items():
        text = re.sub(rf"(Rattle\.\w+\.specs)\.{old}(?!\w)", rf"\1.{new}", text)
        if path.endswith("/specs/Lib.antt"):
            text = re.sub(rf"(?m)^((?:pub )?mod ){old}$", rf"\1{new}", text)
    return text


def main(argv):
    turned = renames()
    clash = together(turned)
    if "--dry" in argv:
        for n in sorted(turned):
            print(n, turned[n], "TOGETHER" if turned[n] in clash else "")
        return 0
    if clash:
        print("these would fall together with another name; give them one in OTHER:", *clash)
        return 1
    for path in texts() + sources():
        new = respelled(path, turned)
        if new != read(path):
            with open(path, "w", encoding="utf-8") as f:
                f.write(new)
    for old, new in MODULES.items():
        for place in sorted(glob.glob(f"crates/*/specs/{old}")) + sorted(glob.glob(f"crates/*/specs/{old}.antt")):
            subprocess.run(["mv", place, place.replace(f"/{old}", f"/{new}")], check=True)
    print(len(turned), "names respelled")
    return 0


if __name__ == "__main__":
    raise SystemExit(main(sys.argv[1:]))
