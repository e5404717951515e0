#!/usr/bin/env python3
"""Spells the constants of `angle` that are one letter and a capital (`kPi2`: `k_pi2`), and `tMax` of `sight`, in snake case: what respell.py passed over.

usage: respell_letters.py [ROOT]      once, after respell.py
"""
import glob
import os
import re
import sys


def snake(m):
    return re.sub(r"(?<=[a-z0-9'])[A-Z](?=[a-z0-9])", lambda c: "_" + c[0].lower(), m[0])


def main(argv):
    root = argv[0] if argv else "."
    for crate, name in ("angle", "k[A-Z][A-Za-z0-9]*"), ("cone", "k[A-Z][A-Za-z0-9]*"), ("sight", r"tMax\b"):
        files = [f for d in ("specs", "proofs") for f in glob.glob(os.path.join(root, "crates", crate, d, "**", "*.antt"), recursive=True)]
        for path in files + glob.glob(os.path.join(root, "crates", crate, "src", "*.rt")):
            with open(path, encoding="utf-8", newline="") as f:
                text = f.read()
            new = re.sub(rf"(?<![\w'.-]){name}", snake, text)
            if new != text:
                with open(path, "w", encoding="utf-8", newline="") as f:
                    f.write(new)


if __name__ == "__main__":
    main(sys.argv[1:])
