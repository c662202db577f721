#!/usr/bin/env python3
"""Writes the listings of examples/ as a constant: tests/unproved/examples.py > examples.rt"""
import glob

print("//! The listings of `examples/`.\npub const EXAMPLES: &[(&str, &[u8])] = &[")
for name in sorted(glob.glob("examples/*.s") + glob.glob("examples/rows/*.s")):
    with open(name, "rb") as it:
        text = "".join(chr(c) if 32 <= c < 127 and c not in b'"\\' else f"\\x{c:02x}" for c in it.read())
    print(f'    ("{name}", b"{text}"),')
print("];")
