#!/usr/bin/env python3
"""Reads what `readelf -hlsW` prints of an executable, and prints the facts that an import of the file has, in
the order and the form of the listing: blocks, the entry point, functions and symbols."""
import re
import sys

blocks, symbols, entry, in_symtab = [], [], 0, False
for line in sys.stdin:
    m = re.match(r"\s*Entry point address:\s*0x([0-9a-f]+)", line)
    if m:
        entry = int(m.group(1), 16)
    m = re.match(r"\s*LOAD\s+0x\S+\s+0x(\S+)\s+0x\S+\s+0x(\S+)\s+0x(\S+)\s+([RWE ]{3})", line)
    if m:
        start, filled, size = (int(m.group(k), 16) for k in (1, 2, 3))
        flags = m.group(4)
        perm = ("r" if "R" in flags else "-") + ("w" if "W" in flags else "-") + ("x" if "E" in flags else "-")
        if filled and size:
            blocks.append((start, filled, perm, "init"))
        if size > filled:
            blocks.append((start + filled, size - filled, perm, "none"))
    if line.startswith("Symbol table"):
        in_symtab = "'.symtab'" in line
    m = re.match(r"\s*(\d+):\s+([0-9a-f]+)\s+\S+\s+(\S+)\s+(\S+)\s+\S+\s+(?:\[.*?\]\s+)?(\S+)(?:\s+(\S+))?\s*$", line)
    if in_symtab and m and m.group(1) != "0":
        symbols.append((int(m.group(2), 16), m.group(3), m.group(4), m.group(5), m.group(6) or ""))


def holds(at):
    return at % 4 == 0 and any(start <= at < start + size for start, size, _, _ in blocks)


facts, slots, functions = [], {}, set()
for start, size, perm, init in blocks:
    facts.append((start, 0, 0, f"block {size:08x} {perm} {init}"))
if holds(entry):
    facts.append((entry, 1, 0, "mark"))
names = {}
for value, kind, bind, section, name in symbols:
    if kind not in ("NOTYPE", "OBJECT", "FUNC") or section in ("UND", "COM") or not name or len(name) > 1000:
        continue
    if bind == "LOCAL" and kind == "NOTYPE" and name.startswith("$"):
        continue
    slot = slots.get(value, 0)
    if slot == 64:
        continue
    slots[value] = slot + 1
    names.setdefault(value, name)
    facts.append((value, 4, slot, f'symbol {slot} "{name}"'))
    if kind == "FUNC" and holds(value):
        functions.add(value)
for at in functions:
    facts.append((at, 2, 0, f'func "{names[at]}"'))
for at, _, _, text in sorted(facts):
    print(f"{at:08x} imported {text}")
