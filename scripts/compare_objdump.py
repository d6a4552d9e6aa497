"""Reads a disassembly of llvm-objdump or GNU objdump.

`words FILE` prints a line `ADDRESS WORD` for each instruction of it, and `compare FILE OURS NAME`
compares its texts with those of the lines `ADDRESS WORD TEXT` of OURS.
"""

import re
import sys

NAMES = (
    "zero ra sp gp tp t0 t1 t2 s0 s1 a0 a1 a2 a3 a4 a5 a6 a7 s2 s3 s4 s5 s6 s7 s8 s9 s10 s11 t3 t4 t5 t6"
).split()
TARGETS = {"jal", "beq", "bne", "blt", "bge", "bltu", "bgeu"}


def instructions(path):
    """The address, the word and the text of each line of a disassembly."""
    for line in open(path):
        bytewise = re.match(r"\s*([0-9a-f]+):\s+((?:[0-9a-f]{2} ){4})\s*\t?(.*)", line)
        wordwise = re.match(r"\s*([0-9a-f]+):\s+([0-9a-f]{8})\s+(.*)", line)
        if bytewise:
            word = "".join(reversed(bytewise[2].split()))
            yield int(bytewise[1], 16), int(word, 16), bytewise[3].strip()
        elif wordwise:
            yield int(wordwise[1], 16), int(wordwise[2], 16), wordwise[3].strip()


def operand(mnemonic, text):
    """An operand with one spelling for each register and number."""
    text = re.sub(r"\s*(<.*>|#.*)$", "", text)
    if text == "fp":
        return "s0"
    if re.fullmatch(r"x([12]?[0-9]|3[01])", text):
        return NAMES[int(text[1:])]
    if mnemonic in TARGETS and re.fullmatch(r"(0x)?[0-9a-f]+", text) and text not in NAMES:
        return int(text, 16) % 2**32
    if re.fullmatch(r"-?(0x[0-9a-f]+|[0-9]+)", text):
        return int(text, 0) if "x" in text else int(text)
    indirect = re.fullmatch(r"(-?[0-9]+)\((\w+)\)", text)
    if indirect:
        return int(indirect[1]), operand(mnemonic, indirect[2])
    return text


def parts(text):
    """The mnemonic and the operands of a text."""
    mnemonic, _, rest = text.replace("\t", " ").partition(" ")
    if mnemonic in ("fence", "fence.tso"):
        return ("fence",)
    operands = [part.strip() for part in rest.strip().split(",") if part.strip()]
    return (mnemonic, *(operand(mnemonic, part) for part in operands))


def compare(theirs, ours, name):
    """Compares the texts, and says how many words were alike."""
    words, mnemonics, differing = 0, set(), 0
    for (address, word, text), line in zip(instructions(theirs), open(ours), strict=True):
        our_address, our_word, our_text = line.rstrip("\n").split(" ", 2)
        assert (int(our_address, 16), int(our_word, 16)) == (address, word)
        words += 1
        mnemonics.add(parts(our_text)[0])
        if parts(text) != parts(our_text):
            differing += 1
            print(f"{address:08x} {word:08x} ours: {our_text}  theirs: {text}")
    print(f"{name}: {words} words with {len(mnemonics)} mnemonics, {differing} differ")
    return 1 if differing or not words else 0


if sys.argv[1] == "words":
    for address, word, _ in instructions(sys.argv[2]):
        print(f"{address:08x} {word:08x}")
else:
    sys.exit(compare(*sys.argv[2:5]))
