#!/usr/bin/env bash
# Times importing and listing executables with 50,000, 100,000 and 199,999 symbols, which a script makes, by `rvd play` of an
# event file without calls. Run it after `rt ci` has built the program.
. "$(dirname "$0")/program.sh"
needs python3
python3 - "$top" "$work" "$program" <<'END'
import random, struct, subprocess, sys, time
top, work, program = sys.argv[1:]

def executable(count, seed):
    """One segment of 4 MiB less 16 bytes, and so many symbols at addresses in it, in no order; every fourth is a function."""
    order = random.Random(seed)
    size, base = 4194304 - 16, 0x10000
    names, entries = b"\0", [struct.pack("<IIIBBH", 0, 0, 0, 0, 0, 0)]
    for i in range(count):
        at = base + 4 * order.randrange(size // 4)
        entries.append(struct.pack("<IIIBBH", len(names), at, 0, 0x12 if i % 4 == 0 else 0x10, 0, 1))
        names += b"symbol_%d\0" % i
    code = bytes(size)
    offset = 52 + 32
    table = offset + size
    strings = table + 16 * len(entries)
    sections = strings + len(names)
    sections += -sections % 4
    head = b"\x7fELF\1\1\1" + bytes(9) + struct.pack("<HHIIIIIHHHHHH", 2, 243, 1, base, 52, sections, 0, 52, 32, 1, 40, 3, 2)
    load = struct.pack("<IIIIIIII", 1, offset, base, base, size, size, 5, 4)
    def section(kind, at, length, link, entry):
        return struct.pack("<IIIIIIIIII", 0, kind, 0, 0, at, length, link, 0, 4, entry)
    body = head + load + code + b"".join(entries) + names
    body += bytes(sections - len(body))
    return body + section(0, 0, 0, 0, 0) + section(2, table, 16 * len(entries), 2, 16) + section(3, strings, len(names), 0, 0)

events = f"{work}/none.events"
open(events, "w").write("events 1 0\n")
last = None
for count in (50000, 100000, 199999):
    path = f"{work}/{count}.elf"
    open(path, "wb").write(executable(count, 1))
    best = None
    for _ in range(5):
        start = time.perf_counter()
        done = subprocess.run([program, "play", path, events], stdout=subprocess.DEVNULL)
        took = time.perf_counter() - start
        assert done.returncode == 0, done.returncode
        best = took if best is None else min(best, took)
    ratio = f", {best / last:.2f} times the last" if last else ""
    print(f"bench_import: {count} symbols: {best:.3f} s{ratio}")
    last = best
END
