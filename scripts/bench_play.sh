#!/usr/bin/env bash
# Times `rvd play` on event files of one transaction with 25,000, 50,000 and 99,994 changes, which is committed, undone and
# redone, and on one of 33 MB. A script makes the files. Run it after `rt ci` has built the program.
. "$(dirname "$0")/program.sh"
needs python3
python3 - "$top" "$work" "$program" <<'END'
import resource, subprocess, sys, time
top, work, program = sys.argv[1:]

def events(count, text):
    """A block, and a comment at each of so many addresses in it, in order."""
    lines = ["events 1 0", 's1 begin "comments"', "s1 block 20000000 00400000 rw-"]
    lines += [f's1 comment {0x20000000 + 4 * i:08x} eol "{text}"' for i in range(count)]
    return "\n".join(lines + ["s1 commit", "s1 undo", "s1 redo", ""])

def timed(name, text, wanted):
    path = f"{work}/events"
    open(path, "w").write(text)
    best = None
    for _ in range(3):
        start = time.perf_counter()
        done = subprocess.run([program, "play", f"{top}/crates/rvd_main/data/A", path], stdout=subprocess.PIPE)
        took = time.perf_counter() - start
        assert done.returncode == 0, done.returncode
        best = took if best is None else min(best, took)
    # Behind the journal, which has an entry for each line, and no answers the history begins.
    lines = done.stdout.split(b"\n")
    entries = text.count("\n") - 1
    head = lines[entries + 1:entries + 5]
    assert head[:3] == [f"end {entries}".encode(), b"answers 0", b"history 3"], head
    assert head[3] == f'1 commit s1 "comments" {wanted}'.encode(), head
    return best, len(text)

last = None
for count in (25000, 50000, 99994):
    took, size = timed(count, events(count, "a note"), count + 1)
    ratio = f", {took / last:.2f} times the last" if last else ""
    print(f"bench_play: {count} changes committed, undone and redone ({size} bytes): {took:.3f} s{ratio}")
    last = took
took, size = timed("long", events(99994, "n" * 300), 99995)
print(f"bench_play: an event file of {size} bytes and 100,000 lines: {took:.3f} s")
print(f"bench_play: at most {resource.getrusage(resource.RUSAGE_CHILDREN).ru_maxrss // 1024} MiB")
END
