#!/usr/bin/env bash
# Times `rvd replay` against the run that made the journal: `rvd play` of one transaction with 25,000, 50,000 and 99,994 changes,
# and of whole analyses of generated programs; then `rvd replay` alone on journals of 999,998 entries, one of them of hundreds of
# megabytes. A script makes the files. Run it after `rt ci` has built the program.
. "$(dirname "$0")/program.sh"
needs python3
python3 - "$top" "$work" "$program" <<'END'
import resource, subprocess, sys, time
top, work, program = sys.argv[1:]
small = f"{top}/crates/rvd_main/data/A"

def best_of(runs, words):
    best, out = None, None
    for _ in range(runs):
        start = time.perf_counter()
        done = subprocess.run([program] + words, stdout=subprocess.PIPE)
        took = time.perf_counter() - start
        assert done.returncode == 0, (words, done.returncode)
        best, out = (took if best is None else min(best, took)), done.stdout
    return best, out

def against_the_run(name, file, events):
    """Plays events, replays what was printed, and compares histories, listings and times."""
    open(f"{work}/events", "w").write(events)
    played, out = best_of(3, ["play", file, f"{work}/events"])
    open(f"{work}/journal", "wb").write(out)
    replayed, again = best_of(3, ["replay", file, f"{work}/journal"])
    assert out[out.index(b"\nhistory ") + 1:] == again, name
    entries = int(out.split(b"\nend ", 1)[1].split(b"\n", 1)[0])
    print(f"bench_replay: {name}, {entries} entries: play {played:.3f} s, replay {replayed:.3f} s, {replayed / played:.2f} times")

def comments(count):
    lines = ["events 1 0", 's1 begin "comments"', "s1 block 20000000 00400000 rw-"]
    lines += [f's1 comment {0x20000000 + 4 * i:08x} eol "a note"' for i in range(count)]
    return "\n".join(lines + ["s1 commit", "s1 undo", "s1 redo", ""])

for count in (25000, 50000, 99994):
    against_the_run(f"{count} changes", small, comments(count))
for functions in (500, 1000):
    subprocess.run([sys.executable, f"{top}/scripts/generated_image.py", str(functions), f"{work}/image"], check=True)
    against_the_run(f"an analysis of {functions} functions", f"{work}/image", "events 1 1\ns1 full\nw1 settle 64\n")

def long_journal(path, text):
    """Half a million entries that begin, and as many that abort at once."""
    with open(path, "w") as out:
        out.write("journal 1 1 0\n")
        for k in range(499999):
            out.write(f'{2 * k + 1} s1 begin "{text}" = entry {k + 1}\n{2 * k + 2} s1 abort = rolled back\n')
        out.write("end 999998\n")
        return out.tell()

for length in (1, 500):
    size = long_journal(f"{work}/journal", "n" * length)
    took, out = best_of(1, ["replay", small, f"{work}/journal"])
    assert out.startswith(b"history 0\n"), out[:40]
    print(f"bench_replay: a journal of 999,998 entries, {size} bytes: {took:.3f} s")
print(f"bench_replay: at most {resource.getrusage(resource.RUSAGE_CHILDREN).ru_maxrss // 1024} MiB")
END
