#!/bin/sh
# Measures scripts of database commands: 10,000, 20,000 and 40,000 lines over 500, 1,000 and 2,000 keys in 50 directories,
# half of the lines behind the creations `set` and half `get`, beside a plain Rust program with a hash map that plays the
# same script to the same text. Prints seconds (the best of seven), ratios by the clock and of the processor, growth and the
# peak memory. Then the saving of 5,000, 10,000 and 20,000 keys to a file and the loading of that file, beside the same plain
# program: processor time (the least of fifteen), without that of the keys' creation, which a script that only makes them takes.
# Last the 40,000 lines with a link elsewhere in the database, and with each path through a link, beside those without a link.
# usage: bench/odb.sh PROGRAM
set -e
program=$(realpath "$1")
source=$(realpath "$(dirname "$0")/odb.rs")
folder=$(mktemp -d)
trap 'rm -rf "$folder"' EXIT
cd "$folder"
rustc -O --edition 2024 -o plain "$source"
python3 - "$program" <<'PYTHON'
import math, os, subprocess, sys, time

program = sys.argv[1]
FEWEST_LINES = 10000
FEWEST_KEYS = 500
DIRECTORIES = 50
FEWEST_SAVED = 5000


def path(key, root="/Equipment"):
    return "%s/Crate%d/Channel%d" % (root, key % DIRECTORIES, key)


def script(lines, keys, links=(), root="/Equipment"):
    written = ["create UINT32 " + path(key) for key in range(keys)] + list(links)
    for line in range(lines - keys):
        key = (line // 2) * 7919 % keys
        written.append("set %s %d" % (path(key, root), line) if line % 2 == 0 else "get " + path(key, root))
    return ("\n".join(written) + "\n").encode()


def seconds(command, script, runs=7):
    """The best time of some runs by the clock and of the processor, the peak memory in kB, and what was printed."""
    best, least, peak = math.inf, math.inf, 0
    for _ in range(runs):
        with open("script", "wb") as out:
            out.write(script)
        start = time.time()
        process = subprocess.Popen("exec %s < script > printed" % command, shell=True)
        _, status, usage = os.wait4(process.pid, 0)
        took = time.time() - start
        assert status == 0, command
        peak = max(peak, usage.ru_maxrss)
        best = min(best, took)
        least = min(least, usage.ru_utime + usage.ru_stime)
    with open("printed", "rb") as printed:
        return best, least, peak, printed.read()


first = None
for times in (1, 2, 4):
    lines, keys = times * FEWEST_LINES, times * FEWEST_KEYS
    took, busy_took, peak, printed = seconds(program + " run", script(lines, keys))
    plain, busy_plain, _, wanted = seconds("./plain", script(lines, keys))
    assert printed == wanted, "the two programs print different texts"
    first = first or took
    exponent = math.log(took / first) / math.log(times) if times > 1 else 1
    print("%6d lines  %5d keys  run %6.3f s  %5.1f times plain Rust, of the processor %5.1f  "
          "growth %5.2f of %d (exponent %4.2f)  peak %d kB"
          % (lines, keys, took, took / plain, busy_took / busy_plain, took / first, times, exponent, peak))


def busy(command, script, before=lambda: None, runs=15):
    """The least processor time of a program on a script."""
    least = None
    with open("script", "wb") as out:
        out.write(script)
    for _ in range(runs):
        before()
        with open("script", "rb") as given, open("printed", "wb") as printed:
            process = subprocess.Popen(command, stdin=given, stdout=printed)
            _, status, usage = os.wait4(process.pid, 0)
        assert status == 0, script[-40:]
        took = usage.ru_utime + usage.ru_stime
        least = took if least is None else min(least, took)
    return least


def remove():
    if os.path.exists("saved.odb"):
        os.remove("saved.odb")


def files(command, made):
    """What saving the keys that this script makes and loading that file take, and the text of the keys' directories."""
    made_took = busy(command, made)
    saved = busy(command, made + b"save saved.odb\n", remove) - made_took
    loaded = busy(command, b"load saved.odb\n") - busy(command, b"")
    with open("saved.odb", "rb") as text:
        return saved, loaded, text.read().partition(b"[/Equipment/Crate0]")[2]


first = None
for times in (1, 2, 4):
    keys = times * FEWEST_SAVED
    made = ("\n".join("create UINT32 " + path(key) for key in range(keys)) + "\n").encode()
    plain_saved, plain_loaded, wanted = files(["./plain"], made)
    saved, loaded, text = files([program, "run"], made)
    assert text == wanted, "the two programs save different texts"
    first = first or saved + loaded
    exponent = math.log((saved + loaded) / first) / math.log(times) if times > 1 else 1
    print("%6d keys  save %6.3f s  load %6.3f s of the processor  %5.1f and %5.1f times plain Rust, together %5.1f  "
          "growth %5.2f of %d (exponent %4.2f)"
          % (keys, saved, loaded, saved / plain_saved, loaded / plain_loaded,
             (saved + loaded) / (plain_saved + plain_loaded), (saved + loaded) / first, times, exponent))

LINK = ["link /Crates /Equipment"]
lines, keys = 4 * FEWEST_LINES, 4 * FEWEST_KEYS
took = busy([program, "run"], script(lines, keys))
beside = busy([program, "run"], script(lines, keys, LINK))
through = busy([program, "run"], script(lines, keys, LINK, "/Crates"))
print("%6d lines  with a link elsewhere %4.2f times, through a link %4.2f times as long of the processor"
      % (lines, beside / took, through / took))
PYTHON
