#!/bin/sh
# Measures `check`, `dump` and `analyze` on run files of some 100 MB and of twice and four times as much, beside `cat` of
# the same file and a plain Rust program that prints the same text (bench/tools.rs): files of events of 64 bytes alone, each
# with a bank of 8 words, and files of smaller events with one of 1 MB after each 9,999. The text of `dump` goes to a pipe into
# `wc -c`. The programs run in turn; prints seconds by the clock and of the processor (the least of nine), ratios, the
# exponents of growth since the first size, and the peak memory.
# usage: bench/tools.sh PROGRAM [MEGABYTES]
set -e
program=$(realpath "$1")
size=${2:-100}
folder=$(mktemp -d)
trap 'rm -rf "$folder"' EXIT
rustc -O --edition 2024 -o "$folder/plain" "$(dirname "$0")/tools.rs"
cd "$folder"
python3 - "$program" "$size" <<'PYTHON'
import math, os, struct, subprocess, sys, time

program, size = sys.argv[1], int(sys.argv[2]) * 1000000


def header(event_id, mask, serial, time_stamp, length):
    return struct.pack("<HHIII", event_id, mask, serial, time_stamp, length)


def bank_area(name, words):
    data = struct.pack("<%dI" % len(words), *words)
    data += bytes(-len(data) % 8)
    bank = struct.pack("<4sHH", name, 6, 4 * len(words)) + data
    return struct.pack("<II", len(bank), 1) + bank


def words_of(serial):
    """8 words of 32 bits that differ from event to event."""
    return [(serial * 2654435761 + 40503 * k) % 2**32 for k in range(8)]


SMALL_BODIES = [bank_area(b"ADC0", words_of(serial)) for serial in range(64)]


def small_body(serial):
    return SMALL_BODIES[serial % 64]


SMALL, LARGE = bank_area(b"ADC0", [1, 2, 3, 4]), bytes(1000000)


def mixed_body(serial):
    return LARGE if serial % 10000 == 0 else SMALL


def write_file(path, limit, body_of):
    """A run file of at least so many bytes."""
    with open(path, "wb") as out:
        out.write(header(0x8000, 0x494D, 1, 1700000000, 0))
        written, serial = 32, 0
        while written < limit:
            serial += 1
            body = body_of(serial)
            out.write(header(1, 1, serial, 1700000000 + serial // 10000, len(body)) + body)
            written += 16 + len(body)
        out.write(header(0x8001, 0x494D, 1, 1700010000, 0))


class Least:
    """The least that the runs of a command took, by the clock and of the processor, and the most memory."""

    def __init__(self):
        self.clock, self.busy, self.peak = None, None, 0

    def run(self, command):
        start = time.time()
        process = subprocess.Popen(command, shell=True)
        _, status, usage = os.wait4(process.pid, 0)
        clock, busy = time.time() - start, usage.ru_utime + usage.ru_stime
        assert status == 0, command
        self.peak = max(self.peak, usage.ru_maxrss)
        self.clock = clock if self.clock is None else min(self.clock, clock)
        self.busy = busy if self.busy is None else min(self.busy, busy)


def in_turn(commands, runs=9):
    """What each of these commands takes at least, where one runs after the other."""
    least = [Least() for _ in commands]
    for _ in range(runs):
        for one, command in zip(least, commands):
            one.run(command)
    return least


def text_sum(command):
    return subprocess.run(command + " | sha256sum", shell=True, capture_output=True, check=True).stdout


for kind, body_of in (("events of 64 bytes", small_body), ("an event of 1 MB in 10,000", mixed_body)):
    base = {}
    for times in (1, 2, 4):
        name = "run%05d.mid" % times
        write_file(name, times * size, body_of)
        print("%.0f MB, %s" % (os.path.getsize(name) / 1e6, kind))
        for what in ("check", "analyze", "dump"):
            end = "| wc -c > /dev/null" if what == "dump" else "> /dev/null"
            ours, plain = ("%s %s %s" % (one, what, name) for one in (program, "./plain"))
            assert text_sum(ours) == text_sum(plain), "the two programs print different texts"
            cat, one, beside = in_turn(["cat %s > /dev/null" % name, "%s %s" % (ours, end), "%s %s" % (plain, end)])
            line = "  %-7s %6.3f s, %6.3f s of the processor  %5.1f times cat  %5.2f and %5.2f times plain Rust" % (
                what, one.clock, one.busy, one.clock / cat.clock, one.clock / beside.clock, one.busy / beside.busy)
            if what in base:
                line += "  exponent %5.2f" % (math.log(one.clock / base[what]) / math.log(times))
            base.setdefault(what, one.clock)
            print(line + "  peak %d kB" % one.peak, flush=True)
        os.remove(name)
PYTHON
