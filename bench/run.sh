#!/bin/sh
# Measures `run` of an empty script beside /bin/true; and with one front-end, with four of them over a buffer of 65,536 bytes, and
# with these and an analyzer: runs of 1,000 and of 100,000 events and of two, four and ten times as many, in threads and, by
# `run --cooperative`, on one thread, beside `cat` of the run file that was written, whose events `check` counts, and beside a copy
# of it that is put on the disk; a million events in one file and in files of 1,000,000 bytes; and a hundred short runs of four
# transitions each, with four front-ends and an analyzer. Prints seconds by the clock and of the processor (the least of three, and
# of a hundred for the empty script), ratios, growth and the peak memory. TMPDIR=/dev/shm keeps the disk out of the times.
# usage: bench/run.sh PROGRAM
set -e
program=$(realpath "$1")
folder=$(mktemp -d)
trap 'rm -rf "$folder"' EXIT
cd "$folder"
python3 - "$program" <<'PYTHON'
import math, os, shutil, subprocess, sys, time

program = sys.argv[1]
RUN_FILE = "run00001.mid"
FEWEST = 100000
SHORT_RUNS = 100

# What the front-ends are, how many, and the lines that declare them.
FOUR = b"buffer SYSTEM 65536\n" + b"".join(b"equip FE%d %d 0 SYSTEM\n" % (i, i) for i in (1, 2, 3, 4))
SESSIONS = (
    ("one front-end", 1, b""),
    ("four front-ends over a buffer of 65,536 bytes", 4, FOUR),
    ("four front-ends and an analyzer", 4, FOUR + b"analyzer ANA SYSTEM 65535 65535 all\n"),
)


def seconds(command, script=b"", before=lambda: None, runs=3):
    """The least time by the clock and of the processor of some runs, and the peak memory in kB. No shell stands between."""
    best, least, peak = None, None, 0
    with open("script", "wb") as out:
        out.write(script)
    for _ in range(runs):
        before()
        with open("script", "rb") as given, open(os.devnull, "wb") as nothing:
            start = time.perf_counter()
            process = subprocess.Popen(command, stdin=given, stdout=nothing)
            _, status, usage = os.wait4(process.pid, 0)
            took = time.perf_counter() - start
        assert status == 0, command
        busy = usage.ru_utime + usage.ru_stime
        peak = max(peak, usage.ru_maxrss)
        best = took if best is None else min(best, took)
        least = busy if least is None else min(least, busy)
    return best, least, peak


def remove():
    for name in os.listdir("."):
        if name.endswith(".mid"):
            os.remove(name)


def counted():
    """How many events `check` counts in the run file."""
    line = subprocess.run([program, "check", RUN_FILE], capture_output=True, check=True, text=True).stdout
    return int(line.split()[4])


def copied():
    """The least time to copy the run file to the disk, of three."""
    best = None
    for _ in range(3):
        start = time.perf_counter()
        with open(RUN_FILE, "rb") as given, open("copy", "wb") as copy:
            shutil.copyfileobj(given, copy, 65536)
            copy.flush()
            os.fsync(copy.fileno())
        took = time.perf_counter() - start
        os.remove("copy")
        best = took if best is None else min(best, took)
    return best


took, busy, _ = seconds([program, "run"], runs=100)
plain, idle, _ = seconds(["/bin/true"], runs=100)
print("an empty script %.2f ms, %.2f times /bin/true; processor %.2f ms, %.2f times"
      % (took * 1e3, took / plain, busy * 1e3, busy / idle))
for title, fronts, declared in SESSIONS:
    print(title)
    firsts = {}
    for times in (0.01, 1, 2, 4, 10):
        events = int(times * FEWEST)
        script = declared + b"events %d\nstart\nstop\n" % (events // fronts)
        on_one = None
        for way, words in (("on one thread", ["--cooperative"]), ("in threads", [])):
            took, busy, peak = seconds([program, "run"] + words, script, remove)
            assert counted() == events, script
            read, _, _ = seconds(["cat", RUN_FILE])
            # Growth is that from 100,000 events on: a run of 1,000 is there for its peak memory.
            first = firsts.setdefault(way, took) if times >= 1 else took
            on_one = on_one or took
            exponent = math.log(took / first) / math.log(times) if times > 1 else 1
            print("%9d events  %6.1f MB  %-13s %7.3f s  %5.2f times one thread  processor %7.3f s (%4.2f us an event)  %6.1f times cat"
                  "  %5.1f times a copy to the disk  growth %5.2f of %4.4g (exponent %4.2f)  peak %d kB"
                  % (events, os.path.getsize(RUN_FILE) / 1e6, way, took, took / on_one, busy, busy / events * 1e6, took / read,
                     took / copied(), took / first, times, exponent, peak))
MANY = b"events 1000000\nstart\nstop\n"
PIECES = b"channel 0 run%05dsub%04d.mid SYSTEM 65535 65535 1000000\n" + MANY
print("a million events in one file, and in files of 1,000,000 bytes each")
for way, words in (("on one thread", ["--cooperative"]), ("in threads", [])):
    one, busy, _ = seconds([program, "run"] + words, MANY, remove)
    took, spent, _ = seconds([program, "run"] + words, PIECES, remove)
    files = len([name for name in os.listdir(".") if name.endswith(".mid")])
    print("%-13s %7.3f s, in %d files %7.3f s, %5.2f times; processor %7.3f s and %7.3f s, %5.2f times"
          % (way, one, files, took, took / one, busy, spent, spent / busy))
for way, words in (("on one thread", ["--cooperative"]), ("in threads", [])):
    script = SESSIONS[-1][2] + b"events 4\n" + SHORT_RUNS * b"start\npause\nresume\nstop\n"
    took, busy, _ = seconds([program, "run"] + words, script, remove)
    print("%d short runs %-13s %6.3f ms a transition, processor %6.3f ms"
          % (SHORT_RUNS, way, took / SHORT_RUNS / 4 * 1e3, busy / SHORT_RUNS / 4 * 1e3))
PYTHON
