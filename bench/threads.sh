#!/bin/sh
# Plays many short sessions with eight front-ends over a buffer of 1,024 bytes, two channels and an analyzer, each member in a
# thread of its own: a run with a pause, a start that is refused and called off, and a run that is stopped from its pause. Of
# each session it reads the text and the bytes of each run file: each front-end's events are the first that its generator makes,
# in order; the first run has all of them, the second as many as the text says; no file is left of the start that was refused;
# and the analyzer counted the events of the file. It stops at the first session that differs, and else prints how many it
# played and what lengths the second runs had.
# usage: bench/threads.sh PROGRAM [SESSIONS]
set -e
program=$(realpath "$1")
sessions=${2:-2000}
folder=$(mktemp -d)
trap 'rm -rf "$folder"' EXIT
cd "$folder"
python3 - "$program" "$sessions" <<'PYTHON'
import os, random, struct, subprocess, sys

program, sessions = sys.argv[1], int(sys.argv[2])
FRONTS = 8
HEADER = struct.Struct("<HHIII")
BEGIN, END, RECORD_MASK = 0x8000, 0x8001, 0x494D
# No session takes so many seconds unless it hangs.
LIMIT = 60


def words(front, start, k):
    """The words of the event with serial number k, from 1, of a front-end in the run with this start number."""
    x = (4294967296 * (front - 1) + start + k - 1) % 2**64
    for _ in range(1 + (k - 1) % 16):
        x = (x * 6364136223846793005 + 1442695040888963407) % 2**64
        yield x >> 32


def body(front, start, k):
    """Its data: a bank area with the bank GEN0 of UINT32."""
    data = b"".join(struct.pack("<I", word) for word in words(front, start, k))
    size = len(data)
    bank = struct.pack("<4sHH", b"GEN0", 6, size) + data + bytes(-size % 8)
    return struct.pack("<II", len(bank), 1) + bank


def script(first, second):
    """The lines of a session with these quotas."""
    lines = ["buffer SYSTEM 1024"]
    lines += ["equip FE%d %d 0 SYSTEM%s" % (i, i, " 1000" if i == FRONTS else "") for i in range(1, FRONTS + 1)]
    lines += ["channel 0 all%05d.mid SYSTEM 65535 65535", "channel 1 one%05d.mid SYSTEM 1 65535"]
    lines += ["analyzer ANA SYSTEM 65535 65535 all"]
    lines += ["events %d" % first, "start", "pause", "resume", "stop"]
    # The last front-end takes no part in a run of so many events.
    lines += ["events 1001", "start"]
    lines += ["events %d" % second, "start", "pause", "stop"]
    return "\n".join(lines + [""]).encode()


def events_of(name, run, start):
    """The serial numbers of each front-end's events in a run file, each of which is checked."""
    with open(name, "rb") as file:
        data = file.read()
    at, found, records = 0, {}, []
    while at < len(data):
        event_id, mask, serial, time, size = HEADER.unpack_from(data, at)
        content = data[at + HEADER.size:at + HEADER.size + size]
        assert len(content) == size, (name, at)
        if event_id in (BEGIN, END):
            assert mask == RECORD_MASK and serial == run, (name, at)
            records.append((at, event_id))
        else:
            assert content == body(event_id, start, serial), (name, at, event_id, serial)
            found.setdefault(event_id, []).append(serial)
        at += HEADER.size + size
    assert [r[1] for r in records] == [BEGIN, END] and records[0][0] == 0, (name, records)
    assert records[1][0] + HEADER.size <= len(data), name
    return found


def sent_by(lines):
    """What each front-end sent in each run, by the text."""
    runs, run = [], {}
    for line in lines:
        part = line.split()
        if part[:1] == ["run"] and part[2:] == ["stopped"]:
            run = {}
            runs.append(run)
        elif len(part) == 3 and part[1] == "sent":
            run[int(part[0][2:])] = int(part[2])
    return runs


def check_run(run, start, sent):
    """The files of a run against what the text says that its front-ends sent."""
    want = {i: list(range(1, n + 1)) for i, n in sent.items() if n > 0}
    assert events_of("all%05d.mid" % run, run, start) == want, ("all", run)
    assert events_of("one%05d.mid" % run, run, start) == {i: n for i, n in want.items() if i == 1}, ("one", run)


def play(first, second):
    """Plays a session, checks it, and tells how many events its second run had."""
    for name in os.listdir("."):
        os.remove(name)
    done = subprocess.run([program, "run"], input=script(first, second), capture_output=True, timeout=LIMIT)
    lines = done.stdout.decode().splitlines()
    assert done.returncode == 1, (done.returncode, lines)
    runs = sent_by(lines)
    assert len(runs) == 2 and runs[0] == {i: first for i in range(1, FRONTS + 1)}, lines
    assert all(n <= second for n in runs[1].values()) and len(runs[1]) == FRONTS, lines
    counted = [int(line.split()[2]) for line in lines if line.startswith("ANA events ")]
    assert counted == [sum(run.values()) for run in runs], lines
    # The run number that the refused start got is given again.
    check_run(1, 1, runs[0])
    check_run(2, 3, runs[1])
    assert sorted(os.listdir(".")) == ["all00001.mid", "all00002.mid", "one00001.mid", "one00002.mid"], os.listdir(".")
    return sum(runs[1].values())


lengths = []
for number in range(sessions):
    draw = random.Random(number)
    first, second = draw.randrange(1, 60), draw.randrange(1, 60)
    try:
        lengths.append(play(first, second))
    except (AssertionError, subprocess.TimeoutExpired) as error:
        sys.exit("session %d, events %d and %d: %r" % (number, first, second, error))
print("%d sessions; the second runs had %d to %d events" % (len(lengths), min(lengths), max(lengths)))
PYTHON
