# Lets each request for memory fail in turn, and each call on the system for the streams and the files, in a session of every
# command with two channels, of which one has a limit, and an analyzer, on one thread, and in the tools; lets each read and write move one byte alone; plays
# the session in threads within less memory than it needs; and closes standard input and output. Of each such call it reads:
#   - the status: 5 where memory was wanting and 4 where a call failed, unless nothing differs from the call where nothing fails;
#   - the text: where memory or a stream was wanting, a first part of what is printed where nothing fails;
#   - each file that the text calls Ended: `check` says that it is whole, and where all files of its channel and run are called so,
#     they have as many events as the text says that were sent; each one that is called saved: it is as long as then;
#   - each other file: a line tells of its run or of its fault, and where none could be printed it is a whole run file.
# It prints what it tried and each call in which something else was found, and ends with status 1 where there is one.
# The failing calls are made by ptrace, on x86-64 alone.
# usage: bench/faults.py PROGRAM, in an empty folder
import ctypes, errno, os, re, resource, shutil, signal, struct, subprocess, sys

program = sys.argv[1]
SESSION = b"""\
buffer BUF 65536
equip A 1 1 SYSTEM
equip B 2 2 BUF 100
channel 0 a%05d.mid SYSTEM 65535 65535
channel 1 b%05dsub%04d.mid BUF 65535 65535 1500
analyzer ANA SYSTEM 65535 65535 all
create STRING /Settings/Name
set /Settings/Name "Muon decay"
create UINT16 /Settings/Thresholds 3
set /Settings/Thresholds 1 500
create DIR /Settings/Empty
link /Settings/Limits /Settings/Thresholds
set /Settings/Limits 2 400
get /Settings/Name
get /Settings/Thresholds 1
ls /Settings
watch /Settings
save one.odb
rm /Settings/Empty
load one.odb
notes 0
unwatch 0
events 20
start
pause
resume
stop
events 5
start
stop
events 101
start
events 5
start
stop
save two.odb
exit
"""

# A process that is traced.
libc = ctypes.CDLL(None, use_errno=True)
libc.ptrace.argtypes = [ctypes.c_long, ctypes.c_long, ctypes.c_void_p, ctypes.c_void_p]
libc.ptrace.restype = ctypes.c_long
TRACEME, CONT, STEP, GETREGS, SETREGS, SYSCALL, SETOPTIONS = 0, 7, 9, 12, 13, 24, 0x4200
SYSGOOD, EXITKILL = 1, 0x100000
NAMES = ("r15 r14 r13 r12 rbp rbx r11 r10 r9 r8 rax rcx rdx rsi rdi orig_rax rip cs eflags rsp ss fs_base gs_base"
         " ds es fs gs")
# The calls on the system for streams and files, by their numbers.
READ, WRITE = 0, 1
CALLS = {READ: "read", WRITE: "write", 2: "open", 5: "fstat", 74: "fsync", 87: "unlink", 257: "openat", 262: "newfstatat", 332: "statx"}
REQUESTS = ("rattle_alloc", "rattle_realloc")


class Registers(ctypes.Structure):
    _fields_ = [(name, ctypes.c_ulonglong) for name in NAMES.split()]


def symbols(path):
    """The places of the names in a program."""
    with open(path, "rb") as file:
        data = file.read()
    at, = struct.unpack_from("<Q", data, 40)
    size, count = struct.unpack_from("<HH", data, 58)
    sections = [struct.unpack_from("<IIQQQQIIQQ", data, at + i * size) for i in range(count)]
    found = {}
    for section in sections:
        if section[1] == 2:
            texts = sections[section[6]][4]
            for place in range(section[4], section[4] + section[5], 24):
                name, _, _, _, value, _ = struct.unpack_from("<IBBHQQ", data, place)
                end = data.index(b"\0", texts + name)
                found[data[texts + name:end].decode("latin-1")] = value
    return found


class Traced:
    """The program with these words, stopped before its first own step."""

    def __init__(self, words):
        self.pid = os.fork()
        if self.pid == 0:
            os.dup2(os.open("script", os.O_RDONLY), 0)
            os.dup2(os.open("printed", os.O_WRONLY | os.O_CREAT | os.O_TRUNC), 1)
            os.chdir("files")
            os.closerange(3, 10)
            libc.ptrace(TRACEME, 0, None, None)
            os.execv(program, [program] + words)
        self.wait()
        self.ask(SETOPTIONS, SYSGOOD | EXITKILL)
        with open("/proc/%d/maps" % self.pid) as maps:
            base = min(int(line.split("-")[0], 16) for line in maps if line.rstrip().endswith(program))
        self.memory = open("/proc/%d/mem" % self.pid, "r+b", buffering=0)
        self.places = {base + PLACES[name]: None for name in REQUESTS}
        main = base + PLACES["main"]
        byte = self.put(main, b"\xCC")
        self.go(CONT)
        self.put(main, byte)
        registers = self.registers()
        registers.rip = main
        self.set(registers)

    def ask(self, request, data=0):
        if libc.ptrace(request, self.pid, None, data) < 0:
            raise OSError(ctypes.get_errno(), "ptrace")

    def wait(self):
        """Waits until it stops. This is the signal, or None where it ended."""
        _, state = os.waitpid(self.pid, 0)
        if os.WIFSTOPPED(state):
            return os.WSTOPSIG(state)
        self.status = os.waitstatus_to_exitcode(state)
        return None

    def go(self, request):
        self.ask(request)
        return self.wait()

    def put(self, place, bytes_there):
        """Puts bytes at a place. These are those that were there."""
        self.memory.seek(place)
        before = self.memory.read(len(bytes_there))
        self.memory.seek(place)
        self.memory.write(bytes_there)
        return before

    def registers(self):
        found = Registers()
        libc.ptrace(GETREGS, self.pid, None, ctypes.addressof(found))
        return found

    def set(self, registers):
        libc.ptrace(SETREGS, self.pid, None, ctypes.addressof(registers))

    def finish(self):
        """Lets it run to its end."""
        while self.go(CONT) is not None:
            pass
        self.memory.close()


def without_memory(words, number):
    """A call whose request of this number, from 0, is answered by none. This is its status, and whether there was one."""
    traced = Traced(words)
    first = {place: traced.put(place, b"\xCC") for place in traced.places}
    count = 0
    while traced.go(CONT) == signal.SIGTRAP:
        registers = traced.registers()
        place = registers.rip - 1
        registers.rip = place
        if count == number:
            for there in first:
                traced.put(there, first[there])
            traced.memory.seek(registers.rsp)
            registers.rip, = struct.unpack("<Q", traced.memory.read(8))
            registers.rsp += 8
            registers.rax = 0
            traced.set(registers)
            traced.finish()
            return traced.status, True
        count += 1
        traced.put(place, first[place])
        traced.set(registers)
        traced.go(STEP)
        traced.put(place, b"\xCC")
    traced.memory.close()
    return traced.status, False


def with_call(words, number, short):
    """A call in which the call on the system of this number, from 0, fails, or where `short` moves one byte. This is its
    status, and which call that was and on what, if there was one."""
    traced = Traced(words)
    count = 0
    while traced.go(SYSCALL) is not None:
        registers = traced.registers()
        name = CALLS.get(registers.orig_rax)
        moves = registers.orig_rax in (READ, WRITE) and registers.rdx > 1
        if name is not None and (moves or not short):
            if count == number:
                told = name, registers.rdi if registers.orig_rax in (READ, WRITE) else None
                if short:
                    registers.rdx = 1
                    traced.set(registers)
                else:
                    registers.orig_rax = 2**64 - 1
                    traced.set(registers)
                    traced.go(SYSCALL)
                    registers.rax = 2**64 - errno.EIO
                    registers.orig_rax = 2**64 - 1
                    traced.set(registers)
                traced.finish()
                return traced.status, told
            count += 1
        # The stop behind the call.
        if traced.go(SYSCALL) is None:
            break
    traced.memory.close()
    return traced.status, None


# What is found of a call.
def make_folder():
    """An empty folder for the files, or one with the run file of the tools."""
    shutil.rmtree("files", ignore_errors=True)
    os.mkdir("files")
    if os.path.exists("kept.mid"):
        shutil.copy("kept.mid", "files/kept.mid")


def printed():
    with open("printed", "rb") as file:
        return file.read().decode("latin-1")


def content_of(name):
    """A file without what rests on the time or on the schedule: of a run file what `check` says, without its length."""
    if name.endswith(".mid"):
        said = subprocess.run([program, "check", name], cwd="files", capture_output=True, text=True).stdout
        return re.sub(r" bytes \d+", "", said.strip())
    with open("files/" + name) as file:
        return re.sub(r"(binary = UINT32 : )\d+", r"\1T", file.read())


def left():
    """What is left of each file."""
    return {name: content_of(name) for name in sorted(os.listdir("files"))}


def sent_in(text, name):
    """How many events the text says that the front-end of this run file sent in its run, or None."""
    front, run = CHANNELS[name[0]], int(name[1:6] if name[0] != "r" else name[3:8])
    stopped = re.search(r"^run %d stopped\n((?:\w+ sent \d+\n)+)" % run, text, re.M)
    sent = stopped and re.search(r"^%s sent (\d+)$" % front, stopped.group(1), re.M)
    return sent and int(sent.group(1))


class Expected:
    """A call of which nothing fails: its status, its text, and what it leaves."""

    def __init__(self, words, script):
        with open("script", "wb") as file:
            file.write(script)
        make_folder()
        with open("script") as given, open("printed", "wb") as out:
            self.status = subprocess.run([program] + words, cwd="files", stdin=given, stdout=out).returncode
        self.words, self.script, self.text, self.files = words, script.decode(), printed(), left()
        # What went wrong, and how many calls differ in nothing from this one.
        self.wrong, self.same = [], 0

    def look(self, what, status, cause):
        """Looks at a call in which this failed, of this part of the outside."""
        found = self.fault(status, cause)
        if found:
            self.wrong.append("midas %s, %s: %s" % (" ".join(self.words), what, found))

    def fault(self, status, cause):
        """What is wrong with it: None, or a text."""
        text, files = printed(), left()
        if (status, text, files) == (self.status, self.text, self.files):
            self.same += 1
            return None
        if cause == "short":
            return "something differs"
        if status != (5 if cause == "memory" else 4):
            return "status %d" % status
        if cause != "file" and not self.text.startswith(text):
            return "another text: %r" % text
        for name, content in files.items():
            wrong = self.fault_of(name, files, text, cause)
            if wrong:
                return "%s: %s" % (name, wrong)
        return None

    def fault_of(self, name, files, text, cause):
        """The same of a file that is left."""
        content = files[name]
        # No line can be printed where the sink fails: then the file is the one that is written where nothing fails.
        if content == self.files.get(name) and cause == "sink" or name == "kept.mid":
            return None
        if name.endswith(".mid"):
            run = int(re.search(r"\d{5}", name).group())
            told = re.search(r"^%s (\w+)$" % name, text, re.M)
            if told and told.group(1) == "Ended":
                whole = "ok run %d events " % run
                series = re.findall(r"^(%s%05d\S*) (\w+)$" % (name[: name.index("0")], run), text, re.M)
                has_all = all(state == "Ended" for _, state in series)
                counts = [int(files.get(of, "")[len(whole):] or -1) for of, _ in series if has_all]
                fine = content.startswith(whole) and (not has_all or sum(counts) == sent_in(text, name))
                return None if fine else "it is called Ended, and is %r" % content
            # The file of a start that was called off stays where it could not be removed, and the next start says so.
            if told or "run %d started\n" % run in text or cause == "file" and "StartRefused Logger Exists" in text:
                return None
        else:
            if "saved %d\n" % os.path.getsize("files/" + name) in text:
                return None
            line = self.script.splitlines().index("save " + name) + 1
            if "refused %d: FileFault\n" % line in text:
                return None
        return "no line tells of it, and it is %r" % content


# The front-end whose events a run file has, by the first letter of its name.
CHANNELS = {"a": "A", "b": "B", "r": "FE"}
PLACES = symbols(program)


def try_memory(expected):
    """Lets each request for memory fail. This is how many there are."""
    number = 0
    while True:
        make_folder()
        status, failed = without_memory(expected.words, number)
        if not failed:
            return number
        expected.look("request %d" % number, status, "memory")
        number += 1


def try_calls(expected, short):
    """Lets each call on the system fail, or move one byte. This is how many there are of each kind."""
    kinds = {}
    for number in range(sys.maxsize):
        make_folder()
        status, failed = with_call(expected.words, number, short)
        if failed is None:
            return ", ".join("%d %s" % (kinds[name], name) for name in sorted(kinds))
        name, on = failed
        kinds[name] = kinds.get(name, 0) + 1
        cause = "short" if short else {0: "source", 1: "sink"}.get(on, "file")
        expected.look("call %d, %s on a %s" % (number, name, cause), status, cause)


def try_limits(expected):
    """Plays within less and less memory than is needed. This is how many limits were tried, and how many did not suffice."""
    wanting = 0
    limits = range(2 << 20, 24 << 20, 64 << 10)
    for limit in limits:
        make_folder()
        with open("script") as given, open("printed", "wb") as out:
            status = subprocess.run([program] + expected.words, cwd="files", stdin=given, stdout=out,
                                    stderr=subprocess.DEVNULL,
                                    preexec_fn=lambda: resource.setrlimit(resource.RLIMIT_AS, (limit, limit))).returncode
        wanting += status == 5
        # Where the system could not load the program, nothing of it ran.
        if status in range(6):
            expected.look("%d kB" % (limit >> 10), status, "memory")
    return len(limits), wanting


def try_closed(expected):
    """A call with its standard input closed, and one with its standard output."""
    for closed, redirected, cause in (("<&-", ">../printed", "source"), (">&-", "<../script", "sink")):
        make_folder()
        open("printed", "wb").close()
        line = 'exec "$0" "$@" %s %s' % (redirected, closed)
        status = subprocess.run(["sh", "-c", line, program] + expected.words, cwd="files").returncode
        expected.look(closed, status, cause)


def try_all(words, script):
    expected = Expected(words, script)
    requests = try_memory(expected)
    print("midas %s: %d requests for memory, of which %d change nothing where they fail" %
          (" ".join(words), requests, expected.same))
    expected.same = 0
    calls = try_calls(expected, False)
    print("  calls on the system: %s; of them %d change nothing where they fail" % (calls, expected.same))
    print("  of one byte: %s" % try_calls(expected, True))
    return expected


tried = [try_all(["run", "--cooperative"], SESSION)]
assert tried[0].status == 1 and tried[0].text.count("refused") == 1, tried[0].text
shutil.copy("files/a00001.mid", "kept.mid")
for words in (["check", "kept.mid"], ["dump", "kept.mid"], ["analyze", "kept.mid"], ["gen", "3"]):
    tried.append(try_all(words, b""))
os.remove("kept.mid")
threads = Expected(["run"], SESSION)
print("midas run: %d limits on memory, of which %d did not suffice" % try_limits(threads))
first = Expected(["run"], b"events 3\nstart\nstop\n")
try_closed(first)
wrong = sum((expected.wrong for expected in tried + [threads, first]), [])
for line in wrong:
    print(line)
print("%d calls went wrong" % len(wrong))
sys.exit(1 if wrong else 0)
