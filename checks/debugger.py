"""A debugger of threads that take turns: one runs at a time, and is stopped where others can tell where it stands.

It is for x86-64 on Linux, and for the program of crates/test_stops. Each of its threads is at a mark before each of its
calls: a sleep whose nanoseconds tell the number of the thread and what came of its last call. While a
thread runs, the processor traps after each instruction that touches a word which threads share (debug registers), and
the system traps before a thread sleeps at a word, wakes others, lets others run, or comes to a mark (seccomp). Who
sleeps is told by the system, and who is awake by the answer of a wake. So no time decides anything.
"""
import contextlib
import ctypes
import os
import signal
import time

MOST = 12  # touches of the words by a call that goes on and ends
SLEEPS = 20  # of one call that end at once
BUSY = 2.0  # seconds of the processor after which a thread is said to run on and on
ROUNDS = 2**31
FOR_EVER = 2**63 - 1  # seconds of a sleep without a limit
STACK = 2**23  # bytes of a thread's stack, which ends where its own variables are

TRACE_ME, PEEK_TEXT, PEEK_USER, POKE_DATA, POKE_USER, CONT, STEP, GET_REGISTERS, TO_SYSTEM = 0, 1, 3, 5, 6, 7, 9, 12, 24
SET_OPTIONS, OPTIONS = 0x4200, 0x100000 | 0x80 | 0x10 | 0x8 | 0x1  # end with this; seccomp, execs, clones, calls
SECCOMP, ALL = 7, 0x40000000
NANOSLEEP, CLOCK_NANOSLEEP, FUTEX, YIELD = 35, 230, 202, 24
WAKES, PRIVATE = {1, 10}, 127  # the other operations of a futex are sleeps
R10, RAX, RDX, RSI, RDI, CALL = 56, 80, 96, 104, 112, 120  # places of registers
DEBUG = 848  # the place of the first debug register
TOUCH = 0b1011  # of eight bytes
NO_RANDOM, NO_NEW_PRIVILEGES, SET_SECCOMP = 0x40000, 38, 22
LOAD, IF_EQUAL, ANSWER, TRACED, ALLOWED = 0x20, 0x15, 0x06, 0x7FF00000, 0x7FFF0000
REGISTERS = "r15 r14 r13 r12 rbp rbx r11 r10 r9 r8 rax rcx rdx rsi rdi orig rip cs flags rsp ss fsb gsb ds es fs gs"
NUMBERED = "rax rcx rdx rbx rsp rbp rsi rdi r8 r9 r10 r11 r12 r13 r14 r15".split()
libc = ctypes.CDLL(None, use_errno=True)
libc.ptrace.restype = ctypes.c_long
libc.ptrace.argtypes = [ctypes.c_long, ctypes.c_long, ctypes.c_void_p, ctypes.c_void_p]


class Registers(ctypes.Structure):
    _fields_ = [(it, ctypes.c_uint64) for it in REGISTERS.split()]


class Wrong(Exception):
    """What a program does that it may not."""


def ptrace(request, tid, at=0, data=0):
    ctypes.set_errno(0)
    result = libc.ptrace(request, tid, at, data)
    if result == -1 and ctypes.get_errno():
        raise OSError(ctypes.get_errno(), f"ptrace {request}: {os.strerror(ctypes.get_errno())}")
    return result & (2**64 - 1)


def acted_on(code, register):
    """Returns where an instruction acts that is locked, or an exchange with memory, or None. `register` gives the value
    of a register by its number."""
    at, is_locked, rex = 0, False, 0
    while code[at] in (0xF0, 0x66, 0xF2, 0xF3):
        is_locked, at = is_locked or code[at] == 0xF0, at + 1
    if code[at] & 0xF0 == 0x40:
        rex, at = code[at], at + 1
    is_exchange = code[at] in (0x86, 0x87)
    at += 2 if code[at] == 0x0F else 1
    mod, rm, at = code[at] >> 6, code[at] & 7, at + 1
    if mod == 3 or not (is_locked or is_exchange) or (mod, rm) == (0, 5):
        return None
    if rm == 4:
        base, index, scale, at = code[at] & 7, code[at] >> 3 & 7 | (rex & 2) << 2, code[at] >> 6, at + 1
        where = register(index) << scale if index != 4 else 0
        mod, where = (2, where) if (mod, base) == (0, 5) else (mod, where + register(base | (rex & 1) << 3))
    else:
        where = register(rm | (rex & 1) << 3)
    more = code[at : at + (0, 1, 4)[mod]]
    return where + int.from_bytes(more, "little", signed=True) & (2**64 - 1)


def become(words):
    """Becomes a program, some of whose calls of the system are traced."""
    calls = [FUTEX, YIELD, NANOSLEEP, CLOCK_NANOSLEEP]
    rows = [(LOAD, 0, 0, 0), *((IF_EQUAL, len(calls) - at, 0, it) for at, it in enumerate(calls))]
    rows += [(ANSWER, 0, 0, ALLOWED), (ANSWER, 0, 0, TRACED)]
    code = b"".join(a.to_bytes(2, "little") + bytes((b, c)) + d.to_bytes(4, "little") for a, b, c, d in rows)
    text = ctypes.create_string_buffer(code)
    rule = (ctypes.c_uint64 * 2)(len(rows), ctypes.addressof(text))
    libc.personality(NO_RANDOM)
    if libc.ptrace(TRACE_ME, 0, None, None):
        os._exit(1)
    libc.prctl(NO_NEW_PRIVILEGES, 1, 0, 0, 0)
    libc.prctl(SET_SECCOMP, 2, ctypes.byref(rule), 0, 0)
    os.execve(words[0], words, {**os.environ, "ASAN_OPTIONS": "detect_stack_use_after_return=0:detect_leaks=0"})


class Thread:
    """A thread that is at a mark, stopped, asleep, or woken."""

    def __init__(self, tid, came):
        self.tid, self.came, self.state, self.is_watched = tid, came, "at a mark", False


class Process:
    """The program, with its threads by their numbers. Three functions hear of each call that begins, by its number, of
    each that ends, with what came of it, and of each sleep, with the seconds after which it ends."""

    def __init__(self, program, mode, count):
        self.words, self.waited, self.used, self.looks = [], None, None, 0
        self.begins = self.ends = self.sleeps = lambda *_: None
        self.pid = os.fork()
        if self.pid == 0:
            become([program, mode, str(ROUNDS)])
        if not os.WIFSTOPPED(os.waitpid(self.pid, ALL)[1]):
            raise PermissionError("no program may trace another here")
        ptrace(SET_OPTIONS, self.pid, 0, OPTIONS)
        ptrace(CONT, self.pid)
        self.threads = self.first_marks(count)
        signal.signal(signal.SIGALRM, self.look)
        signal.setitimer(signal.ITIMER_REAL, 0.2, 0.2)

    def end(self):
        signal.setitimer(signal.ITIMER_REAL, 0)
        os.kill(self.pid, signal.SIGKILL)
        with contextlib.suppress(ChildProcessError):
            while True:
                os.waitpid(-1, ALL)

    def first_marks(self, count):
        """Returns the threads, once each is at its first mark, and the first thread sleeps if it is none of them."""
        found = {}
        while len(found) < count or not (self.is_asleep(self.pid) or self.pid in (it.tid for it in found.values())):
            tid, status = os.waitpid(-1, ALL | os.WNOHANG)
            if not tid:
                time.sleep(0.0005)
            elif not os.WIFSTOPPED(status):
                raise Wrong(f"the program ended with {status:#x}")
            elif status >> 16 == SECCOMP and ptrace(PEEK_USER, tid, CALL) in (NANOSLEEP, CLOCK_NANOSLEEP):
                number, came = self.mark(tid)
                found[number] = Thread(tid, came)
            else:
                ptrace(CONT, tid)
        return [found[it] for it in range(count)]

    def is_asleep(self, tid):
        with open(f"/proc/{self.pid}/task/{tid}/stat") as it:
            return it.read().rsplit(")")[1].split()[0] == "S"

    def mark(self, tid):
        """Returns the number that a thread tells at a mark, and what came of its call."""
        at = ptrace(PEEK_USER, tid, RDX if ptrace(PEEK_USER, tid, CALL) == CLOCK_NANOSLEEP else RDI)
        return divmod(ptrace(PEEK_TEXT, tid, at + 8) - 1, 16)

    def look(self, *_):
        """Looks now and then whether the thread that runs has used too much of the processor."""
        if self.waited is None:
            return
        with open(f"/proc/{self.pid}/task/{self.waited}/stat") as it:
            fields = it.read().rsplit(")")[1].split()
        used = (int(fields[11]) + int(fields[12])) / os.sysconf("SC_CLK_TCK")
        self.used = used if self.used is None else self.used
        if used - self.used > BUSY:
            raise Wrong("a thread runs on and on")

    def event(self, thread):
        """Waits until a thread that runs stops, and returns its status."""
        self.waited, self.used = thread.tid, None
        _, status = os.waitpid(thread.tid, ALL)
        self.waited = None
        if not os.WIFSTOPPED(status) or os.WSTOPSIG(status) & 0x7F != signal.SIGTRAP:
            raise Wrong(f"the program ended, or had a signal: {status:#x}")
        return status

    def watch(self, thread, is_watched):
        """Lets the processor trap, or not, when a thread has touched a word."""
        if thread.is_watched == bool(is_watched):
            return
        thread.is_watched, bits = bool(is_watched), 0
        for at, word in enumerate(self.words):
            ptrace(POKE_USER, thread.tid, DEBUG + 8 * at, word)
            bits |= TOUCH << 16 + 4 * at | 1 << 2 * at
        ptrace(POKE_USER, thread.tid, DEBUG + 8 * 7, bits if is_watched else 0)

    def skip(self, thread):
        """Lets a call of the system return at once."""
        ptrace(POKE_USER, thread.tid, CALL, 2**64 - 1)
        ptrace(POKE_USER, thread.tid, RAX, 0)

    def begin(self, number):
        thread = self.threads[number]
        if thread.state == "at a mark":
            self.skip(thread)
            self.begins(number)
        thread.state = "awake"

    def ended(self, number):
        thread = self.threads[number]
        thread.state, thread.came = "at a mark", self.mark(thread.tid)[1]
        self.ends(number, thread.came)

    def falls_asleep(self, thread):
        """Lets a thread go to sleep at a word, and returns whether it does."""
        thread.at, time_at = ptrace(PEEK_USER, thread.tid, RDI), ptrace(PEEK_USER, thread.tid, R10)
        self.sleeps(self.threads.index(thread), ptrace(PEEK_TEXT, thread.tid, time_at) if time_at else FOR_EVER)
        ptrace(TO_SYSTEM, thread.tid)
        while not os.waitpid(thread.tid, ALL | os.WNOHANG)[0]:
            if self.is_asleep(thread.tid):
                thread.state = "asleep"
                return True
        return False

    def wake(self, thread):
        """Lets a thread wake others, who are awake after that."""
        ptrace(TO_SYSTEM, thread.tid)
        self.event(thread)
        for _ in range(ptrace(PEEK_USER, thread.tid, RAX)):
            tid, _ = os.waitpid(-1, ALL)
            next(it for it in self.threads if it.tid == tid).state = "woken"

    def go(self, number, stop=None, is_early=False, most=MOST):
        """Lets a thread go on until its call has ended, or it sleeps, or is stopped. A stop is how often it has let
        others run by then, and how often it has touched a word after that. If `is_early` its first sleep ends at
        once. Returns how often it touched a word, or a little more than `most`."""
        thread, yields, touches, sleeps = self.threads[number], 0, 0, 0
        self.begin(number)
        self.watch(thread, not (stop and stop[0]))
        while (yields, touches) != stop:
            ptrace(CONT, thread.tid)
            if self.event(thread) >> 16 != SECCOMP:
                touches += 1
                self.watch(thread, stop or touches <= most)
                continue
            call = ptrace(PEEK_USER, thread.tid, CALL)
            if call == YIELD:
                yields += 1
                if stop and yields == stop[0]:
                    touches = 0
                    self.watch(thread, True)
            elif call != FUTEX:
                self.ended(number)
                if touches > most and not stop:
                    raise Wrong(f"thread {number} ends, and has touched the words more than {most} times")
                return touches
            elif ptrace(PEEK_USER, thread.tid, RSI) & PRIVATE in WAKES:
                touches += 1
                self.wake(thread)
            elif is_early:
                is_early = False
                self.skip(thread)
            elif self.falls_asleep(thread):
                self.looks = yields
                return touches
            else:
                sleeps += 1
                if sleeps > SLEEPS:
                    raise Wrong(f"thread {number} does not sleep")
        thread.state = "stopped"
        return touches

    def steps(self, number):
        """Makes a call step by step, and returns the last place outside of its stack on which it acts in one
        instruction."""
        thread, found, registers = self.threads[number], None, Registers()
        self.begin(number)
        while True:
            ptrace(STEP, thread.tid)
            if self.event(thread) >> 16 == SECCOMP:
                self.ended(number)
                return found
            ptrace(GET_REGISTERS, thread.tid, 0, ctypes.addressof(registers))
            code = b"".join(ptrace(PEEK_TEXT, thread.tid, registers.rip + it).to_bytes(8, "little") for it in (0, 8))
            at = acted_on(code, lambda it: getattr(registers, NUMBERED[it]))
            found = at if at and abs(at - registers.fsb) > STACK else found

    def sleeps_at(self, number):
        """Returns the word at which a thread falls asleep."""
        self.go(number)
        if self.threads[number].state != "asleep":
            raise Wrong(f"thread {number} does not sleep")
        return self.threads[number].at

    def clear(self):
        """Makes the words as they are at first. Nobody is in a call."""
        for word in self.words:
            ptrace(POKE_DATA, self.threads[0].tid, word, 0)
