"""Runs a program of several threads under ptrace, one machine instruction at a time and one thread at a time, and stops each thread
right before each access to some words of its memory. So it sees every load and every change of these words that the program makes, and
the caller chooses which thread goes on. The program is the built one as it is. For Linux on x86-64 alone."""
import ctypes
import os
import signal

TRACE_ME, CONTINUE, KILL, STEP, REGISTERS, OPTIONS, MESSAGE = 0, 7, 8, 9, 12, 0x4200, 0x4201
CLONES, EXIT_KILLS, CLONE_STOP = 1 << 3, 1 << 20, signal.SIGTRAP | 3 << 8
ALL_THREADS = 0x40000000
FUTEX, WAITS = 202, (0, 9)
NAMES = ("r15 r14 r13 r12 rbp rbx r11 r10 r9 r8 rax rcx rdx rsi rdi orig_rax rip cs eflags rsp ss fs_base gs_base ds es fs gs").split()
# The registers by the numbers that instructions have for them.
BY_NUMBER = "rax rcx rdx rbx rsp rbp rsi rdi r8 r9 r10 r11 r12 r13 r14 r15".split()


class Registers(ctypes.Structure):
    _fields_ = [(name, ctypes.c_uint64) for name in NAMES]


LIBC = ctypes.CDLL(None, use_errno=True)
LIBC.ptrace.argtypes = [ctypes.c_long, ctypes.c_long, ctypes.c_void_p, ctypes.c_void_p]
LIBC.ptrace.restype = ctypes.c_long


def may_trace():
    """Whether a process may be traced here."""
    child = os.fork()
    if child == 0:
        os._exit(0 if LIBC.ptrace(TRACE_ME, 0, None, None) == 0 else 1)
    return os.waitstatus_to_exitcode(os.waitpid(child, 0)[1]) == 0


def ptrace(request, thread, address=None, data=None):
    if LIBC.ptrace(request, thread, address, data) == -1:
        raise OSError(ctypes.get_errno(), "ptrace")


class Operand:
    """An instruction's operand in memory: how its address is worked out, and what the instruction does there."""

    def __init__(self, operation, parts, register):
        self.operation, self.parts, self.register = operation, parts, register

    def address(self, registers):
        base, index, scale, offset = self.parts
        address = offset + (getattr(registers, base) if base else 0) + (getattr(registers, index) * scale if index else 0)
        return address % 2**64


def operation_of(code, kind, is_locked):
    """What an instruction with this opcode does to its operand in memory."""
    if code in (0x0FB0, 0x0FB1):
        return "exchange"
    if code in (0x0FC0, 0x0FC1):
        return "add"
    if is_locked or code in (0x86, 0x87):
        return "change"
    stores = code in (0x88, 0x89, 0xC6, 0xC7, 0x0F11, 0x0F29, 0x0F7F, 0x0FD6) or code < 0x38 and code % 8 < 2
    stores = stores or code in (0x80, 0x81, 0x83) and kind != 7 or code in (0xFE, 0xFF) and kind < 2
    return "store" if stores else "load"


def names_memory(code):
    """Whether the opcode is followed by a byte that names an operand which may be memory, other than to work out an address."""
    if code >= 0x0F00:
        low = code & 0xFF
        return not (low in (0x05, 0x0B, 0x0D, 0x31, 0xA2) or 0x18 <= low <= 0x1F or 0x80 <= low <= 0x8F or 0xC8 <= low <= 0xCF)
    if code < 0x40:
        return code % 8 < 4
    return code in (0x63, 0x69, 0x6B, 0xC0, 0xC1, 0xC6, 0xC7, 0xF6, 0xF7, 0xFE, 0xFF) or 0x80 <= code <= 0x8B or 0xD0 <= code <= 0xD3


def decoded(text):
    """The operand in memory of the instruction that begins this text, if it has one that lies in no segment of its own."""
    at, locked = 0, False
    while text[at] in b"\x66\xf0\xf2\xf3\x2e\x36\x3e\x26":
        locked = locked or text[at] == 0xF0
        at += 1
    rex = text[at] if 0x40 <= text[at] <= 0x4F else 0
    at += rex != 0
    code = text[at]
    if code == 0x0F:
        at += 1
        code = 0x0F00 | text[at]
    if text[at] in (0x64, 0x65) or not names_memory(code):
        return None
    mode, kind, low = text[at + 1] >> 6, text[at + 1] >> 3 & 7, text[at + 1] & 7
    if mode == 3 or mode == 0 and low == 5:
        return None
    register = BY_NUMBER[kind + (rex & 4) * 2]
    return Operand(operation_of(code, kind, locked), parts_of(text[at + 2 :], mode, low, rex), register)


def parts_of(text, mode, low, rex):
    """The base, the index, its scale and the offset of an operand, whose further bytes these are."""
    base, index, scale, at = BY_NUMBER[low + (rex & 1) * 8], None, 1, 0
    if low == 4:
        at, scale = 1, 1 << (text[0] >> 6)
        number = (text[0] >> 3 & 7) + (rex & 2) * 4
        index = BY_NUMBER[number] if number != 4 else None
        base = BY_NUMBER[(text[0] & 7) + (rex & 1) * 8]
        if mode == 0 and text[0] & 7 == 5:
            base, mode = None, 2
    length = (0, 1, 4)[mode]
    return base, index, scale, int.from_bytes(text[at : at + length], "little", signed=True)


class Access:
    """An access that a thread is about to make: what it does and where; of an exchange, what it asks for and what it would put."""

    def __init__(self, operand, address, registers):
        self.operation, self.address = operand.operation, address
        self.expected, self.put = registers.rax, getattr(registers, operand.register)


class Thread:
    """A thread of the program. `ahead` is the access before which it has stopped, if it has."""

    def __init__(self, number):
        self.number, self.ahead = number, None
        self.ended = self.waits = False


class Program:
    """A program that was started with these words and this input, and has come to where it starts its first thread."""

    def __init__(self, words, text):
        self.output, output = os.pipe()
        source, feed = os.pipe()
        os.write(feed, text)
        os.close(feed)
        first = os.fork()
        if first == 0:
            self.become(words, source, output)
        os.close(source)
        os.close(output)
        os.waitpid(first, 0)
        ptrace(OPTIONS, first, None, CLONES | EXIT_KILLS)
        self.memory = os.open(f"/proc/{first}/mem", os.O_RDONLY)
        self.first, self.started, self.operands = Thread(first), [], {}
        self.region = range(0)
        ptrace(CONTINUE, first)
        self.note(self.first, os.waitpid(first, ALL_THREADS)[1])
        if len(self.started) != 1:
            raise RuntimeError("the program started no thread")

    @staticmethod
    def become(words, source, output):
        """Turns this process into the program, which has these streams."""
        try:
            os.dup2(source, 0)
            os.dup2(output, 1)
            ptrace(TRACE_ME, 0)
            os.execve(words[0], words, {})
        finally:
            os._exit(127)

    def heap(self):
        """Where the program's heap begins: by the system's choice, anew in each run."""
        with open(f"/proc/{self.first.number}/maps") as areas:
            return next(int(line.split("-")[0], 16) for line in areas if line.rstrip().endswith("[heap]"))

    def note(self, thread, status):
        """Takes note of what a thread has come to."""
        if os.WIFEXITED(status) or os.WIFSIGNALED(status):
            thread.ended = True
        elif status >> 8 == CLONE_STOP:
            message = ctypes.c_ulong()
            ptrace(MESSAGE, thread.number, None, ctypes.addressof(message))
            os.waitpid(message.value, ALL_THREADS)
            self.started.append(Thread(message.value))
        elif os.WSTOPSIG(status) != signal.SIGTRAP:
            raise RuntimeError(f"the program was stopped by signal {os.WSTOPSIG(status)}")

    def word(self, address):
        return int.from_bytes(os.pread(self.memory, 8, address), "little")

    def registers(self, thread):
        registers = Registers()
        ptrace(REGISTERS, thread.number, None, ctypes.addressof(registers))
        return registers

    def operand(self, place):
        """The operand of the instruction at this place, and whether it is a call of the system."""
        if place not in self.operands:
            text = os.pread(self.memory, 16, place).ljust(16, b"\0")
            self.operands[place] = decoded(text), text[:2] == b"\x0f\x05"
        return self.operands[place]

    def step(self, thread, may_wait=False):
        """Lets a thread make one instruction. One that waits for another thread goes on when that has done its part."""
        if not thread.waits:
            ptrace(STEP, thread.number)
        for _ in range(50 if may_wait else 0):
            found, status = os.waitpid(thread.number, ALL_THREADS | os.WNOHANG)
            if found:
                break
            os.sched_yield()
        else:
            thread.waits = may_wait
            if may_wait:
                return
            found, status = os.waitpid(thread.number, ALL_THREADS)
        thread.waits = False
        self.note(thread, status)

    def go_on(self, thread, wanted):
        """Lets a thread go on up to the next access that is wanted, or until it waits or ends, or starts another."""
        thread.ahead, started = None, len(self.started)
        if thread.waits:
            self.step(thread)
        while not thread.ended and len(self.started) == started:
            registers = self.registers(thread)
            operand, is_system = self.operand(registers.rip)
            if operand is not None:
                access = Access(operand, operand.address(registers), registers)
                if wanted(access):
                    thread.ahead = access
                    return
            waits = is_system and registers.rax == FUTEX and registers.rsi & 127 in WAITS
            self.step(thread, waits)
            if thread.waits:
                return

    def stop_before(self, thread):
        """Lets a thread go on up to its next access to the region."""
        self.go_on(thread, lambda access: access.address in self.region)

    def finish(self):
        """Lets the program come to its end, and returns its output."""
        for thread in self.started:
            if not thread.ended:
                raise RuntimeError("a thread hasn't ended")
        if not self.first.ended:
            if not self.first.waits:
                ptrace(CONTINUE, self.first.number)
            while not self.first.ended:
                self.note(self.first, os.waitpid(self.first.number, ALL_THREADS)[1])
                if not self.first.ended:
                    ptrace(CONTINUE, self.first.number)
        with os.fdopen(self.output) as output:
            return output.read()

    def kill(self):
        os.kill(self.first.number, signal.SIGKILL)
        for thread in [*self.started, self.first]:
            while not thread.ended:
                self.note(thread, os.waitpid(thread.number, ALL_THREADS)[1])
        os.close(self.output)
