"""Writes an rdbg snapshot file of a stopped process or of a core file, from gdb.

    (gdb) source tools/gdb_snapshot.py
    (gdb) rdbg-snapshot [--no-registers] FILE [PART ..]

The page tools/README.md says what the parts are.  It was tried with gdb 13.1 on x86-64.
"""
import os

import gdb

PAGE = 4096
TOP = 1 << 64
LIMIT = 64 << 20        # the bytes that rdbg reads of a snapshot file
LINE = 1 << 16          # the most bytes of memory in one line
STACK_BELOW = 128       # the red zone: bytes below rsp that a leaf function may use

KEPT_BY_CALLS = ("rbx", "rsp", "rbp", "r12", "r13", "r14", "r15")
GENERAL = "rax rdx rcx rbx rsi rdi rbp rsp r8 r9 r10 r11 r12 r13 r14 r15".split()
USAGE = "rdbg-snapshot [--no-registers] FILE [stack] [writable] [program] [START,LEN ..] [VARIABLE ..]"


def is_calling(frame):
    """Whether the frame has made a call that has not returned: then only KEPT_BY_CALLS are known."""
    newer = frame.newer()
    while newer is not None and newer.type() == gdb.INLINE_FRAME:
        newer = newer.newer()
    return newer is not None and newer.type() != gdb.SIGTRAMP_FRAME


def pc_of(frame):
    """The address whose scopes and entries are those of the frame: within the call where it is calling."""
    return (frame.pc() - is_calling(frame)) % TOP


def info_of(frame):
    """What gdb says of the frame of the function that the code of this one was inlined into, if it was."""
    while frame.type() == gdb.INLINE_FRAME and frame.older() is not None:
        frame = frame.older()
    selected = gdb.selected_frame()
    frame.select()
    try:
        return gdb.execute("info frame", to_string=True)
    finally:
        selected.select()


def cfa_of(frame):
    """The canonical frame address, or None where gdb has no frame address that is also the caller's stack pointer."""
    text = info_of(frame)
    at = address_after(text, "frame at ")
    return at if at is not None and at == address_after(text, "Previous frame's sp is ") else None


def address_after(text, words):
    """The hexadecimal number after the words, or None."""
    rest = text.partition(words)[2]
    digits = ""
    if rest.startswith("0x"):
        for digit in rest[2:]:
            if digit not in "0123456789abcdef":
                break
            digits += digit
    return int(digits, 16) if digits else None


def registers(frame):
    """The (name, number) of each register that is known in the frame, in the order of a snapshot file."""
    calling = is_calling(frame)
    for name in GENERAL:
        value = frame.read_register(name)
        if not value.is_optimized_out and not (calling and name not in KEPT_BY_CALLS):
            yield name, int(value) % TOP
    for number in range(0 if calling else 16):
        value = frame.read_register("xmm%d" % number)
        if not value.is_optimized_out:
            low, high = (int(value["v2_int64"][half]) % TOP for half in (0, 1))
            yield "xmm%d" % number, high << 64 | low


def mappings():
    """The (start, end, permissions, file) of each mapping that gdb knows; permissions are None for a core file."""
    try:
        lines = gdb.execute("info proc mappings", to_string=True).splitlines()
    except gdb.error:
        return
    for line in lines:
        words = line.split()
        if len(words) < 4 or not words[0].startswith("0x") or not words[1].startswith("0x"):
            continue
        has_perms = len(words) > 4 and set(words[4]) <= set("rwxsp-")
        file = words[5:] if has_perms else words[4:]
        yield int(words[0], 16), int(words[1], 16), words[4] if has_perms else None, " ".join(file)


def core_parts():
    """The (start, end) of each segment whose bytes are in the core file."""
    for line in gdb.execute("info files", to_string=True).splitlines():
        words = line.split()
        if len(words) == 5 and words[1] == "-" and words[3] == "is" and words[4].startswith("load"):
            yield int(words[0], 16), int(words[2], 16)


def stack(frame):
    """From a little below the newest frame's stack pointer up to the end of its mapping."""
    pointer = int(gdb.newest_frame().read_register("rsp")) % TOP
    for low, high in [found[:2] for found in mappings() if found[2]] + list(core_parts()):
        if low <= pointer < high:
            return [(max(low, pointer - STACK_BELOW), high)]
    raise gdb.GdbError("no mapping has the stack pointer %#x" % pointer)


def writable(frame):
    """What the process may write; of a core file all that is in it."""
    return [found[:2] for found in mappings() if "w" in (found[2] or "")] + list(core_parts())


def program(frame):
    """What is mapped of the program's own file: code, constants such as the texts of &str, statics."""
    file = gdb.current_progspace().filename
    found = [(low, high) for low, high, _, name in mappings() if name == file]
    if not found:
        raise gdb.GdbError("nothing is mapped of %s" % file)
    return found


WORDS = {"stack": stack, "writable": writable, "program": program}


def value_of(expression):
    """The value of an expression in gdb's current language."""
    try:
        return gdb.parse_and_eval(expression)
    except gdb.error as error:
        raise gdb.GdbError("%s: %s" % (expression, error))


def part(word, frame):
    """The (start, end) pairs that a word means."""
    if word in WORDS:
        return WORDS[word](frame)
    start, comma, length = word.rpartition(",")
    if comma:
        low = int(value_of(start)) % TOP
        return [(low, low + int(value_of(length)))]
    value = value_of(word)
    if value.address is None:
        raise gdb.GdbError("%s is not in memory" % word)
    low = int(value.address) % TOP
    return [(low, low + value.type.sizeof)]


def merged(parts):
    """The parts in rising order, as runs that do not touch."""
    runs = []
    for low, high in sorted(parts):
        high = min(high, TOP)
        if runs and low <= runs[-1][1]:
            runs[-1][1] = max(runs[-1][1], high)
        elif low < high:
            runs.append([low, high])
    return runs


def readable(low, high):
    """The (start, bytes) of what can be read of a run: page by page where a read fails, so that no page costs another."""
    inferior = gdb.selected_inferior()
    while low < high:
        end = min(high, (low // LINE + 1) * LINE)
        try:
            yield low, bytes(inferior.read_memory(low, end - low))
        except gdb.MemoryError:
            yield from pages(inferior, low, end)
        low = end


def pages(inferior, low, high):
    """The same, a page at a time."""
    while low < high:
        end = min(high, (low // PAGE + 1) * PAGE)
        try:
            yield low, bytes(inferior.read_memory(low, end - low))
        except gdb.MemoryError:
            pass
        low = end


def frame_lines(frame):
    """The lines of the frame's address and registers."""
    cfa = cfa_of(frame)
    if cfa is not None:
        yield "cfa %#x" % cfa
    for name, number in registers(frame):
        yield "reg %s %#x" % (name, number)


def selected_frame():
    """The selected frame of a stopped process or core file, on x86-64."""
    try:
        frame = gdb.selected_frame()
    except gdb.error:
        raise gdb.GdbError("no process is stopped, and there is no core file")
    name = frame.architecture().name()
    if not name.startswith("i386:x86-64"):
        raise gdb.GdbError("the program is for %s, and a snapshot has registers of x86-64" % name)
    return frame


class File:
    """The text of a snapshot file, of which no more is kept than rdbg reads."""

    def __init__(self):
        self.lines, self.size = [], 0

    def add(self, line):
        self.size += len(line) + 1
        if self.size > LIMIT:
            raise gdb.GdbError(
                "the snapshot has more than 64 MiB, which is the most that rdbg reads, and nothing was written: "
                "name fewer parts, such as `stack program` or single variables"
            )
        self.lines.append(line)

    def write(self, name):
        try:
            with open(os.path.expanduser(name), "w", newline="\n") as out:
                out.writelines(line + "\n" for line in self.lines)
        except OSError as error:
            raise gdb.GdbError("cannot write %s: %s" % (name, error.strerror))


def snapshot_of(words, frame, with_registers):
    """The snapshot file of the frame, and how many of the bytes that the words mean cannot be read."""
    file = File()
    file.add("rdbg-snapshot 1")
    file.add("pc %#x" % pc_of(frame))
    for line in frame_lines(frame) if with_registers else ():
        file.add(line)
    missing = 0
    for low, high in merged(pair for word in words or WORDS for pair in part(word, frame)):
        missing += high - low
        for start, data in readable(low, high):
            missing -= len(data)
            file.add("mem %#x %s" % (start, data.hex()))
    return file, missing


class Snapshot(gdb.Command):
    __doc__ = "Writes an rdbg snapshot of the selected frame: %s\n\nWithout parts it takes `stack writable program`." % USAGE

    def __init__(self):
        super().__init__("rdbg-snapshot", gdb.COMMAND_DATA)

    def invoke(self, argument, from_tty):
        words = gdb.string_to_argv(argument)
        with_registers = words[:1] != ["--no-registers"]
        words = words if with_registers else words[1:]
        if not words:
            raise gdb.GdbError(USAGE)
        file, missing = snapshot_of(words[1:], selected_frame(), with_registers)
        file.write(words[0])
        print("%s: %d bytes%s" % (words[0], file.size, "; %d bytes of memory cannot be read" % missing if missing else ""))


Snapshot()
