"""The in-order machine of ./ruu, one instruction a call, or many, through libruu_step.so: the functions of ruu.h for Python.

    import ruu
    machine = ruu.load("libruu_step.so")
    text, memory = ruu.words([0x24010005]), ruu.data(64)
    registers, pc = ruu.words([0] * 34), ruu.word(ruu.TEXT)
    machine.step(text, memory, registers, pc)

An area that is None, or of another type or length, is an exception, and nothing is run. The areas may not overlap, and register
0 is 0.

And its judge of out-of-order machines, one event a call, through libruu_judge.so:

    with ruu.Judge("libruu_judge.so", open("branch.s", "rb").read(), stations=16) as judge:
        if judge.event("let 0x00400000") != ruu.LEGAL:
            print(judge.reason())"""
import ctypes

VERSION = "1.0.0"
WENT, BREAK, OVERFLOW, UNALIGNED, RANGE, BADPC, NO_OPERATION, SIZES = 0, 1, 2, 3, 4, 5, -1, -2
LO, HI, TEXT, MOST_WORDS, MOST_BYTES = 32, 33, 0x00400000, 16384, 65536
NAMES = {0: "went", 1: "break", 2: "overflow", 3: "unaligned", 4: "range", 5: "badpc", -1: "no operation", -2: "sizes"}
word = ctypes.c_uint32
# The answers of a judge, and its flags.
LEGAL, REFUSED, LISTING, USED_WRONG, UNREAD, NO_MEMORY, ENDED = range(7)
GUESSES, FLUSHES, ISSUE_DISPATCHES, ISSUE_EXECUTES = 1, 2, 4, 8
NO_BOUND = ctypes.c_size_t(-1).value


class Change(ctypes.Structure):
    """What an instruction has changed: `registers` were written (0, 1 or 2), the first and the second with what they hold
    since; `width` bytes at `address` were loaded, or stored, with `stored`. All is 0 after each answer but WENT."""

    _fields_ = [(name, word) for name in "registers first first_value second second_value width address is_store stored".split()]


def words(values):
    """An area of words: a text, or registers."""
    return (word * len(values))(*values)


def data(bytes_or_size):
    """An area of bytes, of a size with zeros, or with these bytes."""
    size = bytes_or_size if isinstance(bytes_or_size, int) else len(bytes_or_size)
    return (ctypes.c_uint8 * size)(*(() if isinstance(bytes_or_size, int) else bytes_or_size))


def stop_name(answer):
    """The name of an answer: the word of the report where it is a stop."""
    return NAMES.get(answer, "no answer")


class load:
    """The library at a place. Each call answers WENT, a stop, NO_OPERATION or SIZES; many threads may call with areas of their own."""

    def __init__(self, place):
        self.library = ctypes.CDLL(place)

    def call(self, function, text, memory, registers, pc, *more):
        for name, area, kind in ("text", text, word), ("memory", memory, ctypes.c_uint8), ("registers", registers, word):
            if not isinstance(area, ctypes.Array) or area._type_ is not kind:
                raise TypeError(f"{name} is no area of {kind.__name__}: ruu.words and ruu.data make one")
        if len(registers) != 34 or not isinstance(pc, word):
            raise TypeError("there are 34 registers, and the pc is a ruu.word")
        size = ctypes.c_size_t
        return function(text, size(len(text)), memory, size(len(memory)), registers, ctypes.byref(pc), *more)

    def step(self, text, memory, registers, pc):
        """Runs the instruction at the pc: the text begins at TEXT, memory at address 0; registers LO and HI are 32 and 33."""
        return self.call(self.library.ruu_step, text, memory, registers, pc)

    def step_told(self, text, memory, registers, pc, change):
        """Does what step does, and tells what was changed."""
        if not isinstance(change, Change):
            raise TypeError("the change is a ruu.Change")
        return self.call(self.library.ruu_step_told, text, memory, registers, pc, ctypes.byref(change))

    def run(self, text, memory, registers, pc, steps):
        """Does what step does, so many times at most, up to the first answer but WENT: the answer, and how many went on."""
        if not 0 <= steps < 1 << 64:
            raise ValueError("so many steps are no word of 64 bits")
        done = ctypes.c_uint64(steps)
        return self.call(self.library.ruu_run, text, memory, registers, pc, ctypes.byref(done)), done.value


class ListingFault(ValueError):
    """The listing of a judge has a fault, in `line`; 0 where it is too long."""

    def __init__(self, line):
        super().__init__(f"the listing has a fault in line {line}" if line else "the listing is too long")
        self.line = line


class Judge:
    """A judge of what another out-of-order machine does: it is told one line of a log after another. It is used by one thread at
    a time, and frees what it holds at the end of a `with`, by `close`, or once nobody has it."""

    def __init__(self, place, listing, stations=NO_BOUND, queue=NO_BOUND, flags=0):
        self.place, line = ctypes.c_void_p(), ctypes.c_uint64()
        self.library = ctypes.CDLL(place)
        size, listing = ctypes.c_size_t, bytes_of(listing)
        answer = self.library.ruu_judge_new(
            listing, size(len(listing)), size(stations), size(queue), word(flags), ctypes.byref(line), ctypes.byref(self.place)
        )
        if answer == LISTING:
            raise ListingFault(line.value)
        if answer == NO_MEMORY:
            raise MemoryError
        if answer != LEGAL:
            raise ValueError("there are no such stations or flags")

    def event(self, line):
        """Tells the next line of the log: LEGAL, REFUSED, UNREAD, NO_MEMORY or ENDED, and USED_WRONG after `close`."""
        line = bytes_of(line)
        return self.library.ruu_judge_event(ctypes.byref(self.place), line, ctypes.c_size_t(len(line)))

    def reason(self):
        """The text of the verdict on the lines that were told, as `./ruu judge` prints it."""
        length, room = ctypes.c_size_t(), 4096
        while True:
            text = ctypes.create_string_buffer(room)
            answer = self.library.ruu_judge_reason(ctypes.byref(self.place), text, ctypes.c_size_t(room), ctypes.byref(length))
            if answer == NO_MEMORY:
                raise MemoryError
            if answer != LEGAL:
                raise ValueError("the judge is closed")
            if length.value <= room:
                return text.raw[: length.value].decode("ascii")
            room = length.value

    def close(self):
        """Frees what the judge holds."""
        self.library.ruu_judge_free(ctypes.byref(self.place))

    def __enter__(self):
        return self

    def __exit__(self, *_):
        self.close()

    def __del__(self):
        if hasattr(self, "library"):
            self.close()


def bytes_of(text):
    """The bytes of a text."""
    return text.encode("ascii", "replace") if isinstance(text, str) else bytes(text)
