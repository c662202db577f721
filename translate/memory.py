"""The bytes of data memory: what the directives put there, aligned as MARS and SPIM align it, and the parts that were reserved."""
from faults import Fault

# Data begins here, so that 0 is the address of nothing.
FIRST = 16
LIMIT = 65536
# Where `$sp` points at first: some words above it are there too.
STACK = LIMIT - 64
# Where MARS and SPIM have data.
SEGMENT = 0x10010000
SPACES = (".space", ".skip", ".zero")
# The word that says where the heap goes on.
HEAP = 12


class Item:
    """What one statement put into memory: from where to where, and in units of how many bytes; texts have none."""

    def __init__(self, statement, first, last, size):
        self.statement, self.first, self.last, self.size = statement, first, last, size
        self.is_space = statement.name in SPACES


class Memory:
    """The bytes from address 0 on, the items in their order, and the words that wait for the address of a label."""

    def __init__(self):
        self.bytes = bytearray(FIRST)
        self.items, self.waiting, self.reserved = [], [], []
        self.segment, self.aligns = SEGMENT, True

    @property
    def end(self):
        return len(self.bytes)

    def grow(self, count, place):
        """Bytes of 0 at the end, as many as fit below the stack."""
        if self.end + count > STACK:
            raise Fault(place, f"Data ends at byte {self.end + count}, where {STACK} is the most.",
                        "Data and stack share 64 KB.")
        self.bytes += bytes(count)

    def align(self, size, place):
        self.grow(-self.end_offset % size, place)

    @property
    def end_offset(self):
        """Where the end is within the segment of data, by which MARS and SPIM align."""
        return self.end - FIRST

    def move_to(self, address, place):
        """Goes on at an address of the segment, which the first such address chooses."""
        if not 0 <= address < 0x80000000:
            raise Fault(place, "There is no memory of a system.")
        if self.end == FIRST and not self.items:
            self.segment = address if address & 0xffff >= 4096 else address & ~0xffff
        skipped = address - self.segment - self.end_offset
        if skipped < 0:
            raise Fault(place, "Data goes on at an address before its end.", "Leave the address out.")
        self.grow(skipped, place)

    def byte_of(self, address):
        """The byte at which an address of the segment stands here, if it is one."""
        offset = (address & 0xffffffff) - self.segment
        return offset + FIRST if self.segment >= 0x10000000 and 0 <= offset < STACK - FIRST else None

    def put(self, statement, first, size):
        """The item from a byte to the end."""
        item = Item(statement, first, self.end, size)
        self.items.append(item)
        return item

    def write(self, at, number, size):
        self.bytes[at:at + size] = (number & (1 << 8 * size) - 1).to_bytes(size, "little")
