"""Draws the chart of a listing of additions in the order of a seed: seeded.py LISTING SEED RING.

Written after the definitions in crates/one_thread/specs (Possible, Choices, Seeds) and crates/chart/src (drawing.rt). The listing has a
line for each instruction, `addiu $1,$2,3` or `addu $1,$2,$3`, and a last one `break`."""
import re
import sys

MULTIPLIER, INCREMENT, WORD = 6364136223846793005, 1, 2**64 - 1


def words_of(seed):
    """The words of PCG32, begun with a seed as its state, in its stream 0."""
    state = ((seed + INCREMENT) * MULTIPLIER + INCREMENT) & WORD
    while True:
        word = ((state >> 18 ^ state) >> 27) & 0xFFFFFFFF
        by = state >> 59
        yield (word >> by | word << (32 - by)) & 0xFFFFFFFF
        state = (state * MULTIPLIER + INCREMENT) & WORD


class Tenant:
    """An instruction in flight, and the turns at which something became of it."""

    def __init__(self, position, turn, text, older):
        numbers = [int(it) for it in re.findall(r"\$(\d+)", text)]
        self.position, self.let, self.text, self.ran = position, turn, text, None
        self.register = numbers[0] if numbers else 0
        made = [next((it for it in reversed(older) if it.register == number), None) for number in numbers[1:] if number]
        self.waits_for = [it for it in made if it]

    def can_run(self):
        return self.ran is None and all(it.ran for it in self.waits_for)

    def line(self, turn):
        """The line of the tenant, which has retired at this turn."""
        pc = 0x400000 + 4 * self.position
        picture = "L" + "." * (self.ran - self.let - 1) + "X" + "-" * (turn - self.ran - 1) + "R"
        return f"{self.position}\t{self.let}\t0x{pc:08x} {self.text.ljust(26)} {' ' * ((self.let - 1) % 64)}{picture}"


def main():
    with open(sys.argv[1], encoding="ascii") as it:
        listing = [" ".join(line.split()) for line in it if line.strip()]
    words, ring = words_of(int(sys.argv[2])), int(sys.argv[3])
    tenants, retired, turn = [], 0, 0
    while retired < len(listing):
        turn += 1
        live = tenants[retired:]
        steps = ["let"] if len(tenants) < len(listing) and len(live) < ring else []
        steps += [it for it in live if it.can_run()]
        steps += ["retire"] if live and live[0].ran else []
        step = steps[next(words) % len(steps)]
        if step == "let":
            tenants.append(Tenant(len(tenants), turn, listing[len(tenants)], tenants))
        elif step == "retire":
            print(live[0].line(turn))
            retired += 1
        else:
            step.ran = turn


main()
