"""A reading of docs/FORMAT.md: a table with its bytes, and what commands have to tell of it. It shares no code with the
programs."""
import struct

FREE = 255


def fx(key):
    state, at = 0, 0

    def step(state, number):
        state = ((state << 5) | (state >> 59)) & (2 ** 64 - 1)
        return ((state ^ number) * 0x517cc1b727220a95) % 2 ** 64

    while len(key) - at >= 8:
        state, at = step(state, int.from_bytes(key[at:at + 8], "little")), at + 8
    for size in (4, 2, 1):
        if len(key) - at >= size:
            state, at = step(state, int.from_bytes(key[at:at + size], "little")), at + size
    return state % 2 ** 32


def unhash(key):
    return int.from_bytes(key[-4:], "little")


def xxh64(key):
    """XXH64 with seed 0, by its published description; the low 32 bits."""
    first, second, third, fourth, fifth = (
        0x9E3779B185EBCA87, 0xC2B2AE3D27D4EB4F, 0x165667B19E3779F9, 0x85EBCA77C2B2AE63, 0x27D4EB2F165667C5)

    def turned(number, bits):
        return (number << bits | number >> (64 - bits)) % 2 ** 64

    def mixed(state, lane):
        return turned((state + lane * second) % 2 ** 64, 31) * first % 2 ** 64

    def number(at, size):
        return int.from_bytes(key[at:at + size], "little")

    at, state = 0, fifth
    if len(key) >= 32:
        states = [(first + second) % 2 ** 64, second, 0, -first % 2 ** 64]
        while len(key) - at >= 32:
            states, at = [mixed(it, number(at + 8 * n, 8)) for n, it in enumerate(states)], at + 32
        state = sum(turned(it, bits) for it, bits in zip(states, (1, 7, 12, 18))) % 2 ** 64
        for it in states:
            state = ((state ^ mixed(0, it)) * first + fourth) % 2 ** 64
    state = (state + len(key)) % 2 ** 64
    while len(key) - at >= 8:
        state, at = (turned(state ^ mixed(0, number(at, 8)), 27) * first + fourth) % 2 ** 64, at + 8
    if len(key) - at >= 4:
        state, at = (turned(state ^ number(at, 4) * first % 2 ** 64, 23) * second + third) % 2 ** 64, at + 4
    for byte in key[at:]:
        state = turned(state ^ byte * fifth % 2 ** 64, 11) * first % 2 ** 64
    state = (state ^ state >> 33) * second % 2 ** 64
    state = (state ^ state >> 29) * third % 2 ** 64
    return (state ^ state >> 32) % 2 ** 32


# all hash functions, of which the first that fits a file is taken
HASHES = [fx, unhash, xxh64]


class Table:
    def __init__(self, key_size, value_size, hash, percent, capacity):
        self.key_size, self.value_size, self.hash = key_size, value_size, hash
        self.factor = percent * 65535 // 100
        self.cells = [None] * self.slots_for(capacity)

    def slots_for(self, items):
        slots = 16
        while slots * self.factor < 65536 * items:
            slots *= 2
        return slots

    def order_from(self, home):
        slots = len(self.cells)
        for j in range(slots // 16):
            for i in range(16):
                yield j + 1, (home + 8 * j * (j + 1) + i) % slots

    def order(self, key):
        return self.order_from(self.hash(key) % len(self.cells))

    def groups_to_free(self, home):
        """How many groups a search from this home reads at most: up to one with a free slot, or all."""
        for groups, slot in self.order_from(home):
            if self.cells[slot] is None:
                return groups
        return len(self.cells) // 16

    def count(self):
        return sum(cell is not None for cell in self.cells)

    def most(self):
        return len(self.cells) * self.factor // 65536

    def find(self, key):
        for groups, slot in self.order(key):
            if self.cells[slot] is None or self.cells[slot][0] == key:
                return groups, slot

    def put(self, key, value):
        _, slot = self.find(key)
        if self.cells[slot] is None and self.count() >= self.most():
            pairs = [cell for cell in self.cells if cell is not None]
            self.cells = [None] * self.slots_for(max(1, 2 * len(pairs)))
            for pair in pairs:
                self.cells[self.find(pair[0])[1]] = pair
            _, slot = self.find(key)
        self.cells[slot] = (key, value)

    def insert_order(self):
        """The slots as inserts may have filled them, in passes over the slots: each takes the slots that are ready, whose
        keys pass no slot that is not taken yet. None where no inserts make this table."""
        taken, order, more = set(), [], True
        # of each slot that is not taken, the slots that its key passes; those before the first of them are taken
        paths = {slot: (it for _, it in self.order(cell[0])) for slot, cell in enumerate(self.cells) if cell is not None}
        waits_for = {slot: next(path) for slot, path in paths.items()}
        while more:
            more = False
            for slot in sorted(waits_for):
                while waits_for[slot] != slot and waits_for[slot] in taken:
                    waits_for[slot] = next(paths[slot])
                if waits_for[slot] == slot:
                    taken.add(slot)
                    order.append(slot)
                    del waits_for[slot]
                    more = True
        return order if len(order) == self.count() else None

    def controls(self):
        return bytes(FREE if cell is None else self.hash(cell[0]) >> 25 for cell in self.cells)

    def image(self):
        header = b"ODHT" + bytes([1, self.key_size, self.value_size, 32])
        header += struct.pack("<QQ", self.count(), len(self.cells)) + bytes([0, 0, 0, 2])
        header += struct.pack("<HH", self.factor, 0)
        zeros = bytes(self.key_size + self.value_size)
        entries = b"".join(zeros if cell is None else cell[0] + cell[1] for cell in self.cells)
        controls = self.controls()
        return header + entries + controls + controls[:16]
