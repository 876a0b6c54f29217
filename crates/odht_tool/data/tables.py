"""A reading of docs/FORMAT.md and docs/TOOL.md: writes the tables of this folder, and the cases that say what the commands
have to write of them: those in tests/tool/tables, and tests/script/hex.cases.

It shares no code with the programs. Run it anywhere: `python3 tables.py`."""
import os

import along
from model import HASHES, Table, fx, unhash, xxh64

# docs/TOOL.md: the bound of searches, in groups, where `--whole` is not given, and what `check` then writes
BOUND = 128
VALID = "valid, and no search reads more than 128 groups\n"
HERE = os.path.dirname(os.path.abspath(__file__))
TESTS = os.path.join(HERE, "..", "..", "..", "tests")


def number(data):
    return str(int.from_bytes(data, "little"))


def signed(data):
    return str(int.from_bytes(data, "little", signed=True))


def high_first(data):
    return str(int.from_bytes(data, "big"))


def plain(data):
    return data.rstrip(b"\0").decode()


def nothing(data):
    return ""


def groups_line(label, groups, bound):
    return f"{label:<14}" + (f"more than {bound}" if bound is not None and groups > bound else f"{groups}") + " groups\n"


def info_text(table, percent, bound=BOUND, name="", at=None):
    lines = [("at byte", at)] if at is not None else []
    lines += [
        ("key bytes", table.key_size), ("value bytes", table.value_size), ("header bytes", 32),
        ("all bytes", len(table.image())), ("items", table.count()), ("slots", len(table.cells)),
        ("maximum", table.most()), ("load", f"{table.count() * 100 // len(table.cells)} percent"),
        ("maximum load", f"{percent} percent"), ("along slots", along.signs(table)),
        ("hash", fits_word(table).split(",")[0]),
    ]
    text = "".join(f"{name:<14}{value}\n" for name, value in lines)
    text += "  groups         items\n"
    groups = [table.find(cell[0])[0] for cell in table.cells if cell is not None]
    longest = max(groups, default=0)
    counts = [sum(min(it, 64) == n for it in groups) for n in range(1, min(longest, 64) + 1)]
    for n, count in enumerate(counts, 1):
        bar = "#" * max(1, count * 40 // max(counts)) if count else ""
        more = "+" if n == 64 and longest > 64 else ""
        text += f"{n:>8}{more}  {count:>12}  {bar}\n"
    text += groups_line("longest hit", longest, bound) + groups_line("longest miss", along.longest_miss(table), bound)
    return text + along.advice_line(table, name)


def dump_text(table, key_text, value_text):
    return "".join(f"{key_text(k)}\t{value_text(v)}\n" for k, v in filter(None, table.cells))


def order_text(table, key_text, value_text):
    """The lines of an insert order: these pairs, put into an empty table of as many slots, have to make the same one."""
    pairs = [table.cells[slot] for slot in table.insert_order()]
    remade = Table(table.key_size, table.value_size, table.hash, 1, 0)
    remade.factor, remade.cells = table.factor, [None] * len(table.cells)
    for key, value in pairs:
        remade.put(key, value)
    assert remade.image() == table.image()
    return "".join(f"{key_text(k)}\t{value_text(v)}\n" for k, v in pairs)


def slots_text(table, key_text, value_text):
    text = ""
    for slot, cell in enumerate(table.cells):
        if cell is not None:
            groups = table.find(cell[0])[0]
            assert table.find(cell[0])[1] == slot
            text += f"{slot}\t{table.hash(cell[0]) >> 25}\t{groups}\t{key_text(cell[0])}\t{value_text(cell[1])}\n"
    return text


def misfits(table, hash):
    """The slots whose control byte is not the tag of their key by another hash function, with both numbers. None where keys
    are too short for it."""
    if hash is unhash and table.key_size < 4:
        return
    for slot, cell in enumerate(table.cells):
        if cell is not None and hash(cell[0]) >> 25 != table.hash(cell[0]) >> 25:
            yield slot, hash(cell[0]) >> 25, table.hash(cell[0]) >> 25


def le(number, size):
    return number.to_bytes(size, "little")


def two(number, size):
    """The two's complement of a number."""
    return number.to_bytes(size, "little", signed=True)


class Case:
    """A table, and the texts that the commands have to write of it."""

    def __init__(self, name, words, key_size, value_size, hash, percent, capacity, pairs, key_text=number,
                 value_text=number, kinds="", is_other=False):
        self.is_other = is_other
        self.name, self.words, self.table = name, words, Table(key_size, value_size, hash, percent, capacity)
        self.kinds, self.key_text = f" {kinds}" if kinds else "", key_text
        self.key_kind = self.kinds.split(" --value")[0]
        self.all_kinds = self.kinds or f" --key hex{key_size} --value hex{value_size}"
        for key, value in pairs:
            self.table.put(key, value)
        self.hash_words = f" --hash {hash.__name__}"
        self.percent, self.info = percent, info_text(self.table, percent, name=f"{name}.odht")
        self.key_text, self.value_text = key_text, value_text
        self.dump = dump_text(self.table, key_text, value_text)
        self.slots = slots_text(self.table, key_text, value_text)
        self.order = order_text(self.table, key_text, value_text)
        self.keys = "".join(key_text(cell[0]) + "\r\n" for cell in filter(None, self.table.cells))
        self.key_lines = "".join(key_text(cell[0]) + "\n" for cell in filter(None, self.table.cells))
        self.value_lines = "".join(value_text(cell[1]) + "\n" for cell in filter(None, self.table.cells))
        self.pairs = "".join(f"{key_text(k)}\t{value_text(v)}\n" for k, v in pairs)

    def write_file(self):
        with open(os.path.join(HERE, f"{self.name}.odht"), "wb") as file:
            file.write(self.table.image())

    def run_text(self, title, args, stdin, stdout, kind="before"):
        """A case: a run on the file of this table, or one that makes it."""
        return (f"== {title}\nargs: {args}\n{kind} {self.name}.odht: < crates/odht_tool/data/{self.name}.odht\n"
                + block("stdin", stdin) + block("stdout", stdout) + "\n")

    def rejected_text(self, other):
        """The case of `check` under another hash function, which is named."""
        slot, expected, found = next(misfits(self.table, other))
        rule = f"Control byte does not match hash value for entry {slot}. Expected {expected}, found {found}.\n"
        args = f"check {self.name}.odht --hash {other.__name__}"
        ran = self.run_text(f"check under {other.__name__}", args, "", f"{self.name}.odht: {rule}")
        return ran.rstrip("\n") + "\nstatus: 1\n\n"

    def found_text(self):
        """The case of `find`, with the hash functions that all control bytes fit."""
        table = self.table
        columns = [0, len(table.image()), table.key_size, table.value_size, table.count(), len(table.cells),
                   table.count() * 100 // len(table.cells), fits_word(table), "valid"]
        return self.run_text("find", f"find {self.name}.odht", "", "\t".join(str(it) for it in columns) + "\n")

    def ordered_text(self):
        """The case of `order`, and that what it writes makes the table."""
        file, words = f"{self.name}.odht", self.words.split(" --capacity")[0]
        room = f"--capacity {self.table.most()}"
        return (self.run_text("order", f"order {file}{self.kinds}", "", self.order)
                + self.run_text("build in this order", f"build {file} {words} {room}", self.order, "", "after"))

    def write_cases(self):
        """The runs of all commands; `info` alone where no words build the table."""
        file, hash = f"{self.name}.odht", self.hash_words
        text = HEAD + self.run_text("info", f"info {file}", "", self.info)
        if self.words:
            text += self.run_text("check", f"check {file}", "", f"{file}: {VALID}")
            text += self.run_text("check --hash", f"check {file}{hash}", "", f"{file}: {VALID}")
            text += self.run_text("check --whole", f"check --whole {file}{hash}", "", f"{file}: valid\n")
            text += "".join(self.rejected_text(it) for it in HASHES if any(misfits(self.table, it)))
            text += self.found_text()
            text += self.run_text("dump", f"dump {file}{self.kinds}", "", self.dump)
            text += self.run_text("keys", f"keys {file}{self.key_kind}", "", self.key_lines)
            text += self.run_text("dump --values", f"dump --values {file}{self.kinds}", "", self.value_lines)
            text += self.run_text("count", f"count {file}", "", f"{self.table.count()}\n")
            text += self.run_text("dump --slots", f"dump --slots {file}{self.kinds}", "", self.slots)
            text += self.run_text("get all keys, in lines that end with \\r\\n", f"get {file} -{self.kinds}", self.keys, self.dump)
            if self.kinds or self.is_other:
                value = self.words.partition(" --value ")[2].split()[:1]
                named = "" if "--value" in self.all_kinds or not value else f" --value {value[0]}"
                text += self.run_text("put what is there", f"put {file}{self.all_kinds}{named}", self.dump, "")
            text += self.run_text("build", f"build {file} {self.words}", self.pairs, "", "after")
            text += self.ordered_text()
        write_test(f"tool/tables/{self.name}.cases", text)




def head(script):
    """The line above the cases that this script writes."""
    return f"# Written by crates/odht_tool/data/{script}, a reading of docs/FORMAT.md and docs/TOOL.md that runs no program.\n\n"


HEAD = head("tables.py")


def block(key, text):
    """A key of a case with its lines, whose ends are in sight."""
    lines = [line.replace("\t", "\\t").replace("\r", "\\r") for line in text.split("\n")[:-1]]
    lines = [line[:-1] + "\\s" if line.endswith(" ") else line or "\\0{-}" for line in lines]
    lines = [line[:-1] + "\\x2e" if line.endswith("...") else line for line in lines]
    return f"{key}:\n" + "".join(f"    {line}\n" for line in lines) if lines else ""


def write_test(name, text):
    path = os.path.join(TESTS, name)
    os.makedirs(os.path.dirname(path), exist_ok=True)
    with open(path, "w") as file:
        file.write(text.rstrip("\n") + "\n")


def spread(at, size):
    """Bytes that vary: the first `size` of the multiples of an odd number."""
    data = b""
    while len(data) < size:
        data += le((at * 0x9E3779B97F4A7C15 + len(data) * 0xBF58476D1CE4E5B9) % 2 ** 64, 8)
    return data[:size]


def cases():
    # 40 keys in a table for 12 that grows twice; each third key is given a second value.
    yield Case("u32_u32", "--key u32 --value u32", 4, 4, fx, 87, 12,
               [(le(k * k + 7, 4), le(k, 4)) for k in range(40)]
               + [(le(k * k + 7, 4), le(1000 + k, 4)) for k in range(0, 40, 3)])
    # docs/FORMAT.md, "Search": the hash is the key, keys 0, 64, .. 2048 have one home, and the last needs 3 groups.
    yield Case("direct", "--key u32 --value u32 --hash unhash --capacity 40", 4, 4, unhash, 87, 40,
               [(le(64 * k, 4), le(k, 4)) for k in range(33)])
    yield Case("u64_u32", "--key u64 --value u32 --percent 95 --capacity 3", 8, 4, fx, 95, 3,
               [(le(1, 8), le(2, 4)), (le(3, 8), le(4, 4)), (le(5, 8), le(2 ** 32 - 1, 4))])
    # What u64_u32 is before its pairs are added, and after the first.
    yield Case("no_pairs", "--key u64 --value u32 --percent 95 --capacity 3", 8, 4, fx, 95, 3, [])
    yield Case("one_pair", "--key u64 --value u32 --percent 95 --capacity 3", 8, 4, fx, 95, 3,
               [(le(1, 8), le(7, 4)), (le(1, 8), le(2, 4))])
    yield Case("u64_u64", "--key u64 --value u64 --percent 6 --capacity 0", 8, 8, fx, 6, 0,
               [(le(2 ** 64 - 1 - k, 8), le(k * 2 ** 40, 8)) for k in range(2)])
    yield Case("bytes16_u32", "--key hex16 --value u32", 16, 4, unhash, 87, 12,
               [(spread(k + 1, 16), le(k, 4)) for k in range(13)], bytes.hex)
    yield Case("bytes16_u64", "--key hex16 --value u64 --hash unhash", 16, 8, unhash, 87, 12,
               [(spread(k + 1, 16), le(k << 33, 8)) for k in range(3)], bytes.hex)
    yield Case("bytes16_set", "--key hex16 --value none --percent 100", 16, 0, unhash, 100, 12,
               [(spread(k + 1, 16), b"") for k in range(15)], bytes.hex, nothing)
    yield Case("bytes20_u64", "--key hex20 --value u64", 20, 8, unhash, 87, 12,
               [(spread(k + 1, 20), le(k, 8)) for k in range(3)], bytes.hex)
    yield Case("bytes32_u64", "--key hex32 --value u64", 32, 8, unhash, 87, 12,
               [(spread(k + 1, 32), le(k, 8)) for k in range(2)], bytes.hex)
    yield Case("bytes32_set", "--key hex32 --value none", 32, 0, unhash, 87, 12,
               [(spread(k + 1, 32), b"") for k in range(3)], bytes.hex, nothing)
    # Numbers with a sign at the ends of their range and about zero, and numbers whose bytes begin with the highest.
    ends = [-2 ** 63, -2 ** 32, -2 ** 31, -2, -1, 0, 1, 2 ** 31, 2 ** 63 - 1]
    yield Case("i64_i32", "--key i64 --value i32", 8, 4, fx, 87, 12,
               [(two(k, 8), two(max(-2 ** 31, min(k, 2 ** 31 - 1)), 4)) for k in ends], signed, signed,
               "--key i64 --value i32")
    yield Case("i32_u32be", "--key i32 --value u32be", 4, 4, fx, 87, 12,
               [(two(k, 4), le(n, 4)) for n, k in enumerate([-2 ** 31, -1, 0, 1, 2 ** 31 - 1])], signed, high_first,
               "--key i32 --value u32be")
    yield Case("u64be_i64", "--key u64be --value i64 --hash fx", 8, 8, fx, 87, 12,
               [(k.to_bytes(8, "big"), two(-k if k < 2 ** 63 else k - 2 ** 64, 8))
                for k in [0, 1, 258, 2 ** 32, 2 ** 63, 2 ** 64 - 1]], high_first, signed, "--key u64be --value i64")
    # Texts with zeros behind them: of all bytes, of one, of none, and with spaces.
    words = [("no value", ""), ("a", "z"), ("sixteen bytes ok", "exactly sixteen!"), (" x ", "-1"), ("b/c", "0" * 15)]
    yield Case("text16_text16", "--key text:16 --value text:16 --hash unhash", 16, 16, unhash, 87, 12,
               [(k.encode().ljust(16, b"\0"), v.encode().ljust(16, b"\0")) for k, v in words], plain, plain,
               "--key text:16 --value text:16")
    # No ready shape has these sizes.
    yield Case("odd_sizes", "--key hex3 --value bytes:5 --hash fx --percent 60", 3, 5, fx, 60, 12,
               [(le(k * 77 % 2 ** 24, 3), le(k, 5)) for k in range(12)], bytes.hex, bytes.hex, is_other=True)
    for name, key_size, value_size, hash, count in [
            ("no_bytes", 0, 0, fx, 1), ("empty_key", 0, 255, fx, 1), ("long_key", 255, 1, fx, 9),
            ("long_direct", 255, 0, unhash, 9), ("short_direct", 4, 1, unhash, 9), ("words_12_5", 12, 5, unhash, 40)]:
        words = f"--key bytes:{key_size} --value hex{value_size} --hash {hash.__name__} --capacity {count}"
        yield Case(name, words, key_size, value_size, hash, 87, count,
                   [(spread(k + 1, key_size), spread(k + 99, value_size)) for k in range(count)], bytes.hex, bytes.hex,
                   is_other=True)
    yield Case("empty", "", 8, 4, fx, 87, 12, [])
    yield from mixing_cases()


def mixing_cases():
    """Tables by xxh64: where no hash function is named that of texts, of `bytes:N`, of numbers whose highest byte comes first
    and of few or many bytes; and where it is named."""
    texts = [f"key {k}" for k in range(30)]
    yield Case("text16_u32", "--key text:16 --value u32", 16, 4, xxh64, 87, 12,
               [(k.encode().ljust(16, b"\0"), le(n * n, 4)) for n, k in enumerate(texts)], plain, number, "--key text:16")
    # What text16_u32 is before its pairs are added, and after one and two.
    for name, count in ("one_text", 1), ("two_texts", 2):
        yield Case(name, "--key text:16 --value u32", 16, 4, xxh64, 87, 12,
                   [(k.encode().ljust(16, b"\0"), le(n * n, 4)) for n, k in enumerate(texts[:count])], plain, number,
                   "--key text:16")
    yield Case("no_texts", "--key text:16 --value u32", 16, 4, xxh64, 87, 12, [], plain, number, "--key text:16")
    yield Case("u64be_u32", "--key u64be --value u32", 8, 4, xxh64, 87, 12,
               [(k.to_bytes(8, "big"), le(k % 2 ** 32, 4)) for k in [0, *range(1000, 1020), 2 ** 64 - 1]], high_first, number,
               "--key u64be")
    yield Case("bytes16_xxh64", "--key bytes:16 --value u64", 16, 8, xxh64, 87, 12,
               [(spread(k + 1, 16), le(k << 33, 8)) for k in range(30)], bytes.hex)
    yield Case("u32_xxh64", "--key u32 --value u32 --hash xxh64 --percent 95", 4, 4, xxh64, 95, 12,
               [(le(4096 * k, 4), le(k, 4)) for k in range(40)])
    for name, size in ("short_xxh64", 7), ("odd_xxh64", 33), ("long_xxh64_key", 255):
        yield Case(name, f"--key hex{size} --value hex5", size, 5, xxh64, 87, 12,
                   [(spread(k + 1, size), spread(k + 99, 5)) for k in range(20)], bytes.hex, bytes.hex, is_other=True)
    for name, size in ("least_unhash", 8), ("most_unhash", 32):
        yield Case(name, f"--key hex{size} --value hex5", size, 5, unhash, 87, 12,
                   [(spread(k + 1, size), spread(k + 99, 5)) for k in range(20)], bytes.hex, bytes.hex, is_other=True)


def wrong_tag():
    """A table whose slot 0 has another tag, in its control byte and in the mirror."""
    table = Table(4, 4, unhash, 87, 12)
    table.put(le(0, 4), le(9, 4))
    image = bytearray(table.image())
    image[32 + 16 * 8] = image[32 + 16 * 8 + 16] = 1
    return image


def late_tag():
    """A table of which the last occupied slot, behind the first sixteen, has another tag."""
    table = Table(4, 4, fx, 87, 20)
    for key in range(20):
        table.put(le(key, 4), le(key * 3, 4))
    image = bytearray(table.image())
    slot = max(at for at, cell in enumerate(table.cells) if cell is not None)
    assert len(table.cells) == 32 and slot >= 16 and table.cells[slot][0] != le(5, 4)
    image[32 + 32 * 8 + slot] ^= 1
    return image


def fits_word(table):
    """The hash functions that give all control bytes of a table."""
    named = [it for it in HASHES if it is not unhash or table.key_size >= 4]
    return ",".join(it.__name__ for it in named if not any(misfits(table, it)))


def write_find_cases():
    """A file with tables among other bytes, and what the commands have to write of them."""
    made = {case.name: case for case in cases()}
    head = made["direct"].table.image()[:32]
    pieces = [b"xx", made["direct"], b"ODHT", head, made["u64_u32"], made["odd_sizes"], wrong_tag(), made["empty"],
              made["bytes16_set"].table.image()[:-1]]
    data, rows, places = b"", "", {}
    for piece in pieces:
        if isinstance(piece, Case):
            table, places[piece.name] = piece.table, len(data)
            image = table.image()
            checked = "valid" if piece.words or piece.name == "empty" else "-"
            columns = [len(data), len(image), table.key_size, table.value_size, table.count(), len(table.cells),
                       table.count() * 100 // len(table.cells), fits_word(table), checked]
            rows += "\t".join(str(it) for it in columns) + "\n"
            data += image
        else:
            data += bytes(piece)
    with open(os.path.join(HERE, "inside.bin"), "wb") as file:
        file.write(data)

    def case(title, args, stdout):
        return (f"== {title}\nargs: {args}\nbefore inside.bin: < crates/odht_tool/data/inside.bin\n"
                + block("stdout", stdout) + "\n")

    text = HEAD + case("the tables inside a file", "find inside.bin", rows)
    for name in ("direct", "u64_u32", "odd_sizes"):
        at = f"inside.bin --at {places[name]}"
        told = info_text(made[name].table, made[name].percent, at=places[name])
        text += case(f"info of {name} inside a file", f"info {at}", told)
        if made[name].words:
            text += case(f"check of {name}", f"check {at}{made[name].hash_words}", f"inside.bin: {VALID}")
            text += case(f"dump of {name}", f"dump {at}", made[name].dump)
            text += case(f"dump --slots of {name}", f"dump --slots {at}", made[name].slots)
            key, value = made[name].dump.split("\n")[1].split("\t")
            text += case(f"get of {name}", f"get {at} {key}", f"{key}\t{value}\n")
    write_test("tool/tables/inside.cases", text)


def write_bound_cases():
    """A table in which a search reads more groups than the bound: its 2,064 keys have one home, of 4,096 slots."""
    keys = [le(4096 * k, 4) for k in range(2064)]
    made = Case("one_home", "", 4, 4, unhash, 87, 2064, [(key, le(0, 4)) for key in keys])
    made.write_file()
    slots = len(made.table.cells)
    home = next(it for it in range(slots) if made.table.groups_to_free(it) > BOUND)
    long = f"one_home.odht: Searches from slot {home} may read more than 128 groups; --whole works without this bound\n"
    failure = block("stderr", f"odht: {long}") + "status: 1\n\n"
    columns = [0, len(made.table.image()), 4, 4, 2064, slots, 2064 * 100 // slots, "unhash"]
    row = "\t".join(str(it) for it in columns)

    def case(title, args, stdout, stdin=""):
        return made.run_text(title, args, stdin, stdout)

    text = HEAD + case("info", "info one_home.odht", made.info)
    text += case("info --whole", "info --whole one_home.odht", info_text(made.table, 87, None, "one_home.odht"))
    text += case("check", "check one_home.odht", long).rstrip("\n") + "\nstatus: 1\n\n"
    text += case("check --whole", "check one_home.odht --hash unhash --whole", "one_home.odht: valid\n")
    text += case("find", "find one_home.odht", f"{row}\tlong\n")
    text += case("find --whole", "find one_home.odht --whole", f"{row}\tvalid\n")
    text += bound_of_get(made, case, block("stderr", f"odht: {long}"))
    text += case("dump --slots", "dump --slots one_home.odht", "").rstrip("\n") + "\n" + failure
    text += case("dump --slots --json", "dump --slots --json one_home.odht", "").rstrip("\n") + "\n" + failure
    text += case("dump --slots --whole", "dump --slots --whole one_home.odht", made.slots)
    # these search nothing
    for args, lines in ("dump", made.dump), ("dump --values", made.value_lines), ("keys", made.key_lines):
        text += case(args, f"{args} one_home.odht", lines[:lines.index("\n") + 1]).rstrip("\n") + "\\n...\n\n"
    text += case("put", "put one_home.odht --value u32", "", "0\t0\n").rstrip("\n") + "\n" + failure
    warned = "odht: one_home.odht: searches may read more than 128 groups, and `odht check` rejects it"
    warned += ": try odht rebuild one_home.odht --hash xxh64 --whole\n"
    words = "--key u32 --value u32 --hash unhash --capacity 2064"
    text += made.run_text("build", f"build one_home.odht {words}", made.pairs, "", "after").rstrip("\n") + "\n" + block("stderr", warned) + "\n"
    text += case("put --whole", "put one_home.odht --value u32 --whole", "", "0\t0\n").rstrip("\n") + "\n" + block("stderr", warned) + "\n"
    text += case("order", "order one_home.odht", "").rstrip("\n") + "\n" + failure
    text += case("order --whole", "order one_home.odht --whole", made.order)
    write_test("tool/tables/one_home.cases", text)


def bound_of_get(made, case, message):
    """The cases of `get`. A regular file is refused only by a key whose search reads more groups than the bound."""
    of_groups = {made.table.find(cell[0])[0]: number(cell[0]) for cell in made.table.cells if cell is not None}
    first, last, over, most = (of_groups[it] for it in (1, BOUND, BOUND + 1, max(of_groups)))
    # of two absent keys the first ends its search in the first group, and the second has the home of all keys
    free = next(it for it in range(len(made.table.cells)) if made.table.groups_to_free(it) == 1)
    absent = 4096 * 2064
    short, failure = f"{first}\t0\n{last}\t0\n{free}\n", message + "status: 2\n\n"

    def refused(title, args, stdin=""):
        return case(title, args, "", stdin).rstrip("\n") + "\n" + failure

    text = case("get of keys whose searches are short", f"get one_home.odht {first} {last}", f"{first}\t0\n{last}\t0\n")
    text += case("one of them is absent", f"get one_home.odht {first} {last} {free}", short).rstrip("\n") + "\nstatus: 1\n\n"
    text += refused("a group more", f"get one_home.odht {first} {over}")
    text += refused("the longest search", f"get one_home.odht {most}")
    text += refused("a long search for an absent key", f"get one_home.odht {absent} {first}")
    text += refused("as JSON", f"get one_home.odht --json {over}")
    text += case("get --whole", f"get one_home.odht {over} {most} {free} --whole", f"{over}\t0\n{most}\t0\n{free}\n").rstrip("\n")
    text += "\nstatus: 1\n\n"
    # the first line of a pipe is looked up by position, and then there were more than two bytes of lines
    text += case("get of lines", "get one_home.odht -", f"{first}\t0\n", f"{first}\n").rstrip("\n") + "\n" + failure
    text += case("get of no line", "get one_home.odht -", "")
    text += case("get --whole of lines", "get one_home.odht --whole -", f"{most}\t0\n{absent}\n", f"{most}\n{absent}\n").rstrip("\n")
    return text + "\nstatus: 1\n\n"


def write_two_fit_cases():
    """A table of one key whose tag is the same by fx and unhash. It is in the first group of its search by unhash, and not in
    that by fx, so `check` takes unhash, and rejects it by fx."""
    key = next(it for it in (le(k, 4) for k in range(2 ** 20))
               if fx(it) >> 25 == unhash(it) >> 25 and xxh64(it) >> 25 != fx(it) >> 25 and (unhash(it) - fx(it)) % 64 >= 16)
    made = Case("two_fit", "", 4, 4, unhash, 87, 48, [(key, le(7, 4))])
    assert len(made.table.cells) == 64 and fits_word(made.table) == "fx,unhash"
    made.write_file()
    slot = made.table.find(key)[1]
    rule = f"two_fit.odht: Key in slot {slot} is not reachable by its search\n"
    text = HEAD + made.run_text("check", "check two_fit.odht", "", f"two_fit.odht: {VALID}")
    text += made.run_text("check --hash fx", "check two_fit.odht --hash fx", "", rule).rstrip("\n") + "\nstatus: 1\n\n"
    text += made.run_text("check --hash unhash", "check two_fit.odht --hash unhash", "", f"two_fit.odht: {VALID}")
    write_test("tool/tables/two_fit.cases", text)
    return slot


def write_unmade_cases():
    """A table that no inserts make: the key in slot 0 passes slot 48, whose key passes slot 0."""
    made = Case("unmade", "", 4, 4, unhash, 87, 48, [(le(slot, 4), le(slot, 4)) for slot in [*range(32), *range(48, 64)]])
    cells = made.table.cells
    cells[0], cells[48] = (le(64 + 48, 4), le(0, 4)), (le(64, 4), le(48, 4))
    assert len(cells) == 64 and made.table.insert_order() is None
    assert all(made.table.find(cell[0])[1] == slot for slot, cell in enumerate(cells) if cell is not None)
    made.write_file()
    text = HEAD + made.run_text("check", "check unmade.odht --hash unhash", "", f"unmade.odht: {VALID}")
    text += made.run_text("dump", "dump unmade.odht", "", dump_text(made.table, number, number))
    told = block("stderr", "odht: unmade.odht: no inserts make this table\n") + "status: 1\n\n"
    for title, args in ("order", "order unmade.odht"), ("order --whole", "order unmade.odht --whole"):
        text += made.run_text(title, args, "", "").rstrip("\n") + "\n" + told
    write_test("tool/tables/unmade.cases", text)


def write_hex_case():
    """The bytes of the table of the largest key and the largest value, on one line of digits."""
    table = Table(8, 4, fx, 95, 3)
    table.put(le(2 ** 64 - 1, 8), le(2 ** 32 - 1, 4))
    script = "new 3 95\nput 18446744073709551615 4294967295\nhex\n"
    answers = "slots 16 max 15\nnone\n" + table.image().hex() + "\n"
    text = "== hex of the largest key and the largest value\n"
    write_test("script/hex.cases", HEAD + text + block("stdin", script) + block("stdout", answers))


if __name__ == "__main__":
    for case in cases():
        case.write_file()
        case.write_cases()
    with open(os.path.join(HERE, "wrong_tag.odht"), "wb") as file:
        file.write(wrong_tag())
    with open(os.path.join(HERE, "late_tag.odht"), "wb") as file:
        file.write(late_tag())
    write_hex_case()
    write_find_cases()
    write_bound_cases()
    write_two_fit_cases()
    write_test("tool/tables/along.cases", HEAD + along.text_of(HERE, info_text, block))
    write_unmade_cases()
