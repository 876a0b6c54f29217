"""The tables and the cases of what `odht info` tells of how full a table is along its slots, of where it stands in a file,
and of what helps where searches are long: tests/tool/tables/along.cases. Run by tables.py."""
import functools
import itertools
import json
import os

from model import Table, fx, unhash, xxh64

# docs/TOOL.md: the bound of searches, in groups, where `--whole` is not given, and what is long
BOUND, LONG = 128, 24


def stretches(table):
    """How many slots of each stretch are occupied, at most 64 of equal length, and how many slots a stretch has."""
    held = [cell is not None for cell in table.cells]
    size = max(1, len(held) // 64)
    return [sum(held[at:at + size]) for at in range(0, len(held), size)], size


def signs(table):
    counts, size = stretches(table)
    return "".join("." if count == 0 else "9" if count == size else str(count * 8 // size + 1) for count in counts)


@functools.lru_cache(maxsize=None)
def longest_miss(table):
    return max(table.groups_to_free(home) for home in range(len(table.cells)))


@functools.lru_cache(maxsize=None)
def advice(table):
    """What helps, in words and as options of `odht rebuild`, if searches for absent keys are long: with which a rebuild has
    none that is."""
    miss = longest_miss(table)
    if miss <= LONG:
        return None
    whole = " --whole" if miss > BOUND else ""
    is_high = table.count() * 100 // len(table.cells) > 50
    if is_high and longest_miss(rebuilt(table, "--percent 50")) <= LONG:
        return "a lower load", "--percent 50" + whole
    if table.hash is not xxh64 and longest_miss(rebuilt(table, "--hash xxh64")) <= LONG:
        return "another hash function", "--hash xxh64" + whole
    return None


def advice_line(table, name):
    told = advice(table)
    return f"may help      {told[0]}: odht rebuild {name} {told[1]}\n" if told else ""


def info_object(table, percent, name, bound, at=None):
    """The object of `info --json`."""
    groups = [table.find(cell[0])[0] for cell in table.cells if cell is not None]
    capped = (lambda number: number) if bound is None else (lambda number: min(number, bound + 1))
    longest = capped(max(groups, default=0))
    told = advice(table)
    found = {
        "file": name, "at": at, "key_bytes": table.key_size, "value_bytes": table.value_size, "header_bytes": 32,
        "all_bytes": len(table.image()), "items": table.count(), "slots": len(table.cells), "maximum": table.most(),
        "load_percent": table.count() * 100 // len(table.cells), "maximum_load_percent": percent,
        "along_slots": stretches(table)[0], "hash": table.hash.__name__, "bound": bound,
        "histogram": [sum(min(it, 64) == n for it in groups) for n in range(1, min(longest, 64) + 1)],
        "longest_hit": longest, "longest_miss": capped(longest_miss(table)), "may_help": told and told[1],
    }
    return json.dumps(found, separators=(",", ":")) + "\n"


def filled(hash, percent, slots, keys):
    """A table of so many slots with these keys, and values of no bytes, even where they are more than it may have."""
    table = Table(len(keys[0]), 0, hash, percent, 0)
    table.cells = [None] * slots
    for key in keys:
        table.cells[table.find(key)[1]] = (key, b"")
    return table


def numbered(numbers, size=4):
    return [number.to_bytes(size, "little") for number in numbers]


def of_one_home(hash, slots, count, size=4):
    """So many keys whose home is slot 0."""
    keys = (it for it in map(lambda number: number.to_bytes(size, "little"), itertools.count()) if hash(it) % slots == 0)
    return list(itertools.islice(keys, count))


def tables():
    """Each with its name, what it is, its load factor in percent, and what helps."""
    # of the 16 slots of stretch p, p modulo 17 are occupied: each count, beside others
    slots = [16 * p + i for p in range(64) for i in range(p % 17)]
    yield "stretches", "each count of occupied slots", 87, filled(unhash, 87, 1024, numbered(slots)), None
    yield "two_slots", "stretches of two slots", 87, filled(unhash, 87, 128, numbered([0, 2, 3, 126])), None
    yield "full", "no free slot", 100, filled(unhash, 100, 16, numbered(range(16))), None
    # 24 groups are not long, and 25 are
    keys = of_one_home(unhash, 512, 432)
    yield "long_none", "24 groups", 87, filled(unhash, 87, 512, keys[:368]), None
    yield "long_least", "25 groups", 87, filled(unhash, 87, 512, keys[:384]), "--percent 50"
    yield "long_high", "28 groups, of a high load", 87, filled(unhash, 87, 512, keys), "--percent 50"
    # 51 percent are a high load, and 50 are not, rounded down
    keys = of_one_home(unhash, 1024, 523)
    yield "long_over_half", "51 percent", 87, filled(unhash, 87, 1024, keys), "--percent 50"
    keys = of_one_home(unhash, 1024, 522, 8)
    yield "long_unhash", "50 percent, by unhash", 87, filled(unhash, 87, 1024, keys), "--hash xxh64"
    keys = numbered([it << 32 for it in range(400)], 8)
    yield "long_fx", "a low load, by fx", 87, filled(fx, 87, 1024, keys), "--hash xxh64"
    # xxh64 takes keys of any length
    keys = of_one_home(fx, 1024, 400, 4)
    yield "long_four_bytes", "keys of four bytes", 87, filled(fx, 87, 1024, keys), "--hash xxh64"
    keys = of_one_home(fx, 1024, 400, 3)
    yield "long_three_bytes", "keys of three bytes", 87, filled(fx, 87, 1024, keys), "--hash xxh64"
    # keys of one hash have one home at each load, so that a lower one does not help
    keys = [(it << 32).to_bytes(8, "big") for it in range(400)]
    yield "long_one_hash", "a high load, of one hash", 87, filled(unhash, 87, 512, keys), "--hash xxh64"
    keys = of_one_home(xxh64, 512, 400)
    yield "long_xxh64", "a low load, by xxh64", 87, filled(xxh64, 87, 1024, keys), None
    keys = numbered(range(511))
    yield "long_full", "all but one slot, by xxh64", 100, filled(xxh64, 100, 512, keys), "--percent 50"


@functools.lru_cache(maxsize=None)
def rebuilt(table, words):
    """The table that `odht rebuild` makes with these options."""
    hash = xxh64 if "--hash xxh64" in words else table.hash
    new = Table(table.key_size, table.value_size, hash, 50 if "--percent" in words else 87, table.count())
    for key, value in filter(None, table.cells):
        new.put(key, value)
    return new


def text_of(here, info_text, block):
    """The text of the cases; writes the files of the tables too."""
    def file_of(name, image):
        with open(os.path.join(here, f"{name}.odht"), "wb") as file:
            file.write(image)
        return f"< crates/odht_tool/data/{name}.odht"

    text = ""
    for name, words, percent, table, helps in tables():
        told = advice(table)
        assert (told and told[1]) == helps, (name, told)
        file, held, inside = f"{name}.odht", file_of(name, table.image()), file_of(f"{name}_inside", b"ODH" + table.image() + b"T")
        runs = [
            (words, file, held, f"info {file}", info_text(table, percent, name=file)),
            ("with others", file, held, f"info {file} {file}",
             "".join(f"file          {file}\n" + info_text(table, percent, name=file) for _ in range(2))),
            ("inside a file", file, inside, f"info {file} --at 3", info_text(table, percent, name="FILE", at=3)),
            ("an object", file, held, f"info {file} --json", info_object(table, percent, file, BOUND)),
            ("an object inside a file", file, inside, f"info --at=3 {file} --json", info_object(table, percent, file, BOUND, 3)),
        ]
        for title, file, bytes, args, stdout in runs:
            text += f"== {name}: {title}\nargs: {args}\nbefore {file}: {bytes}\n" + block("stdout", stdout) + "\n"
        text += (f"== {name}: on standard input\nargs: info -\nstdin: {held}\n"
                 + block("stdout", info_text(table, percent, name="FILE")) + "\n")
        if told:
            new = rebuilt(table, told[1])
            assert longest_miss(new) <= LONG, name
            text += (f"== {name}: what helps\nargs: rebuild {file} {told[1]}\nbefore {file}: {held}\n"
                     f"after {file}: {file_of(f'{name}_rebuilt', new.image())}\n\n")
    return text
