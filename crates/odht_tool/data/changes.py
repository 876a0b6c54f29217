"""What `odht rebuild`, `delete` and `merge` have to make of tables, by a reading of docs/FORMAT.md and docs/TOOL.md:
writes the cases of them in tests/tool/tables, and the tables that they make.

It shares no code with the programs. Run it anywhere: `python3 changes.py`."""
import os

from model import Table, fx, unhash, xxh64
from tables import HERE, block, cases, head, le, write_test

HEAD = head("changes.py")


def percent_of(table):
    """The load factor with which a table was made, in percent: its own factor is that of 65535, rounded down."""
    return next(it for it in range(1, 101) if it * 65535 // 100 == table.factor)


def rebuilt(table, hash, percent):
    """The new table for as many items, with the pairs in slot order; at the load factor of the old one, if none is
    named."""
    percent = percent or percent_of(table)
    new = Table(table.key_size, table.value_size, hash, percent, table.count())
    for key, value in filter(None, table.cells):
        new.put(key, value)
    return new


def write_rebuilt_cases():
    """What `rebuild` has to make of tables: of others of their hash function and load factor, and of those of the other."""
    made = {case.name: case.table for case in cases()}
    made["one_home"] = Table(4, 4, unhash, 87, 2064)
    for k in range(2064):
        made["one_home"].put(le(4096 * k, 4), le(0, 4))
    text = HEAD
    for name, words, hash, percent in [
            ("u64_u32", "", fx, None), ("u64_u32", "--percent 10", fx, 10), ("u32_u32", "--percent 100", fx, 100),
            ("u32_u32", "--hash unhash --percent 30", unhash, 30), ("direct", "", unhash, None),
            ("direct", "--hash unhash --percent 1", unhash, 1), ("direct", "--hash=fx", fx, None),
            ("bytes16_set", "--percent 50 --progress", unhash, 50), ("bytes32_u64", "--whole", unhash, None),
            ("i64_i32", "--hash unhash", unhash, None), ("text16_text16", "--percent 3", unhash, 3),
            ("empty", "--percent 1", fx, 1), ("no_pairs", "", fx, None), ("no_pairs", "--hash unhash", unhash, None),
            ("one_home", "--whole --hash fx", fx, None), ("odd_sizes", "", fx, None), ("words_12_5", "--percent 20", unhash, 20),
            ("words_12_5", "--hash fx", fx, None), ("long_key", "--hash unhash", unhash, None),
            ("bytes16_set", "--hash fx", fx, None), ("short_direct", "--hash fx --percent 100", fx, 100),
            ("text16_u32", "", xxh64, None), ("text16_u32", "--hash fx", fx, None), ("u32_xxh64", "--hash unhash", unhash, None),
            ("u64_u32", "--hash xxh64", xxh64, None), ("direct", "--hash xxh64 --percent 30", xxh64, 30),
            ("odd_sizes", "--hash=xxh64", xxh64, None), ("one_home", "--whole --hash xxh64", xxh64, None)]:
        file = "_".join(["rebuilt", name, *(it.strip("-") for it in words.replace("=", " ").split())])
        with open(os.path.join(HERE, f"{file}.odht"), "wb") as out:
            out.write(rebuilt(made[name], hash, percent).image())
        words = f" {words}" if words else ""
        text += (f"== rebuild of {name}{words}\nbefore {name}.odht: < crates/odht_tool/data/{name}.odht\n"
                 f"args: rebuild {name}.odht{words}\nafter {name}.odht: < crates/odht_tool/data/{file}.odht\n"
                 f"{told(words, made[name].count())}\n")
    write_test("tool/tables/rebuilt.cases", text)


def told(words, count):
    """What `--progress` tells at the end of so many pairs, but for the time, where the words have it."""
    return f"stderr: odht: {count} pairs, ...\n" if "--progress" in words else ""


def shown(word):
    """A word of printable characters as messages have it: of a long one its front, and how long it is."""
    return f'"{word[:60]}"' + (f"... ({len(word)} bytes)" if len(word) > 60 else "")


def deleted(table, keys):
    """The table of as many slots and the same load factor, with the pairs of all other keys in slot order."""
    new = Table(table.key_size, table.value_size, table.hash, 87, 0)
    new.factor, new.cells = table.factor, [None] * len(table.cells)
    for key, value in filter(None, table.cells):
        if key not in keys:
            new.put(key, value)
    assert len(new.cells) == len(table.cells)
    return new


def write_deleted_cases():
    """What `delete` has to make of tables: of some of their keys, of all, and of absent keys after these; of words, and of
    lines."""
    made = {case.name: case for case in cases()}
    text = HEAD
    for name, words, step, absent in [
            ("u64_u32", "", 2, ""), ("u64_u32", "--progress", 1, ""), ("u32_u32", "", 3, ""),
            ("u32_u32", "--hash fx", 2, "9 4294967295"), ("direct", "", 2, ""), ("direct", "--hash=unhash", 7, "1 65"),
            ("one_pair", "--whole", 1, "7"), ("no_pairs", "--key u64", 1, "0"), ("bytes16_u32", "", 2, ""),
            ("bytes16_set", "", 4, "00" * 16), ("bytes20_u64", "", 2, ""), ("bytes32_u64", "", 2, ""),
            ("bytes32_set", "", 1, ""), ("i64_i32", "", 2, "-3"), ("i32_u32be", "", 3, ""), ("u64be_i64", "", 2, "3"),
            ("text16_text16", "", 3, "no_value"), ("odd_sizes", "--key hex3", 3, "ffffff"), ("empty_key", "", 1, ""),
            ("words_12_5", "", 5, ""), ("long_key", "", 2, "ff" * 255), ("short_direct", "", 2, ""), ("empty", "--key u64", 1, "1"),
            ("u64be_u32", "", 3, "7"), ("bytes16_xxh64", "", 2, ""), ("u32_xxh64", "--key u32 --hash xxh64", 7, "1"),
            ("odd_xxh64", "", 3, "")]:
        case, file = made[name], "_".join(["deleted", name, str(step)])
        keys = [key for key, _ in filter(None, case.table.cells) if " " not in case.key_text(key)][::step]
        with open(os.path.join(HERE, f"{file}.odht"), "wb") as out:
            out.write(deleted(case.table, keys).image())
        named = [case.key_text(key) for key in keys] + absent.split()
        lines = "".join(f'odht: {name}.odht: the key {shown(word)} is absent\n' for word in absent.split())
        for title, keys, given in [("", " ".join(it or '""' for it in named), ""),
                                   (", in lines", "-", block("stdin", "".join(f"{it}\n" for it in named)))]:
            text += (f"== delete of each {step}. key of {name}{title}\n"
                     f"before {name}.odht: < crates/odht_tool/data/{name}.odht\n"
                     f"args: delete {name}.odht {keys}{case.key_kind}{words and ' '}{words}\n{given}"
                     f"after {name}.odht: < crates/odht_tool/data/{file}.odht\n"
                     + (block("stderr", lines) + "status: 1\n" if lines else told(words, case.table.count())) + "\n")
    write_test("tool/tables/deleted.cases", text)


def merged(tables, duplicates, percent):
    """The new table for as many items as all have, and the number and the key of the first file with a key of one before."""
    first, seen = tables[0], set()
    percent = percent or percent_of(first)
    new = Table(first.key_size, first.value_size, first.hash, percent, sum(it.count() for it in tables))
    slots = len(new.cells)
    for number, table in enumerate(tables):
        pairs = list(filter(None, table.cells))
        if duplicates == "error":
            for key, _ in pairs:
                if key in seen:
                    return None, (number, key)
        for key, value in pairs:
            if duplicates != "first" or key not in seen:
                new.put(key, value)
            seen.add(key)
    assert len(new.cells) == slots
    return new, None


def write_merged_cases():
    """What `merge` has to make of tables, with each word of --duplicates: of one, of two, of ten, and of one twice."""
    made = {case.name: case for case in cases()}
    text = HEAD
    for names, words, percent in [
            ("u64_u32", "", None), ("u64_u32 one_pair no_pairs", "", None), ("one_pair u64_u32", "--percent 20", 20),
            ("u64_u32 i64_i32 u64_u32", "", None), ("u32_u32 direct", "", None), ("direct u32_u32", "--percent=100", 100),
            ("u32_u32 direct i32_u32be", "--whole", None), ("bytes16_set", "--percent 1", 1), ("u32_u32", "", None),
            ("bytes16_u32 bytes16_u32", "--progress", None), ("bytes20_u64", "", None), ("u64_u64 u64be_i64", "", None),
            ("bytes32_u64 bytes32_u64", "--percent 50", 50), ("bytes32_set", "", None), ("text16_text16", "", None),
            ("odd_sizes odd_sizes", "", None), ("no_bytes no_bytes", "", None), ("empty_key", "", None), ("long_key", "", None),
            ("words_12_5 words_12_5", "--percent 30", 30), ("long_direct", "", None), ("short_direct", "", None),
            ("empty no_pairs", "", None), ("empty " * 9 + "u64_u32", "", None), ("no_pairs " * 5 + "one_pair " * 5, "", None),
            ("text16_u32 text16_u32", "", None), ("u32_xxh64 u32_u32 direct", "--percent 50", 50),
            ("u32_u32 u32_xxh64", "", None)]:
        names = names.split()
        tables = [made[it].table for it in names]
        for duplicates in ["last", "first", "error"]:
            new, twice = merged(tables, duplicates, percent)
            file = "_".join(["merged", str(len(names)), *list(dict.fromkeys(names))[:2], str(percent or "kept")])
            if new and duplicates == "last":
                last = new.image()
            if new and new.image() != last:
                file += "_first"
            if new:
                with open(os.path.join(HERE, f"{file}.odht"), "wb") as out:
                    out.write(new.image())
            text += f"== merge of {' '.join(names)} by {duplicates}\n"
            text += "".join(f"before {it}.odht: < crates/odht_tool/data/{it}.odht\n" for it in dict.fromkeys(names))
            chosen = "" if duplicates == "last" else f" --duplicates {duplicates}"
            kinds = made[names[0]].kinds
            # numbers by the default of texts, and by their own
            if "u32_xxh64" in names and len(set(names)) > 1:
                kinds = " --key u32"
            inputs = " ".join(f"{it}.odht" for it in names)
            text += f"args: merge out.odht {inputs}{chosen}{kinds}{words and ' '}{words}\n"
            if new:
                text += f"after out.odht: < crates/odht_tool/data/{file}.odht\n"
                text += f"{told(words, sum(it.count() for it in tables))}\n"
            else:
                at, key = twice
                key = shown(made[names[0]].key_text(key))
                text += f"stderr: odht: {names[at]}.odht: the key {key} is in a file before it too\nstatus: 1\n\n"
    write_test("tool/tables/merged.cases", text)


if __name__ == "__main__":
    write_rebuilt_cases()
    write_deleted_cases()
    write_merged_cases()
