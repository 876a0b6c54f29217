"""What `odht diff` has to write of tables, by a reading of its help text: writes the cases of it in tests/tool/tables, and
the tables that no other case has.

It shares no code with the programs. Run it anywhere: `python3 differences.py`."""
from tables import Case, block, cases, fx, head, le, unhash, write_test


def differences(table, other, key_text, value_text):
    """What is written of two tables, and the status."""
    here, there = ({cell[0]: cell[1] for cell in it.cells if cell is not None} for it in (table, other))
    text = ""
    for key, value in here.items():
        pair = f"{key_text(key)}\t{value_text(value)}"
        if key not in there:
            text += f"-\t{pair}\n"
        elif there[key] != value:
            text += f"~\t{pair}\t{value_text(there[key])}\n"
    for key, value in there.items():
        if key not in here:
            text += f"+\t{key_text(key)}\t{value_text(value)}\n"
    if text:
        return text, 1
    return ("same bytes\n" if table.image() == other.image() else "same pairs, other bytes\n"), 0


def pairs_of(case):
    return [cell for cell in case.table.cells if cell is not None]


def others(made):
    """Tables of the same pairs in another order, under another hash function, and tables that lack pairs and have others."""
    direct, odd, numbers, keys = (pairs_of(made[name]) for name in ("direct", "odd_sizes", "u64_u32", "bytes16_set"))
    yield Case("direct_back", "", 4, 4, unhash, 87, 40, direct[::-1])
    yield Case("direct_fx", "", 4, 4, fx, 40, 40, direct)
    yield Case("odd_other", "", 3, 5, fx, 87, 100,
               [(key, value if at % 4 else le(7, 5)) for at, (key, value) in enumerate(odd) if at] + [(b"new", b"value")],
               bytes.hex, bytes.hex)
    # the ready shape of this hash function and these sizes has keys of bytes
    yield Case("u64_u32_unhash", "", 8, 4, unhash, 87, 12, [*numbers[1:], (le(2 ** 63, 8), le(2 ** 31, 4))], bytes.hex)
    yield Case("bytes16_less", "", 16, 0, unhash, 50, 40, keys[::2], bytes.hex, lambda value: "")


# the first and the second table, and what is said of the hash function
COMPARED = [
    ("direct", "direct", ""), ("direct", "direct_back", ""), ("direct_back", "direct_fx", ""), ("direct", "u32_u32", ""),
    ("u32_u32", "direct", ""), ("u64_u32", "no_pairs", ""), ("no_pairs", "u64_u32", ""), ("no_pairs", "empty", ""),
    ("one_pair", "u64_u32", ""), ("i64_i32", "u64_u32", ""), ("odd_sizes", "odd_other", ""), ("odd_other", "odd_sizes", ""),
    ("u64_u32", "u64_u32_unhash", ""), ("u64_u32_unhash", "u64_u32", ""), ("i64_i32", "u64_u32_unhash", ""),
    ("bytes16_set", "bytes16_less", ""), ("bytes16_less", "bytes16_set", ""), ("bytes16_set", "bytes16_set", ""),
    ("text16_text16", "text16_text16", ""), ("no_bytes", "no_bytes", ""), ("empty_key", "empty_key", ""),
    ("long_key", "long_key", ""), ("direct", "direct_back", " --hash unhash"), ("u32_u32", "direct_fx", " --hash=fx"),
    ("text16_u32", "text16_u32", ""), ("u32_xxh64", "direct", ""), ("direct", "u32_xxh64", ""), ("u32_u32", "u32_xxh64", ""),
]


def main():
    made = {case.name: case for case in cases()}
    for case in list(others(made)):
        case.write_file()
        made[case.name] = case
    text = head("differences.py")
    for name, other, words in COMPARED:
        case = made[name]
        lines, status = differences(case.table, made[other].table, case.key_text, case.value_text)
        files = "".join(f"before {it}.odht: < crates/odht_tool/data/{it}.odht\n" for it in dict.fromkeys([name, other]))
        text += f"== {name} and {other}{words}\nargs: diff {name}.odht {other}.odht{case.kinds}{words}\n{files}"
        text += block("stdout", lines) + (f"status: {status}\n" if status else "") + "\n"
    write_test("tool/tables/diff.cases", text)


if __name__ == "__main__":
    main()
