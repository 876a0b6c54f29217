// Generated from crates/odht_tool_core/src/generated/help.rt by make generate.
//! The help of each command. Generated from lists/commands.txt by make generate.
use crate::generated::core::arguments::Topic;
use crate::host::prelude::*;

/// The lines of a command in the help of all commands.
pub(crate) fn summary_of(topic: Topic) -> &'static str {
    match topic {
        Topic::Info => "odht info FILE..     describes table files of any key and value sizes\n",
        Topic::Check => "odht check FILE..    reports whether each file is a valid table\n",
        Topic::Count => "odht count FILE..    prints the item count of each table\n",
        Topic::Get =>
            "odht get FILE KEY..  looks up keys; with - instead of keys, those on standard input\n",
        Topic::Dump => "odht dump FILE       prints each pair\n",
        Topic::Keys => "odht keys FILE       prints each key\n",
        Topic::Find => "odht find FILE..     prints each table inside a file\n",
        Topic::Order =>
            "odht order FILE      prints the pairs in an order of inserts that makes the table\n",
        Topic::Diff => {
            "odht diff FILE OTHER
                     prints how the pairs of two tables differ\n"
        }
        Topic::Build => {
            "odht build FILE --key SHAPE --value SHAPE
                     makes a table file from the lines of standard input\n"
        }
        Topic::Put =>
            "odht put FILE        adds pairs to a table file: words, or else the lines of standard input\n",
        Topic::Delete => {
            "odht delete FILE KEY..
                     removes keys; with - instead of keys, those on standard input\n"
        }
        Topic::Rebuild =>
            "odht rebuild FILE    rebuilds a table file, with another load factor or hash function\n",
        Topic::Merge => {
            "odht merge FILE INPUT..
                     makes a table file from the pairs of others\n"
        }
    }
}

/// The help of a command.
pub(crate) fn text_of(topic: Topic) -> &'static str {
    match topic {
        Topic::Info => INFO,
        Topic::Check => CHECK,
        Topic::Count => COUNT,
        Topic::Get => GET,
        Topic::Dump => DUMP,
        Topic::Keys => KEYS,
        Topic::Find => FIND,
        Topic::Order => ORDER,
        Topic::Diff => DIFF,
        Topic::Build => BUILD,
        Topic::Put => PUT,
        Topic::Delete => DELETE,
        Topic::Rebuild => REBUILD,
        Topic::Merge => MERGE,
    }
}

const INFO: &str = "\
odht info FILE.. [--whole] [--json] [--at OFFSET]
    Prints the sizes, the item count, the slot count and the load factors, and then
    the lines below. With several files, the name of each comes first. Only the
    header and the length of a file are checked. Groups are counted up to 128, so
    that no file takes long. If `longest miss` is above 24, the last line may
    suggest a command that helps. The command was tried in memory, and its table has
    no such search.
    along slots    how full the table is along its slots: one sign for each of at
                   most 64 stretches of equal length. The sign is . if no slot is
                   occupied, 9 if all are, otherwise 1 plus the number of whole
                   eighths that are
    hash           the hash function that the control bytes fit
    groups, items  how many items a search finds by reading one group of control
                   bytes, two, and so on
    longest hit    how many groups the longest search reads for a present key
    longest miss   the same for an absent key
    --whole        counts groups without the bound of 128
    --json         prints a JSON object for each file: file, at (null without --at),
                   key_bytes, value_bytes, header_bytes, all_bytes, items, slots,
                   maximum, load_percent, maximum_load_percent, along_slots (the
                   number of occupied slots of each stretch), hash (fx, unhash,
                   xxh64 or null), bound (in groups; null with --whole), histogram
                   (the number of items by one group, by two, and so on; the 64th
                   includes all above), longest_hit (null without a hash function),
                   longest_miss, may_help (options of `odht rebuild`, or null). A
                   number of groups above the bound is printed as the bound plus one
    --at           the table begins at this byte of the file; bytes after its end
                   are not read
    $ odht info symbols.odht
";

const CHECK: &str = "\
odht check FILE.. [--whole] [--json] [--hash fx|unhash|xxh64]
                  [--at OFFSET]
    Prints the name of each file, and that it is valid or the first rule of the
    format that it violates. If a file violates a rule, the status is 1. A search
    that may read more than 128 groups of control bytes violates a rule too, so that
    no file takes long to check.
    --whole        checks without this bound of 128 groups
    --json         prints a JSON object for each file: file, valid (true or false),
                   bound (in groups; null with --whole), rule (the first that it
                   violates, or null)
    --hash         the hash function; if left out, the one that all control bytes
                   fit. If none fits, the rule is checked by the default for keys of
                   this size, which `odht build --help` lists
    --at           the table begins at this byte of the file; bytes after its end
                   are not read
    $ odht check *.odht
";

const COUNT: &str = "\
odht count FILE.. [--check] [--whole] [--hash fx|unhash|xxh64]
                  [--at OFFSET]
    Prints the item count in the header of each file. With several files, the file's
    name and a tab come before it. Only the header and the length of a file are
    checked. If that fails, the other files are still counted, and the status is 1.
    --check        checks each file first, as `odht check` does; so do --whole and
                   --hash, which work as there
    --at           the table begins at this byte of the file; bytes after its end
                   are not read
    $ odht count *.odht
    $ odht count --check symbols.odht
";

const GET: &str = "\
odht get FILE KEY.. [--values] [--json] [--null] [--key SHAPE]
                    [--value SHAPE] [--whole] [--hash fx|unhash|xxh64]
                    [--at OFFSET]
    Prints a line for each key, in their order: KEY, a tab and VALUE. The line of an
    absent key is only KEY. A KEY that cannot be a key of the table is absent.
    Status 0: all keys are present; 1: a key is absent; 2: the command failed.
    With - as the only KEY, the keys are the lines of standard input. An empty last
    line is left out if it is no key. Any other line that is no key is an error. If
    a search may read more than 128 groups of control bytes, the command fails, so
    that no file takes long. If it looks keys up in a part of a regular file, it
    fails only if the search for one of them reads more.
    --values       prints only VALUE on each line; the line of an absent key is
                   empty
    --json         prints a JSON object for each key: key and value, strings like
                   those of `odht dump`; value is null if the key is absent. With
                   --values there is only value
    -0, --null     lines end in NUL, those that are read and those that are
                   printed. In what is printed, a line feed inside a text is NUL
    --key, --value the types of keys and values, as in `odht build`; they must have
                   the lengths in the file. If left out, each length decides: 4
                   bytes are u32, 8 are u64, and others hexadecimal digits (keys
                   under unhash too, unless the file is of a ready shape of numbers)
    --whole        searches without this bound of 128 groups
    --hash         the hash function; if left out, the one that the first slots fit,
                   or with - as KEY the one that all control bytes fit, unless the
                   lines have at most one byte for 16,384 bytes of FILE
    --at           the table begins at this byte of the file; bytes after its end
                   are not read
    $ odht get symbols.odht 4198400
    $ sha256sum new.md | cut -c 1-64 | odht get known.odht -
";

const DUMP: &str = "\
odht dump FILE [--slots] [--values] [--json] [--null] [--key SHAPE]
               [--value SHAPE] [--whole] [--hash fx|unhash|xxh64]
               [--at OFFSET]
    Prints a line for each pair, in slot order: KEY, a tab and VALUE.
    --slots        prints three numbers and tabs before them: the slot, the control
                   byte, and the groups that a search for the key reads. It fails if
                   a search may read more than 128 groups, so that no file takes
                   long
    --values       prints only VALUE on each line, in the order of `odht keys`; not
                   with --slots
    --json         prints a JSON object on each line: key and value, which are
                   strings, also for numbers. With --slots, the numbers slot,
                   control and groups come before them; with --values there is only
                   value. A text:N that is not UTF-8
                   is printed as the hexadecimal digits of its bytes, named key_hex
                   or value_hex
    -0, --null     lines end in NUL. A line feed inside a text is printed as NUL
    --key, --value the types of keys and values, as in `odht build`; they must have
                   the lengths in the file. If left out, each length decides: 4
                   bytes are u32, 8 are u64, and others hexadecimal digits (keys
                   under unhash too, unless the file is of a ready shape of numbers)
    --whole        with --slots: searches without this bound of 128 groups
    --hash         the hash function; if left out, the one that all control bytes
                   fit
    --at           the table begins at this byte of the file; bytes after its end
                   are not read
    $ odht dump symbols.odht
    $ odht dump --json names.odht --key text:16
";

const KEYS: &str = "\
odht keys FILE [--json] [--null] [--key SHAPE] [--hash fx|unhash|xxh64]
               [--at OFFSET]
    Prints each key on a line, in slot order.
    --json         prints a JSON object on each line: key, a string like that of
                   `odht dump`
    -0, --null     lines end in NUL. A line feed inside a text is printed as NUL
    --key          the type of the keys, as in `odht build`; it must have the length
                   in the file. If left out, the length decides: 4 bytes are u32, 8
                   are u64, and others hexadecimal digits (keys under unhash too,
                   unless the file is of a ready shape of numbers)
    --hash         the hash function; if left out, the one that all control bytes
                   fit
    --at           the table begins at this byte of the file; bytes after its end
                   are not read
    $ odht keys symbols.odht | sort -n | head -1
";

const FIND: &str = "\
odht find FILE.. [--whole] [--json]
    Prints a line for each table inside a file, at any offset. The columns are its
    offset (for --at), its length, the sizes of keys and values, the item count, the
    slot count, the load in percent, the hash functions that the control bytes fit,
    and the result of the check. The hash functions are fx, unhash and xxh64, with
    commas between them. The result is valid, rejected, or long if a search may read
    more than 128 groups of control bytes. With several files, the name of each
    comes first, on a line. Status 1: a file contains no table.
    --whole        checks without this bound of 128 groups
    --json         prints a JSON object for each file: file, and tables, an array of
                   objects: offset, bytes, key_bytes, value_bytes, items, slots,
                   load_percent, hash and check, as above
    $ odht find *.rmeta
";

const ORDER: &str = "\
odht order FILE [--whole] [--key SHAPE] [--value SHAPE]
                [--hash fx|unhash|xxh64] [--at OFFSET]
    Prints a line for each pair, as `odht dump` does. Inserts in this order into an
    empty table, of the same slot count and load factor, make the same bytes. If no
    inserts make the table, a line on standard error says so, and the status is 1.
    The file is checked first, as by `odht check`.
    --whole        as in `odht check`
    --key, --value the types of keys and values, as in `odht build`; they must have
                   the lengths in the file. If left out, each length decides: 4
                   bytes are u32, 8 are u64, and others hexadecimal digits (keys
                   under unhash too, unless the file is of a ready shape of numbers)
    --hash         the hash function; if left out, the one that all control bytes
                   fit
    --at           the table begins at this byte of the file; bytes after its end
                   are not read
    $ odht order a.odht | odht build b.odht --key u64 --value u32
";

const DIFF: &str = "\
odht diff FILE OTHER [--whole] [--key SHAPE] [--value SHAPE]
                     [--hash fx|unhash|xxh64]
    Prints a line for each difference, with tabs between the columns. The pairs of
    FILE come first, in slot order: a hyphen, KEY and VALUE if the key is not in
    OTHER; ~, KEY, VALUE and the other value if OTHER stores another one. The pairs
    of OTHER whose key is not in FILE follow, in its slot order: +, KEY and VALUE.
    If no pair differs, the only line is `same bytes` or `same pairs, other bytes`.
    Status 0: the pairs are the same; 1: they differ; 2: the command failed. Both
    files are checked first, as by `odht check`. They must have the same key and
    value sizes. Their slot counts, load factors and hash functions may differ.
    --whole        as in `odht check`
    --key, --value the types of keys and values; if left out, those of FILE in
                   `odht dump`
    --hash         the hash function of both files; if left out, for each the one
                   that all its control bytes fit
    $ odht diff old.odht new.odht
";

const BUILD: &str = "\
odht build FILE --key SHAPE --value SHAPE [--duplicates last|first|error]
                [--delimiter C] [--null] [--check-only]
                [--hash fx|unhash|xxh64] [--percent P] [--capacity N]
                [--progress] [--break-links] [--force]
    Makes a table from the lines of standard input, KEY, a tab and VALUE, and stores
    it as FILE, instead of an older FILE. If anything fails, the older one stays.
    With - as FILE the table goes to standard output. The last line of a key wins,
    unless --duplicates is given. An empty last line is left out if it is no pair.
    Owner, group, permissions and symbolic links of an older file are kept. A file
    with several names (hard links) is not replaced without --break-links. A file
    that is neither a table nor empty is not replaced without --force. Keys and
    values may be of any SHAPE, also in sizes that no ready shape uses. If a search
    may read more than 128 groups, `odht check` rejects the file. Then a line on
    standard error says so, and names a command that helps, if there is one.
    SHAPE          u32, u64, none (no bytes), hexN or bytes:N (2 N digits); i32 and
                   i64 with a sign; u32be and u64be, the highest byte first; text:N,
                   a text of at most N bytes, with zeros after it
    --hash         the hash function. If left out, that of --key: fx for u32, u64,
                   i32 and i64; unhash for hex8 to hex32, which are hashes; xxh64
                   for text:N, bytes:N, u32be, u64be and all others
    --duplicates   which line of a key counts: last (default), first, or error, with
                   which a second line of a key is an error
    --delimiter    the character between key and value (default: a tab): a printable
                   character of ASCII that is no quote. The first one on a line ends
                   the key
    -0, --null     lines end in NUL
    --check-only   reads all lines, but does not read FILE and makes no file
    --percent      the load factor, 1 to 100 (default 87)
    --capacity     the number of items to make room for at first (default 12)
    --progress     prints a line on standard error each second; the last one shows
                   the totals
    --break-links  replaces only this name of the file; its other names keep the old
                   file
    --force        replaces a file that is no table; its bytes are lost
    $ cut -f 1,2 prices.tsv | odht build prices.odht --key text:16 --value u32
";

const PUT: &str = "\
odht put FILE [KEY VALUE].. [--duplicates last|first|error]
                            [--delimiter C] [--null] [--key SHAPE]
                            [--value SHAPE] [--whole]
                            [--hash fx|unhash|xxh64] [--progress]
                            [--break-links]
    Adds pairs to the table in FILE: those of the words, or without words the lines
    of standard input, KEY, a tab and VALUE. The table grows as needed. The new file
    replaces FILE. If anything fails, the old one stays. The last pair of a key
    wins. An empty last line is left out if it is no pair. In a set, VALUE is an
    empty word. The file is checked first, as by `odht check`. If a search may read
    more than 128 groups afterwards, a line on standard error says so, as by
    `odht build`. Owner, group, permissions and symbolic links of the file are kept.
    A file with several names (hard links) is not replaced without --break-links.
    --duplicates   which pair of a key counts, of those in FILE and then of the
                   lines or words: last (default), first, or error, with which a
                   pair is an error if its key is in FILE or in an earlier pair
    --delimiter    the character between key and value of a line, as in `odht build`
    -0, --null     lines end in NUL
    --key, --value the types of keys and values, as in `odht build`; they must have
                   the lengths in the file. If left out, each length decides: 4
                   bytes are u32, 8 are u64, and others hexadecimal digits (keys
                   under unhash too, unless the file is of a ready shape of
                   numbers). A type that the file does not show must be given
    --whole        as in `odht check`
    --hash         the hash function of FILE, which the table keeps; if left out,
                   the one that all control bytes fit. If several fit, as in a table
                   without items, that of --key is taken if it fits, as in
                   `odht build`
    --progress     prints a line on standard error each second; the last one shows
                   the totals
    --break-links  replaces only this name of the file; its other names keep the old
                   file
    $ odht put prices.odht --key text:16 --value u32 < new-prices.tsv
    $ odht put prices.odht --key text:16 --value u32 apple 120 pear 95
";

const DELETE: &str = "\
odht delete FILE KEY.. [--null] [--key SHAPE] [--whole]
                       [--hash fx|unhash|xxh64] [--progress]
                       [--break-links]
    Makes a new table with the slot count, the load factor and the hash function of
    FILE, and inserts the pairs of all other keys in slot order. The new file
    replaces FILE. If anything fails, the old one stays. `odht rebuild` makes the
    table smaller. A line on standard error reports each key that is absent. The
    others are still removed. Status 0: all keys were present; 1: a key was absent;
    2: the command failed. With - as the only KEY, the keys are the lines of
    standard input. An empty last line is left out if it is no key. Any other word
    or line that is no key is an error. The file is checked first, as by
    `odht check`. Owner, group, permissions and symbolic links of the file are kept.
    A file with several names (hard links) is not replaced without --break-links.
    -0, --null     lines end in NUL
    --key          the type of the keys, as in `odht build`; it must have the length
                   in the file. If left out, the length decides: 4 bytes are u32, 8
                   are u64, and others hexadecimal digits (keys under unhash too,
                   unless the file is of a ready shape of numbers). It must be
                   given if the file does not show it
    --whole        as in `odht check`
    --hash         the hash function; if left out, the one that all control bytes
                   fit
    --progress     prints a line on standard error each second; the last one shows
                   the totals
    --break-links  replaces only this name of the file; its other names keep the old
                   file
    $ odht delete prices.odht --key text:16 apple pear
";

const REBUILD: &str = "\
odht rebuild FILE [--percent P] [--whole] [--hash fx|unhash|xxh64]
                  [--progress] [--break-links]
    Makes a new table for the same number of items, and inserts the pairs of FILE in
    slot order. The new file replaces FILE. If anything fails, the old one stays.
    Use it to make long searches short, or to change the load factor or the hash
    function. The file is checked first, as by `odht check`, with the hash function
    that all its control bytes fit. Owner, group, permissions and symbolic links of
    the file are kept. A file with several names (hard links) is not replaced
    without --break-links.
    --percent      the load factor of the new table, 1 to 100; if left out, that of
                   the file
    --whole        as in `odht check`, for a file that is rejected because its
                   searches are so long
    --hash         the hash function of the new table; if left out, that of the
                   file. unhash needs keys of 4 bytes or more; number keys of 8
                   bytes are then read as hex8
    --progress     prints a line on standard error each second; the last one shows
                   the totals
    --break-links  replaces only this name of the file; its other names keep the old
                   file
    $ odht rebuild prices.odht --percent 50
";

const MERGE: &str = "\
odht merge FILE INPUT.. [--duplicates last|first|error] [--key SHAPE]
                        [--value SHAPE] [--whole]
                        [--hash fx|unhash|xxh64] [--percent P]
                        [--progress] [--break-links] [--force]
    Makes a new table for the number of items in all INPUT files together. It
    inserts their pairs, file after file and each in slot order, and stores the
    table as FILE, instead of an older FILE. If anything fails, the older one stays.
    With - as FILE the table goes to standard output. The pairs of an older FILE are
    lost, unless FILE is also an INPUT. All INPUT files must have the key and value
    sizes of the first. The new table gets the hash function of the first. Each file
    is checked first, as by `odht check`. Owner, group, permissions and symbolic
    links of FILE are kept. A file with several names (hard links) is not replaced
    without --break-links. A file that is neither a table nor empty is not replaced
    without --force.
    --duplicates   which file's pair of a key counts: last (default), first, or
                   error, with which a key is an error if it is in an earlier file
    --key, --value the types and texts of the first INPUT, as in `odht build`. If
                   --duplicates error fails, the message prints the key in the text
                   of --key
    --whole        as in `odht check`
    --hash         the hash function of all files; if left out, for each the one
                   that all control bytes fit
    --percent      the load factor of the new table, 1 to 100; if left out, that of
                   the first INPUT
    --progress     prints a line on standard error each second; the last one shows
                   the totals
    --break-links  replaces only this name of the file; its other names keep the old
                   file
    --force        replaces a file that is no table; its bytes are lost
    $ odht merge all.odht a.odht b.odht --duplicates error
";
