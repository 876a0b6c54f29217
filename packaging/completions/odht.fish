# Generated from lists/commands.txt and the help by make generate.
complete -c odht -n __fish_use_subcommand -f -a info -d 'describes table files of any key and value sizes'
complete -c odht -n __fish_use_subcommand -f -a check -d 'reports whether each file is a valid table'
complete -c odht -n __fish_use_subcommand -f -a count -d 'prints the item count of each table'
complete -c odht -n __fish_use_subcommand -f -a get -d 'looks up keys; with - instead of keys, those on standard input'
complete -c odht -n __fish_use_subcommand -f -a dump -d 'prints each pair'
complete -c odht -n __fish_use_subcommand -f -a keys -d 'prints each key'
complete -c odht -n __fish_use_subcommand -f -a find -d 'prints each table inside a file'
complete -c odht -n __fish_use_subcommand -f -a order -d 'prints the pairs in an order of inserts that makes the table'
complete -c odht -n __fish_use_subcommand -f -a diff -d 'prints how the pairs of two tables differ'
complete -c odht -n __fish_use_subcommand -f -a build -d 'makes a table file from the lines of standard input'
complete -c odht -n __fish_use_subcommand -f -a put -d 'adds pairs to a table file: words, or else the lines of standard input'
complete -c odht -n __fish_use_subcommand -f -a delete -d 'removes keys; with - instead of keys, those on standard input'
complete -c odht -n __fish_use_subcommand -f -a rebuild -d 'rebuilds a table file, with another load factor or hash function'
complete -c odht -n __fish_use_subcommand -f -a merge -d 'makes a table file from the pairs of others'
complete -c odht -n __fish_use_subcommand -f -a help -d 'prints the help of a command'
complete -c odht -n '__fish_seen_subcommand_from help' -f -a 'info check count get dump keys find order diff build put delete rebuild merge'
complete -c odht -n '__fish_seen_subcommand_from info' -l help
complete -c odht -n '__fish_seen_subcommand_from info' -l whole
complete -c odht -n '__fish_seen_subcommand_from info' -l json
complete -c odht -n '__fish_seen_subcommand_from info' -l at -x -d 'a number below 2^64'
complete -c odht -n '__fish_seen_subcommand_from check' -l help
complete -c odht -n '__fish_seen_subcommand_from check' -l whole
complete -c odht -n '__fish_seen_subcommand_from check' -l json
complete -c odht -n '__fish_seen_subcommand_from check' -l hash -x -a 'fx unhash xxh64' -d 'fx, unhash or xxh64'
complete -c odht -n '__fish_seen_subcommand_from check' -l at -x -d 'a number below 2^64'
complete -c odht -n '__fish_seen_subcommand_from count' -l help
complete -c odht -n '__fish_seen_subcommand_from count' -l check
complete -c odht -n '__fish_seen_subcommand_from count' -l whole
complete -c odht -n '__fish_seen_subcommand_from count' -l hash -x -a 'fx unhash xxh64' -d 'fx, unhash or xxh64'
complete -c odht -n '__fish_seen_subcommand_from count' -l at -x -d 'a number below 2^64'
complete -c odht -n '__fish_seen_subcommand_from get' -l help
complete -c odht -n '__fish_seen_subcommand_from get' -l values
complete -c odht -n '__fish_seen_subcommand_from get' -l json
complete -c odht -n '__fish_seen_subcommand_from get' -l null
complete -c odht -n '__fish_seen_subcommand_from get' -l key -x -a 'u32 u64 i32 i64 u32be u64be hex bytes: text:' -d 'u32, u64, i32, i64, u32be, u64be, hexN, bytes:N or text:N'
complete -c odht -n '__fish_seen_subcommand_from get' -l value -x -a 'u32 u64 i32 i64 u32be u64be none hex bytes: text:' -d 'u32, u64, i32, i64, u32be, u64be, none, hexN, bytes:N or text:N'
complete -c odht -n '__fish_seen_subcommand_from get' -l whole
complete -c odht -n '__fish_seen_subcommand_from get' -l hash -x -a 'fx unhash xxh64' -d 'fx, unhash or xxh64'
complete -c odht -n '__fish_seen_subcommand_from get' -l at -x -d 'a number below 2^64'
complete -c odht -n '__fish_seen_subcommand_from dump' -l help
complete -c odht -n '__fish_seen_subcommand_from dump' -l slots
complete -c odht -n '__fish_seen_subcommand_from dump' -l values
complete -c odht -n '__fish_seen_subcommand_from dump' -l json
complete -c odht -n '__fish_seen_subcommand_from dump' -l null
complete -c odht -n '__fish_seen_subcommand_from dump' -l key -x -a 'u32 u64 i32 i64 u32be u64be hex bytes: text:' -d 'u32, u64, i32, i64, u32be, u64be, hexN, bytes:N or text:N'
complete -c odht -n '__fish_seen_subcommand_from dump' -l value -x -a 'u32 u64 i32 i64 u32be u64be none hex bytes: text:' -d 'u32, u64, i32, i64, u32be, u64be, none, hexN, bytes:N or text:N'
complete -c odht -n '__fish_seen_subcommand_from dump' -l whole
complete -c odht -n '__fish_seen_subcommand_from dump' -l hash -x -a 'fx unhash xxh64' -d 'fx, unhash or xxh64'
complete -c odht -n '__fish_seen_subcommand_from dump' -l at -x -d 'a number below 2^64'
complete -c odht -n '__fish_seen_subcommand_from keys' -l help
complete -c odht -n '__fish_seen_subcommand_from keys' -l json
complete -c odht -n '__fish_seen_subcommand_from keys' -l null
complete -c odht -n '__fish_seen_subcommand_from keys' -l key -x -a 'u32 u64 i32 i64 u32be u64be hex bytes: text:' -d 'u32, u64, i32, i64, u32be, u64be, hexN, bytes:N or text:N'
complete -c odht -n '__fish_seen_subcommand_from keys' -l hash -x -a 'fx unhash xxh64' -d 'fx, unhash or xxh64'
complete -c odht -n '__fish_seen_subcommand_from keys' -l at -x -d 'a number below 2^64'
complete -c odht -n '__fish_seen_subcommand_from find' -l help
complete -c odht -n '__fish_seen_subcommand_from find' -l whole
complete -c odht -n '__fish_seen_subcommand_from find' -l json
complete -c odht -n '__fish_seen_subcommand_from order' -l help
complete -c odht -n '__fish_seen_subcommand_from order' -l whole
complete -c odht -n '__fish_seen_subcommand_from order' -l key -x -a 'u32 u64 i32 i64 u32be u64be hex bytes: text:' -d 'u32, u64, i32, i64, u32be, u64be, hexN, bytes:N or text:N'
complete -c odht -n '__fish_seen_subcommand_from order' -l value -x -a 'u32 u64 i32 i64 u32be u64be none hex bytes: text:' -d 'u32, u64, i32, i64, u32be, u64be, none, hexN, bytes:N or text:N'
complete -c odht -n '__fish_seen_subcommand_from order' -l hash -x -a 'fx unhash xxh64' -d 'fx, unhash or xxh64'
complete -c odht -n '__fish_seen_subcommand_from order' -l at -x -d 'a number below 2^64'
complete -c odht -n '__fish_seen_subcommand_from diff' -l help
complete -c odht -n '__fish_seen_subcommand_from diff' -l whole
complete -c odht -n '__fish_seen_subcommand_from diff' -l key -x -a 'u32 u64 i32 i64 u32be u64be hex bytes: text:' -d 'u32, u64, i32, i64, u32be, u64be, hexN, bytes:N or text:N'
complete -c odht -n '__fish_seen_subcommand_from diff' -l value -x -a 'u32 u64 i32 i64 u32be u64be none hex bytes: text:' -d 'u32, u64, i32, i64, u32be, u64be, none, hexN, bytes:N or text:N'
complete -c odht -n '__fish_seen_subcommand_from diff' -l hash -x -a 'fx unhash xxh64' -d 'fx, unhash or xxh64'
complete -c odht -n '__fish_seen_subcommand_from build' -l help
complete -c odht -n '__fish_seen_subcommand_from build' -l key -x -a 'u32 u64 i32 i64 u32be u64be hex bytes: text:' -d 'u32, u64, i32, i64, u32be, u64be, hexN, bytes:N or text:N'
complete -c odht -n '__fish_seen_subcommand_from build' -l value -x -a 'u32 u64 i32 i64 u32be u64be none hex bytes: text:' -d 'u32, u64, i32, i64, u32be, u64be, none, hexN, bytes:N or text:N'
complete -c odht -n '__fish_seen_subcommand_from build' -l duplicates -x -a 'last first error' -d 'last, first or error'
complete -c odht -n '__fish_seen_subcommand_from build' -l delimiter -x -d 'a printable character of ASCII that is no quote'
complete -c odht -n '__fish_seen_subcommand_from build' -l null
complete -c odht -n '__fish_seen_subcommand_from build' -l check-only
complete -c odht -n '__fish_seen_subcommand_from build' -l hash -x -a 'fx unhash xxh64' -d 'fx, unhash or xxh64'
complete -c odht -n '__fish_seen_subcommand_from build' -l percent -x -d 'a number from 1 to 100'
complete -c odht -n '__fish_seen_subcommand_from build' -l capacity -x -d 'a number below 2^64'
complete -c odht -n '__fish_seen_subcommand_from build' -l progress
complete -c odht -n '__fish_seen_subcommand_from build' -l break-links
complete -c odht -n '__fish_seen_subcommand_from build' -l force
complete -c odht -n '__fish_seen_subcommand_from put' -l help
complete -c odht -n '__fish_seen_subcommand_from put' -l duplicates -x -a 'last first error' -d 'last, first or error'
complete -c odht -n '__fish_seen_subcommand_from put' -l delimiter -x -d 'a printable character of ASCII that is no quote'
complete -c odht -n '__fish_seen_subcommand_from put' -l null
complete -c odht -n '__fish_seen_subcommand_from put' -l key -x -a 'u32 u64 i32 i64 u32be u64be hex bytes: text:' -d 'u32, u64, i32, i64, u32be, u64be, hexN, bytes:N or text:N'
complete -c odht -n '__fish_seen_subcommand_from put' -l value -x -a 'u32 u64 i32 i64 u32be u64be none hex bytes: text:' -d 'u32, u64, i32, i64, u32be, u64be, none, hexN, bytes:N or text:N'
complete -c odht -n '__fish_seen_subcommand_from put' -l whole
complete -c odht -n '__fish_seen_subcommand_from put' -l hash -x -a 'fx unhash xxh64' -d 'fx, unhash or xxh64'
complete -c odht -n '__fish_seen_subcommand_from put' -l progress
complete -c odht -n '__fish_seen_subcommand_from put' -l break-links
complete -c odht -n '__fish_seen_subcommand_from delete' -l help
complete -c odht -n '__fish_seen_subcommand_from delete' -l null
complete -c odht -n '__fish_seen_subcommand_from delete' -l key -x -a 'u32 u64 i32 i64 u32be u64be hex bytes: text:' -d 'u32, u64, i32, i64, u32be, u64be, hexN, bytes:N or text:N'
complete -c odht -n '__fish_seen_subcommand_from delete' -l whole
complete -c odht -n '__fish_seen_subcommand_from delete' -l hash -x -a 'fx unhash xxh64' -d 'fx, unhash or xxh64'
complete -c odht -n '__fish_seen_subcommand_from delete' -l progress
complete -c odht -n '__fish_seen_subcommand_from delete' -l break-links
complete -c odht -n '__fish_seen_subcommand_from rebuild' -l help
complete -c odht -n '__fish_seen_subcommand_from rebuild' -l percent -x -d 'a number from 1 to 100'
complete -c odht -n '__fish_seen_subcommand_from rebuild' -l whole
complete -c odht -n '__fish_seen_subcommand_from rebuild' -l hash -x -a 'fx unhash xxh64' -d 'fx, unhash or xxh64'
complete -c odht -n '__fish_seen_subcommand_from rebuild' -l progress
complete -c odht -n '__fish_seen_subcommand_from rebuild' -l break-links
complete -c odht -n '__fish_seen_subcommand_from merge' -l help
complete -c odht -n '__fish_seen_subcommand_from merge' -l duplicates -x -a 'last first error' -d 'last, first or error'
complete -c odht -n '__fish_seen_subcommand_from merge' -l key -x -a 'u32 u64 i32 i64 u32be u64be hex bytes: text:' -d 'u32, u64, i32, i64, u32be, u64be, hexN, bytes:N or text:N'
complete -c odht -n '__fish_seen_subcommand_from merge' -l value -x -a 'u32 u64 i32 i64 u32be u64be none hex bytes: text:' -d 'u32, u64, i32, i64, u32be, u64be, none, hexN, bytes:N or text:N'
complete -c odht -n '__fish_seen_subcommand_from merge' -l whole
complete -c odht -n '__fish_seen_subcommand_from merge' -l hash -x -a 'fx unhash xxh64' -d 'fx, unhash or xxh64'
complete -c odht -n '__fish_seen_subcommand_from merge' -l percent -x -d 'a number from 1 to 100'
complete -c odht -n '__fish_seen_subcommand_from merge' -l progress
complete -c odht -n '__fish_seen_subcommand_from merge' -l break-links
complete -c odht -n '__fish_seen_subcommand_from merge' -l force
