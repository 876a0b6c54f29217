//! What means in Rust what it means in Rattle, and what is an error wherever it is met.

/// Paths of std that are the same.
pub const SAME_PATHS: [&str; 5] = [
    "std::fmt",
    "std::fmt::Debug",
    "std::iter::FusedIterator",
    "std::marker::PhantomData",
    "std::error::Error",
];

/// Paths of std that the shim has, under the same last name.
pub const SHIM_PATHS: [&str; 2] = ["std::alloc::AllocError", "std::alloc::Global"];

/// Paths of std that are the same, and that programs alone use.
pub const SAME_OF_PROGRAMS: [&str; 15] = [
    "std::cell::Cell",
    "std::io",
    "std::io::self",
    "std::io::BufRead",
    "std::io::ErrorKind",
    "std::io::Read",
    "std::io::Write",
    "std::os::fd::AsFd",
    "std::os::unix::fs::FileExt",
    "std::os::unix::fs::MetadataExt",
    "std::os::unix::fs::PermissionsExt",
    "std::os::unix::fs::fchown",
    "std::process::ExitCode",
    "std::str::from_utf8",
    "std::time::Duration",
];

/// Paths of std that the host has, for programs: `std` becomes `crate::host`. Where one name of a list is among them,
/// the host has the others too.
pub const HOST_PATHS: [&str; 14] = [
    "std::env",
    "std::fs::self",
    "std::fs::Metadata",
    "std::fs::OpenFile",
    "std::fs::OpenOptions",
    "std::fs::Permissions",
    "std::io::BufReader",
    "std::io::BufWriter",
    "std::io::IsTerminal",
    "std::os::unix::fs::OpenOptionsExt",
    "std::rt::Clock",
    "std::rt::Files",
    "std::simd::prelude::*",
    "std::time::Instant",
];

/// Methods of std that may be refused memory: in a program `try_` comes before the name of each.
pub const HOST_METHODS: [&str; 4] = ["collect", "extend_from_slice", "push", "read_until"];

/// Macros that are the same.
pub const SAME_MACROS: [&str; 3] = ["write", "writeln", "unreachable"];

/// Attributes that are the same.
pub const SAME_ATTRIBUTES: [&str; 5] = ["cold", "inline", "macro_export", "repr", "unsafe"];

/// Traits that are derived in the same way.
pub const SAME_DERIVES: [&str; 5] = ["Clone", "Copy", "Debug", "Eq", "PartialEq"];

/// Members of numbers that are the same.
pub const SAME_OF_NUMBERS: [&str; 4] = ["MAX", "from", "from_le_bytes", "try_from"];

/// Numbers.
pub const NUMBERS: [&str; 6] = ["u8", "u16", "u32", "u64", "u128", "usize"];

/// Methods of std that are the same. Those of `u8x16` are the shim's.
pub const SAME_METHODS: &str = "all as_mut_slice as_slice checked_add checked_mul copy_from_slice div_ceil fill \
    first_chunk first_chunk_mut get is_none is_ok is_power_of_two is_some iter last_chunk len max min next \
    next_power_of_two partition_point push rotate_left saturating_add saturating_mul saturating_sub simd_eq simd_ge \
    sort_unstable split_at split_at_mut split_first_chunk then_some to_bitmask to_le_bytes trailing_zeros unwrap_or \
    wrapping_add wrapping_mul wrapping_sub";

/// The same, which programs alone call. Those of the system, its files and its clock are the host's.
pub const METHODS_OF_PROGRAMS: &str =
    "alloc and as_ref as_secs as_str buffer checked_sub consume copied create_new dev duration_since fill_buf flush gid ino \
    into_inner into_iter into_string is_ascii_alphabetic is_ascii_hexdigit is_err is_file is_symlink is_terminal kind \
    map map_err metadata mode nlink ok ok_or or pop raw_os_error read_at read_exact read_link read_to_end remove rsplit_once \
    set set_permissions simd_gt simd_lt skip split_once starts_with stderr stdin stdout strip_prefix swap_bytes sync_all take uid unwrap \
    write_all write_char write_str";

/// Methods that allocate in Rust: in Rattle each takes an allocator, or returns that memory was refused. They are an
/// error also where a function of this name is declared.
pub const ALLOCATING_METHODS: &str =
    "clone push extend reserve to_string to_owned insert_str append resize split_off \
    into_boxed_slice concat join repeat cloned sort sort_by sort_by_key";

/// Words that Rattle has and Rust does not, or that mean something else there, or that these sources do without.
pub const OTHER_WORDS: &str = "ghost requires ensures final Drop static async await dyn union f32 f64 \
    String Box Rc Arc HashMap HashSet BTreeMap BTreeSet VecDeque Cow format prove assume decreases HostRuntime Abort \
    Wait Threads Clock isize i8 i16 i32 i64 i128 unimplemented todo panic assert cfg test yield become";

/// Those of them that a program has.
pub const WORDS_OF_PROGRAMS: &str = "static String HostRuntime Clock i32";

/// Whether a word is one of a list.
pub fn is_in(word: &str, list: &str) -> bool {
    list.split_whitespace().any(|it| it == word)
}
