//! The conformance vectors of the repository, crates/odht_vectors/data/*.txt, of those configurations and calls that
//! this crate has. README.md there describes the lines.

use std::collections::HashMap;
use std::path::Path;

use odht_ffi::{bytes_needed, empty_table, Builder, Error, Shape, Table, TableMut, U32U32, U64U32};

type Names = HashMap<String, Vec<u8>>;

/// Numbers as the vectors write them: their bytes, lowest first, in hexadecimal digits.
trait Number: Sized {
    fn read(bytes: &[u8]) -> Self;
    fn written(&self) -> String;
}

macro_rules! number {
    ($type:ty) => {
        impl Number for $type {
            fn read(bytes: &[u8]) -> $type {
                <$type>::from_le_bytes(bytes.try_into().unwrap())
            }

            fn written(&self) -> String {
                self.to_le_bytes().iter().map(|byte| format!("{byte:02x}")).collect()
            }
        }
    };
}

number!(u32);
number!(u64);

fn hex(digits: &str) -> Vec<u8> {
    let digits = digits.replace('-', "");
    let places = (0..digits.len()).step_by(2);
    places.map(|place| u8::from_str_radix(&digits[place..place + 2], 16).unwrap()).collect()
}

/// The bytes that a word means.
fn read_bytes(word: &str, names: &Names) -> Vec<u8> {
    let mut pieces = word.split(',');
    let first = pieces.next().unwrap();
    let mut bytes = names.get(first).cloned().unwrap_or_else(|| hex(first));
    for piece in pieces {
        if let Some(length) = piece.strip_prefix("..") {
            bytes.truncate(length.parse().unwrap());
        } else if let Some(digits) = piece.strip_prefix('+') {
            bytes.extend(hex(digits));
        } else {
            let (place, digits) = piece.split_once(':').unwrap();
            let (place, written): (usize, _) = (place.parse().unwrap(), hex(digits));
            bytes[place..place + written.len()].copy_from_slice(&written);
        }
    }
    bytes
}

/// The error whose text this is.
fn refusal(text: &str) -> Option<Error> {
    let begins = [
        ("Provided data has", Error::TooShort),
        ("Expected header tag", Error::WrongTag),
        ("Expected file format version", Error::WrongVersion),
        ("Expected size of", Error::WrongSize),
        ("Slot count of hashtable should be a power of two", Error::SlotCountNotPowerOfTwo),
        ("Slot count of hashtable should be at least 16", Error::SlotCountTooSmall),
        ("Provided allocation has wrong size", Error::WrongLength),
        ("Found empty entry", Error::NonZeroEmpty),
        ("Control byte does not match", Error::ControlMismatch),
        ("Load factor field", Error::LoadFactorTooSmall),
        ("Header padding", Error::NonZeroPadding),
        ("Free slot", Error::BadFreeControl),
        ("Mirror control byte", Error::MirrorMismatch),
        ("Key in slot", Error::Unreachable),
        ("byte slice to initialize", Error::InitLength),
        ("Table is full", Error::Full),
        ("Memory was refused", Error::Memory),
        ("Capacity is too large", Error::Capacity),
    ];
    let found = begins.iter().find(|(begin, _)| text.starts_with(begin)).map(|(_, error)| *error);
    let counts = if text.contains("were found") { Error::WrongItemCount } else { Error::TooManyItems };
    found.or(text.starts_with("Header states").then_some(counts))
}

/// The answer of a call: words, and the bytes of a table after them.
struct Answer(Vec<String>, Option<Vec<u8>>);

fn words<T: ToString>(words: impl IntoIterator<Item = T>) -> Result<Answer, Error> {
    Ok(Answer(words.into_iter().map(|word| word.to_string()).collect(), None))
}

fn compare(answer: Result<Answer, Error>, expected: &str, names: &Names, line: &str) {
    match answer {
        Err(error) => assert_eq!(Some(error), refusal(expected), "{line}"),
        Ok(Answer(words, None)) => assert_eq!(words.join(" "), expected, "{line}"),
        Ok(Answer(words, Some(bytes))) => {
            let (front, table) = expected.rsplit_once(' ').unwrap_or(("", expected));
            assert_eq!(words.join(" "), front, "{line}");
            assert_eq!(bytes, read_bytes(table, names), "{line}");
        }
    }
}

fn pairs<S: Shape>(written: &[&str]) -> Vec<(S::Key, S::Value)>
where
    S::Key: Number,
    S::Value: Number,
{
    let split = written.iter().map(|pair| pair.split_once(':').unwrap());
    split.map(|(key, value)| (S::Key::read(&hex(key)), S::Value::read(&hex(value)))).collect()
}

fn written_or<T: Number>(value: Option<T>, none: &str) -> String {
    value.map_or(none.to_string(), |value| value.written())
}

/// The answer to a call about new tables; `None` where it is another call.
fn make<S: Shape>(call: &str, args: &[&str]) -> Option<Result<Answer, Error>>
where
    S::Key: Number,
    S::Value: Number,
{
    let number = |place: usize| args[place].parse::<usize>().unwrap();
    let percent = |place: usize| args[place].parse::<u8>().unwrap();
    Some(match call {
        "bytes_needed" => match bytes_needed::<S>(number(0), percent(1)) {
            Ok(length) => words([length]),
            Err(error) => words([if error == Error::Capacity { "none" } else { error.name() }]),
        },
        "new" => {
            let mut bytes = vec![0xa5; number(2)];
            let made = TableMut::<S>::init(&mut bytes, number(0), percent(1)).map(|_| ());
            made.map(|()| Answer(Vec::new(), Some(bytes)))
        }
        "with_capacity" => empty_table::<S>(number(0), percent(1)).and_then(|mut bytes| {
            let pairs = pairs::<S>(&args[2..]);
            for (key, value) in &pairs {
                odht_ffi::insert_growing::<S>(&mut bytes, key, *value)?;
            }
            Ok(Answer(vec![pairs.len().to_string(), "ok".to_string()], Some(bytes)))
        }),
        "from_iterator" => {
            let mut builder = Builder::<S>::new(percent(0));
            builder.extend(pairs::<S>(&args[1..]));
            builder.build().map(|bytes| Answer(Vec::new(), Some(bytes)))
        }
        _ => return None,
    })
}

/// The answer to a call about a table; `None` where it is another call.
fn look<S: Shape>(call: &str, args: &[&str], names: &Names) -> Option<Result<Answer, Error>>
where
    S::Key: Number,
    S::Value: Number,
{
    if !["open", "check", "verify", "len", "walk", "insert_slots", "insert_order"].contains(&call) {
        return None;
    }
    let bytes = read_bytes(args[0], names);
    let table = Table::<S>::open(&bytes);
    Some(match call {
        "open" => table.and_then(|_| words(["ok"])),
        "check" => Table::<S>::checked(&bytes).and_then(|_| words(["ok"])),
        "verify" => table.and_then(|table| words([table.check().is_ok()])),
        "len" => table.and_then(|table| words([table.len()])),
        "walk" => table.and_then(|table| {
            let pairs: Vec<String> = table.iter().map(|(key, value)| key.written() + ":" + &value.written()).collect();
            if pairs.is_empty() {
                words(["none"])
            } else {
                words(pairs)
            }
        }),
        "insert_slots" => table.and_then(|table| {
            let mut order = table.insert_order()?.expect("inserts make the table");
            order.sort_unstable();
            words(std::iter::once("true".to_string()).chain(order.iter().map(usize::to_string)))
        }),
        "insert_order" => table.and_then(|table| match table.insert_order()? {
            Some(order) => words(std::iter::once("true".to_string()).chain(order.iter().map(usize::to_string))),
            None => words(["false"]),
        }),
        _ => return None,
    })
}

/// The answer to a call that inserts; `None` where it is another call.
fn insert<S: Shape>(call: &str, args: &[&str], names: &Names) -> Option<Result<Answer, Error>>
where
    S::Key: Number,
    S::Value: Number,
{
    if call != "insert" && call != "insert_all" {
        return None;
    }
    let mut bytes = read_bytes(args[0], names);
    let pairs = pairs::<S>(&args[1..]);
    let mut table = match TableMut::<S>::open(&mut bytes) {
        Ok(table) => table,
        Err(error) => return Some(Err(error)),
    };
    let mut answers = Vec::new();
    if call == "insert" {
        for (key, value) in pairs {
            answers.push(match table.insert(&key, value) {
                Ok(former) => written_or(former, "none"),
                Err(error) => error.to_string(),
            });
        }
    } else {
        let (keys, values): (Vec<_>, Vec<_>) = pairs.into_iter().unzip();
        let (accepted, answer) = table.insert_all(&keys, &values);
        answers.push(accepted.to_string());
        answers.push(answer.map_or_else(|_| "Table is full".to_string(), |()| "ok".to_string()));
    }
    Some(Ok(Answer(answers, Some(bytes))))
}

/// Whether the call of this line is one that this crate has: then it was compared.
fn run_case<S: Shape>(line: &str, names: &Names) -> bool
where
    S::Key: Number,
    S::Value: Number,
{
    let (call, expected) = line.split_once(" = ").unwrap();
    let args: Vec<&str> = call.split(' ').collect();
    let (call, args) = (args[0], &args[1..]);
    if call == "get" {
        // This crate does not report how many groups were read.
        let bytes = read_bytes(args[0], names);
        let answer = Table::<S>::open(&bytes)
            .and_then(|table| words([written_or(table.get(&S::Key::read(&hex(args[1]))), "none")]));
        let expected = if answer.is_ok() { expected.split(' ').next().unwrap() } else { expected };
        compare(answer, expected, names, line);
        return true;
    }
    let made = make::<S>(call, args).or_else(|| insert::<S>(call, args, names));
    let answer = made.or_else(|| look::<S>(call, args, names));
    answer.map(|answer| compare(answer, expected, names, line)).is_some()
}

/// The lines, with each `each` replaced by the lines that it means.
fn lines(text: &str) -> Vec<String> {
    let mut all = Vec::new();
    for line in text.lines().filter(|line| !line.is_empty() && !line.starts_with('#')) {
        let Some(each) = line.strip_prefix("each ") else {
            all.push(line.to_string());
            continue;
        };
        let parts: Vec<&str> = each.splitn(3, ' ').collect();
        let (first, last): (usize, usize) = (parts[0].parse().unwrap(), parts[1].parse().unwrap());
        all.extend((first..=last).map(|number| {
            let digits = format!("{:02x}", number & 255);
            parts[2].replace("{}", &number.to_string()).replace("{x}", &digits)
        }));
    }
    all
}

/// How many cases of a file were compared.
fn run_file(text: &str) -> usize {
    let (mut names, mut config, mut count) = (Names::new(), String::new(), 0);
    for line in lines(text) {
        if line.starts_with("== ") {
            config.clear();
        } else if let Some(named) = line.strip_prefix("config ") {
            config = named.to_string();
        } else if let Some((name, bytes)) = line.strip_prefix("let ").and_then(|named| named.split_once(" = ")) {
            let bytes = read_bytes(bytes, &names);
            names.insert(name.to_string(), bytes);
        } else {
            count += usize::from(match config.as_str() {
                "u32_u32 4 4 FxHashFn" => run_case::<U32U32>(&line, &names),
                "u64_u32 8 4 FxHashFn" => run_case::<U64U32>(&line, &names),
                _ => false,
            });
        }
    }
    count
}

#[test]
fn the_vectors_hold() {
    let folder = Path::new(env!("CARGO_MANIFEST_DIR")).join("../../crates/odht_vectors/data");
    let Ok(files) = std::fs::read_dir(&folder) else {
        println!("There is no {}: this package is not in its repository.", folder.display());
        return;
    };
    let texts = files.map(|file| file.unwrap().path()).filter(|path| path.extension().is_some_and(|end| end == "txt"));
    let count: usize = texts.map(|path| run_file(&std::fs::read_to_string(path).unwrap())).sum();
    assert!(count > 7000, "only {count} cases were compared");
}
