//! The files of vectors: what their lines say. Their README, in the folder of the vectors, describes them.

use std::collections::HashMap;
use std::path::{Path, PathBuf};

/// The bytes that have names.
pub type Names = HashMap<String, Vec<u8>>;

/// A case: a call of arguments, in a configuration or in none, and what it has to answer.
pub struct Case<'a> {
    pub config: &'a str,
    pub call: &'a str,
    pub args: &'a [&'a str],
    pub expected: &'a str,
    pub names: &'a Names,
}

/// What a call answers: words, and for some calls the bytes of a table after them.
pub struct Answer {
    pub text: String,
    pub bytes: Option<Vec<u8>>,
}

impl Answer {
    /// Words alone.
    pub fn words<T: ToString>(words: impl IntoIterator<Item = T>) -> Answer {
        let words: Vec<String> = words.into_iter().map(|word| word.to_string()).collect();
        Answer { text: words.join(" "), bytes: None }
    }

    /// One word.
    pub fn word(word: impl ToString) -> Answer {
        Answer::words([word])
    }

    /// A number, or `none`.
    pub fn number(number: Option<impl ToString>) -> Answer {
        Answer::word(number.map_or("none".to_string(), |it| it.to_string()))
    }

    /// `ok`, or the text of the error.
    pub fn of<T, E: ToString>(result: Result<T, E>) -> Answer {
        Answer::word(result.map_or_else(|error| error.to_string(), |_| "ok".to_string()))
    }

    /// These words, and the bytes of a table.
    pub fn table(self, bytes: &[u8]) -> Answer {
        Answer { bytes: Some(bytes.to_vec()), ..self }
    }
}

impl Case<'_> {
    /// The bytes of an argument.
    pub fn bytes(&self, at: usize) -> Vec<u8> {
        read_bytes(self.args[at], self.names)
    }

    /// The number of an argument.
    pub fn number<N: std::str::FromStr>(&self, at: usize) -> N {
        let number = self.args[at].parse().ok();
        number.unwrap_or_else(|| panic!("{} is no number", self.args[at]))
    }

    /// The keys and values of the arguments from one on.
    pub fn pairs<const K: usize, const V: usize>(&self, from: usize) -> Vec<([u8; K], [u8; V])> {
        let halves = self.args[from..].iter().map(|pair| pair.split_once(':').unwrap());
        halves.map(|(key, value)| (array(&hex(key)), array(&hex(value)))).collect()
    }

    /// Compares the answer with what the case expects.
    pub fn compare(&self, answer: Answer) {
        let line = format!("{} {} = {}", self.call, self.args.join(" "), self.expected);
        let Some(bytes) = answer.bytes else {
            return assert_eq!(answer.text, self.expected, "{line}");
        };
        let (front, table) = self.expected.rsplit_once(' ').unwrap_or(("", self.expected));
        assert_eq!(answer.text, front, "{line}");
        assert_eq!(bytes, read_bytes(table, self.names), "{line}");
    }
}

/// The array of these bytes, which have its length.
pub fn array<const N: usize>(bytes: &[u8]) -> [u8; N] {
    bytes.try_into().expect("the length of the array")
}

/// The hexadecimal digits of the bytes, or `-`.
pub fn written(bytes: &[u8]) -> String {
    if bytes.is_empty() {
        return "-".to_string();
    }
    bytes.iter().map(|byte| format!("{byte:02x}")).collect()
}

/// The bytes of hexadecimal digits, or of `-`.
pub fn hex(digits: &str) -> Vec<u8> {
    let digits = digits.replace('-', "");
    assert!(digits.len() % 2 == 0, "{digits}");
    let places = (0..digits.len()).step_by(2);
    places.map(|place| u8::from_str_radix(&digits[place..place + 2], 16).unwrap()).collect()
}

/// The bytes that a word means: a name or digits, and changes after commas.
pub fn read_bytes(word: &str, names: &Names) -> Vec<u8> {
    let mut pieces = word.split(',');
    let first = pieces.next().unwrap();
    let mut bytes = names.get(first).cloned().unwrap_or_else(|| hex(first));
    for piece in pieces {
        if let Some(length) = piece.strip_prefix("..") {
            bytes.truncate(length.parse().unwrap());
        } else if let Some(digits) = piece.strip_prefix('+') {
            bytes.extend(hex(digits));
        } else {
            let (place, digits) = piece.split_once(':').unwrap();
            let (place, written): (usize, _) = (place.parse().unwrap(), hex(digits));
            bytes[place..place + written.len()].copy_from_slice(&written);
        }
    }
    bytes
}

// The lines, with each `each` replaced by the lines that it means.
fn lines(text: &str) -> Vec<String> {
    let mut all = Vec::new();
    for line in text.lines().filter(|line| !line.is_empty() && !line.starts_with('#')) {
        let Some(each) = line.strip_prefix("each ") else {
            all.push(line.to_string());
            continue;
        };
        let parts: Vec<&str> = each.splitn(3, ' ').collect();
        let (first, last): (usize, usize) = (parts[0].parse().unwrap(), parts[1].parse().unwrap());
        all.extend((first..=last).map(|number| {
            let digits = format!("{:02x}", number & 255);
            parts[2].replace("{}", &number.to_string()).replace("{x}", &digits)
        }));
    }
    all
}

// Gives each case of a file to `run`, and counts those that it says it ran.
fn run_file(text: &str, run: &dyn Fn(&Case<'_>) -> bool) -> usize {
    let (mut names, mut config, mut count) = (Names::new(), String::new(), 0);
    for line in lines(text) {
        if line.starts_with("== ") {
            config.clear();
        } else if let Some(named) = line.strip_prefix("config ") {
            config = named.to_string();
        } else {
            let (call, expected) = line.split_once(" = ").unwrap();
            let words: Vec<&str> = call.split(' ').collect();
            let (call, args) = (words[0], &words[1..]);
            if call == "let" {
                names.insert(args[0].to_string(), read_bytes(expected, &names));
                continue;
            }
            let names = &names;
            count += usize::from(run(&Case { config: &config, call, args, expected, names }));
        }
    }
    count
}

// The folder of the vectors, where this crate is in its repository.
fn folder() -> Option<PathBuf> {
    let folder = Path::new(env!("CARGO_MANIFEST_DIR")).join("../crates/odht_vectors/data");
    folder.is_dir().then_some(folder)
}

/// Gives each case to `run`, and returns how many it says it ran. `None`, with a word about it, where there are no
/// vectors.
pub fn run_all(run: &dyn Fn(&Case<'_>) -> bool) -> Option<usize> {
    let Some(folder) = folder() else {
        println!("skipped: there are no vectors here, outside of the repository");
        return None;
    };
    let files = std::fs::read_dir(folder).unwrap().map(|file| file.unwrap().path());
    let texts = files.filter(|path| path.extension().is_some_and(|end| end == "txt"));
    Some(texts.map(|path| run_file(&std::fs::read_to_string(path).unwrap(), run)).sum())
}
