//! Families of keys as programs have them, in which many bytes are the same.

/// A family: its name, and its key of each number. All keys of a family have the same length.
pub struct Family {
    /// What the keys are.
    pub name: String,
    key: Box<dyn Fn(u64) -> Vec<u8>>,
}

impl Family {
    fn new(name: impl Into<String>, key: impl Fn(u64) -> Vec<u8> + 'static) -> Family {
        Family { name: name.into(), key: Box::new(key) }
    }

    /// The key of a number.
    pub fn key(&self, number: u64) -> Vec<u8> {
        (self.key)(number)
    }
}

/// A text that is filled up with zeros to a length.
fn padded(text: String, len: usize) -> Vec<u8> {
    let mut bytes = text.into_bytes();
    assert!(bytes.len() <= len, "the text fits");
    bytes.resize(len, 0);
    bytes
}

/// The pair of two numbers below 1024, of which each stands for many pairs.
fn pair(number: u64) -> (u32, u32) {
    ((number / 1024) as u32, (number % 1024) as u32)
}

/// Keys of 64 bytes, each of which differs from others in one byte. The last four bytes count those in which every
/// change of one of the others has come.
fn byte_changed(number: u64) -> Vec<u8> {
    let mut key = vec![0; 64];
    let (at, change) = ((number % 60) as usize, number / 60);
    key[60..].copy_from_slice(&((change / 255) as u32).to_le_bytes());
    key[at] ^= (change % 255 + 1) as u8;
    key
}

/// All families.
pub fn families() -> Vec<Family> {
    let mut all = vec![
        Family::new("counted numbers", |it| it.to_le_bytes().to_vec()),
        Family::new("counted numbers of four bytes", |it| (it as u32).to_le_bytes().to_vec()),
        Family::new("big-endian numbers", |it| it.to_be_bytes().to_vec()),
        Family::new("floats", |it| (it as f64).to_le_bytes().to_vec()),
        Family::new("floats of four bytes", |it| (it as f32).to_le_bytes().to_vec()),
        Family::new("eighths as floats", |it| (it as f64 / 8.0).to_le_bytes().to_vec()),
        Family::new("texts that begin alike", |it| padded(format!("sym_{it}"), 16)),
        Family::new("texts that end alike", |it| format!("{it:08}/include/header.h").into_bytes()),
        Family::new("texts of 40 bytes that begin alike", |it| {
            padded(format!("a/path/of/some/length/file_{it}"), 40)
        }),
        Family::new("pairs of small numbers", |it| {
            let (first, second) = pair(it);
            [first.to_le_bytes(), second.to_le_bytes()].concat()
        }),
        Family::new("a small number and a line", |it| {
            let (first, second) = pair(it);
            [&first.to_le_bytes()[..], &u64::from(second).to_le_bytes()].concat()
        }),
        Family::new("single bytes changed", byte_changed),
    ];
    all.extend((0..=40).map(|power| {
        Family::new(format!("multiples of 2^{power}"), move |it| {
            (it << power).to_le_bytes().to_vec()
        })
    }));
    all
}
