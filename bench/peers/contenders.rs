//! The peers: those with files are functions in C (`peer.h`), and the maps are here.

use std::alloc::{GlobalAlloc, Layout, System};
use std::collections::HashMap;
use std::ffi::{c_char, c_int, c_void, CString};
use std::fs;
use std::hash::{BuildHasher, RandomState};
use std::hint::black_box;
use std::path::{Path, PathBuf};
use std::sync::atomic::{AtomicUsize, Ordering::Relaxed};
use std::time::Instant;

use crate::maps::FxBuild;
use crate::measure::best;
use crate::pairs::{Pairs, LOOKUPS};

/// What was measured of one peer: nanoseconds for each item, lookup or opening, and bytes for each item.
pub struct Told {
    pub name: &'static str,
    pub build: f64,
    pub bytes: f64,
    pub open: Option<f64>,
    pub present: f64,
    pub absent: f64,
}

pub struct Contender {
    pub name: &'static str,
    take: fn(&Pairs, &Path) -> Told,
}

impl Contender {
    pub fn measure(&self, pairs: &Pairs, folder: &Path) -> Told {
        Told {
            name: self.name,
            ..(self.take)(pairs, folder)
        }
    }
}

/// Counts the bytes that are allocated, which is what a map takes.
pub struct Counted;

static ALLOCATED: AtomicUsize = AtomicUsize::new(0);

unsafe impl GlobalAlloc for Counted {
    unsafe fn alloc(&self, layout: Layout) -> *mut u8 {
        ALLOCATED.fetch_add(layout.size(), Relaxed);
        unsafe { System.alloc(layout) }
    }

    unsafe fn dealloc(&self, start: *mut u8, layout: Layout) {
        ALLOCATED.fetch_sub(layout.size(), Relaxed);
        unsafe { System.dealloc(start, layout) }
    }
}

/// The best of three rounds, for each lookup.
fn lookup_time(mut round: impl FnMut()) -> f64 {
    let times = [(); 3].map(|()| time(&mut round));
    best(&times) / LOOKUPS as f64
}

fn time(job: impl FnOnce()) -> f64 {
    let start = Instant::now();
    job();
    start.elapsed().as_nanos() as f64
}

fn take_map<S: BuildHasher + Default>(pairs: &Pairs, _: &Path) -> Told {
    let before = ALLOCATED.load(Relaxed);
    let mut map: HashMap<u64, u32, S> = HashMap::default();
    let build = time(|| map.extend(pairs.keys.iter().copied().zip(pairs.values.iter().copied())));
    let bytes = ALLOCATED.load(Relaxed) - before;
    let round = |keys: &[u64], count: usize, sum: u64| {
        let found = keys.iter().filter_map(|key| map.get(key));
        let found = found.fold((0, 0), |(count, sum), value| {
            (count + 1, sum + u64::from(*value))
        });
        assert_eq!(black_box(found), (count, sum));
    };
    let sum = pairs.sum();
    let items = pairs.keys.len() as f64;
    Told {
        name: "",
        build: build / items,
        bytes: bytes as f64 / items,
        open: None,
        present: lookup_time(|| round(&pairs.present, LOOKUPS, sum)),
        absent: lookup_time(|| round(&pairs.absent, 0, 0)),
    }
}

/// A peer whose table is in a file.
struct InFile {
    build: unsafe extern "C" fn(*const c_char, *const u64, *const u32, usize) -> c_int,
    open: unsafe extern "C" fn(*const c_char) -> *mut c_void,
    get: unsafe extern "C" fn(*mut c_void, *const u64, usize, *mut u64) -> usize,
    close: unsafe extern "C" fn(*mut c_void),
}

impl InFile {
    fn build(&self, pairs: &Pairs, path: &PathBuf) -> f64 {
        let name = c_name(path);
        let (keys, values) = (pairs.keys.as_ptr(), pairs.values.as_ptr());
        let times = (0..pairs.rounds()).map(|_| {
            let _ = fs::remove_file(path);
            let build = || unsafe { (self.build)(name.as_ptr(), keys, values, pairs.keys.len()) };
            time(|| assert_eq!(build(), 0, "the file is built"))
        });
        best(&times.collect::<Vec<f64>>())
    }

    fn opened(&self, path: &PathBuf) -> *mut c_void {
        let opened = unsafe { (self.open)(c_name(path).as_ptr()) };
        assert!(!opened.is_null(), "the file is opened");
        opened
    }

    /// One that is opened, and not read, at each time.
    fn open(&self, path: &PathBuf) -> f64 {
        let times = [(); 5].map(|()| {
            let mut opened = std::ptr::null_mut();
            let time = time(|| opened = self.opened(path));
            unsafe { (self.close)(opened) };
            time
        });
        best(&times)
    }

    fn look_up(&self, opened: *mut c_void, keys: &[u64], count: usize, sum: u64) {
        let mut found = 0;
        let there = unsafe { (self.get)(opened, keys.as_ptr(), keys.len(), &mut found) };
        assert_eq!((there, found), (count, sum));
    }

    fn take(&self, pairs: &Pairs, folder: &Path) -> Told {
        let path = folder.join("peer.table");
        let items = pairs.keys.len() as f64;
        let build = self.build(pairs, &path) / items;
        let bytes = fs::metadata(&path).expect("the file is there").len() as f64 / items;
        let open = Some(self.open(&path));
        let (opened, sum) = (self.opened(&path), pairs.sum());
        let present = lookup_time(|| self.look_up(opened, &pairs.present, LOOKUPS, sum));
        let absent = lookup_time(|| self.look_up(opened, &pairs.absent, 0, 0));
        unsafe { (self.close)(opened) };
        fs::remove_file(&path).expect("the file is there");
        Told {
            name: "",
            build,
            bytes,
            open,
            present,
            absent,
        }
    }
}

fn c_name(path: &Path) -> CString {
    CString::new(path.to_str().expect("a path is text")).expect("it has no zero")
}

macro_rules! in_file {
    ($name:literal, $build:ident, $open:ident, $get:ident, $close:ident) => {{
        extern "C" {
            fn $build(
                path: *const c_char,
                keys: *const u64,
                values: *const u32,
                count: usize,
            ) -> c_int;
            fn $open(path: *const c_char) -> *mut c_void;
            fn $get(opened: *mut c_void, keys: *const u64, count: usize, sum: *mut u64) -> usize;
            fn $close(opened: *mut c_void);
        }
        const PEER: InFile = InFile {
            build: $build,
            open: $open,
            get: $get,
            close: $close,
        };
        Contender {
            name: $name,
            take: |pairs, folder| PEER.take(pairs, folder),
        }
    }};
}

/// Those that are built in.
pub fn contenders() -> Vec<Contender> {
    vec![
        in_file!(
            "odht, get_all",
            odht_all_build,
            odht_all_open,
            odht_all_get,
            odht_all_close
        ),
        in_file!(
            "odht, a call a key",
            odht_each_build,
            odht_each_open,
            odht_each_get,
            odht_each_close
        ),
        Contender {
            name: "HashMap, Fx",
            take: take_map::<FxBuild>,
        },
        Contender {
            name: "HashMap, SipHash",
            take: take_map::<RandomState>,
        },
        #[cfg(cdb)]
        in_file!(
            "TinyCDB",
            tinycdb_build,
            tinycdb_open,
            tinycdb_get,
            tinycdb_close
        ),
        #[cfg(lmdb)]
        in_file!("LMDB", lmdb_build, lmdb_open, lmdb_get, lmdb_close),
        #[cfg(sqlite)]
        in_file!(
            "SQLite",
            sqlite_build,
            sqlite_open,
            sqlite_get,
            sqlite_close
        ),
    ]
}
