//! The archive leaves panics to the program. The archive that cargo makes has a copy of Rust's runtime in it; if the
//! linker took that copy for the program, each panic would end the process.

use std::panic::catch_unwind;
use std::sync::atomic::{AtomicBool, Ordering};

use odht_ffi::{Builder, Table, U64U32};

/// Notes that its destructor ran.
struct Noted<'a>(&'a AtomicBool);

impl Drop for Noted<'_> {
    fn drop(&mut self) {
        self.0.store(true, Ordering::SeqCst);
    }
}

#[test]
fn a_panic_is_caught() {
    let mut pairs = Builder::<U64U32>::new(87);
    pairs.extend([(1, 2), (3, 4)]);
    let bytes = pairs.build().unwrap();
    let dropped = AtomicBool::new(false);
    let caught = catch_unwind(|| {
        let _noted = Noted(&dropped);
        let table = Table::<U64U32>::open(&bytes).unwrap();
        panic!("1 has {:?}", table.get(&1));
    });
    let payload = caught.unwrap_err();
    assert_eq!(payload.downcast_ref::<String>().unwrap(), "1 has Some(2)");
    assert!(dropped.load(Ordering::SeqCst));
}
