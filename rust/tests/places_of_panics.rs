//! A call that panics is told with the line of its caller.

mod common;

use common::worked::three_pairs;
use odht::configs::U64ToU32;
use odht::dynamic::{DynTable, DynTableOwned, Layout};
use odht::{bytes_needed, FxHashFn, HashFn, HashTable, HashTableOwned, UnHashFn};
use std::panic::{catch_unwind, set_hook, AssertUnwindSafe};
use std::sync::Mutex;

type Owned = HashTableOwned<U64ToU32>;
type View<D> = HashTable<U64ToU32, D>;
type Dyn = DynTable<FxHashFn, Vec<u8>>;

static PLACE: Mutex<(String, u32)> = Mutex::new((String::new(), 0));

// The file and the line of the panic of a call.
fn place(call: impl FnOnce()) -> (String, u32) {
    assert!(catch_unwind(AssertUnwindSafe(call)).is_err());
    PLACE.lock().unwrap().clone()
}

// One test alone, since the hook is the program's.
#[test]
fn panics_are_told_where_the_caller_is() {
    set_hook(Box::new(|panic| {
        let place = panic.location().expect("a place");
        *PLACE.lock().unwrap() = (place.file().to_string(), place.line());
    }));
    let bytes = three_pairs();
    let view = View::try_from_raw_bytes(&bytes[..]).unwrap();
    let mut table = Owned::try_from_raw_bytes(&bytes).unwrap();
    let layout = Layout::of::<U64ToU32>();
    let sized = Dyn::open(layout, bytes.to_vec()).unwrap();
    let mut full = View::try_init_in_place(vec![0; 256], 13, 87).unwrap();
    full.insert_all(&(0..13).map(|key| (key, 0)).collect::<Vec<_>>());
    macro_rules! each {
        ($($call:expr;)*) => { [$((line!(), stringify!($call), place(|| { let _ = $call; }))),*] };
    }
    // `line!()` is that of the call of the macro, and so is the place of a panic within it.
    let found = each! {
        Owned::with_capacity(1, 0);
        Owned::try_with_capacity(1, 101).ok();
        Owned::from_iterator([(1, 2)], 0);
        Owned::try_from_iterator([(1, 2)], 0).ok();
        Owned::with_capacity(1 << 62, 87);
        View::init_in_place(vec![0; 256], 1, 0).ok();
        View::try_init_in_place(vec![0; 256], 1, 0).ok();
        bytes_needed::<U64ToU32>(1, 0);
        bytes_needed::<U64ToU32>(usize::MAX, 87);
        full.insert(&13, &0);
        full.insert_all(&[(13, 0)]);
        full.insert_encoded(&[13; 8], &0);
        view.get_all(&[1], &mut []);
        view.grow_into(&mut []);
        sized.grow_into(&mut []);
        sized.insert_order(&mut []);
        sized.insert_order_with(&mut [], &mut []);
        layout.bytes_needed(1, 0);
        Dyn::init_in_place(layout, vec![0; 256], 1, 0).ok();
        DynTableOwned::<FxHashFn>::with_capacity(layout, 1, 0).ok();
        table.get_all(&[1], &mut []);
        table.insert_order(&mut []);
        table.insert_order_with(&mut [], &mut []);
        table.reserve(usize::MAX);
        UnHashFn::hash(&[1, 2, 3]);
        unsafe { View::from_raw_bytes_unchecked(&bytes[1..]) };
        unsafe { Owned::from_raw_bytes_unchecked(&bytes[1..]) };
    };
    drop(std::panic::take_hook());
    table.insert(&1, &2);
    for (line, call, (file, panicked)) in found {
        assert!(file.ends_with("places_of_panics.rs"), "{call}: {file}:{panicked}");
        assert!(panicked >= line && panicked < line + 29, "{call}: line {panicked}");
    }
}
