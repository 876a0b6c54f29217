//! Random lists of operations, on the crate's tables and by the calls of the C library on a copy of the bytes: equal
//! answers and equal bytes after each, also on bytes that were changed.

#[cfg(not(c_library))]
#[test]
fn skipped() {
    println!("skipped: ODHT_LIB_DIR names no folder with libodht.a");
}

#[cfg(c_library)]
mod with_the_library {
    use beside::c_library::{status, Calls, ABSENT, OK, REPLACED, TOO_SMALL, UNMADE};
    use beside::operations;
    use beside::random::Random;
    use odht::{check_all, check_all_within, try_bytes_needed, HashTable, HashTableOwned};
    use std::fmt::Debug;

    trait Chance: Copy + PartialEq + Debug {
        const ZERO: Self;
        fn any(random: &mut Random) -> Self;
    }

    impl Chance for () {
        const ZERO: () = ();
        fn any(_: &mut Random) {}
    }

    impl Chance for u32 {
        const ZERO: u32 = 0;
        fn any(random: &mut Random) -> u32 {
            u32::from_le_bytes(random.array())
        }
    }

    impl Chance for u64 {
        const ZERO: u64 = 0;
        fn any(random: &mut Random) -> u64 {
            u64::from_le_bytes(random.array())
        }
    }

    impl<const N: usize> Chance for [u8; N] {
        const ZERO: [u8; N] = [0; N];
        fn any(random: &mut Random) -> [u8; N] {
            let mut array: [u8; N] = random.array();
            // These keys are their own hashes: few of the last four bytes.
            array[N - 4..].iter_mut().for_each(|byte| *byte &= 0x83);
            array
        }
    }

    // The view of the bytes, which were opened.
    fn view<C: Calls>(bytes: &mut [u8]) -> HashTable<C, &mut [u8]> {
        HashTable::try_from_raw_bytes(bytes).unwrap()
    }

    struct Pair<C: Calls> {
        ours: Vec<u8>,
        theirs: Vec<u8>,
        keys: Vec<C::Key>,
        random: Random,
    }

    impl<C: Calls> Pair<C>
    where
        C::Key: Chance,
        C::Value: Chance,
    {
        // An empty table.
        fn new(mut random: Random) -> Self {
            let (items, percent) = (random.below(60), 1 + random.below(100) as u8);
            let (expected, mut length) = (try_bytes_needed::<C>(items, percent), 0);
            assert_eq!(C::bytes_needed(items, percent, &mut length), status(&expected));
            assert_eq!(Ok(length), expected);
            let (ours, mut theirs) = (vec![random.byte(); length], vec![random.byte(); length]);
            let ours = HashTable::<C, _>::try_init_in_place(ours, items, percent).unwrap();
            assert_eq!(C::init(&mut theirs, items, percent), OK);
            Pair { ours: ours.into_data(), theirs, keys: Vec::new(), random }
        }

        // One of the keys that were inserted, or another.
        fn key(&mut self) -> C::Key {
            if self.keys.is_empty() || self.random.comes(50) {
                self.keys.push(C::Key::any(&mut self.random));
            }
            self.keys[self.random.below(self.keys.len())]
        }

        fn insert(&mut self) {
            let (key, value) = (self.key(), C::Value::any(&mut self.random));
            let mut former = C::Value::ZERO;
            let result = view::<C>(&mut self.ours).try_insert(&key, &value);
            let returned = C::insert(&mut self.theirs, &key, value, &mut former);
            match result {
                Ok(Some(ours)) => assert_eq!((returned, former), (REPLACED, ours)),
                other => assert_eq!(returned, status(&other)),
            }
        }

        fn insert_all(&mut self) {
            let count = self.random.below(30);
            let keys: Vec<C::Key> = (0..count).map(|_| self.key()).collect();
            let values: Vec<C::Value> =
                (0..count).map(|_| C::Value::any(&mut self.random)).collect();
            let items: Vec<_> = keys.iter().copied().zip(values.iter().copied()).collect();
            let (accepted, result) = view::<C>(&mut self.ours).try_insert_all(&items);
            let mut theirs = 0;
            assert_eq!(
                C::insert_all(&mut self.theirs, &keys, &values, &mut theirs),
                status(&result)
            );
            assert_eq!(theirs, accepted);
        }

        fn look(&mut self) {
            let key = self.key();
            let mut value = C::Value::ZERO;
            let returned = C::get(&self.theirs, &key, &mut value);
            match view::<C>(&mut self.ours).get(&key) {
                Some(ours) => assert_eq!((returned, value), (OK, ours)),
                None => assert_eq!(returned, ABSENT),
            }
            let (mut cursor, mut count) = (self.random.below(70), 0);
            let from = cursor;
            let (mut keys, mut values) = ([C::Key::any(&mut self.random); 80], [value; 80]);
            let mut walk: Vec<_> = view::<C>(&mut self.ours).iter_from(from).collect();
            // With no room for the rest, it is told.
            let expected = if walk.len() > 80 { TOO_SMALL } else { OK };
            walk.truncate(80);
            let returned = C::walk(&self.theirs, &mut cursor, &mut keys, &mut values, &mut count);
            assert_eq!((returned, count), (expected, walk.len()));
            for ((_, (key, value)), at) in walk.into_iter().zip(0..) {
                assert!(keys[at] == key && values[at] == value);
            }
        }

        // The whole check, without and with a bound of searches.
        fn check_bytes(&mut self) -> bool {
            let result = check_all::<C>(&self.ours);
            assert_eq!(C::check(&self.ours), status(&result));
            let groups = 1 + self.random.below(3);
            let within = check_all_within::<C>(&self.ours, groups);
            assert_eq!(C::check_within(&self.ours, groups), status(&within));
            result.is_ok()
        }

        // The check, and the order of inserts of what is valid.
        fn check(&mut self) {
            if !self.check_bytes() {
                return;
            }
            let table = HashTableOwned::<C>::from_raw_bytes(&self.ours).unwrap();
            let (mut ours, mut theirs) = (vec![0; table.len()], vec![0; table.len()]);
            let expected = if table.insert_order(&mut ours) { OK } else { UNMADE };
            assert_eq!(C::insert_order(&self.theirs, &mut theirs), expected);
            assert!(expected == UNMADE || ours == theirs);
        }

        fn grow(&mut self) {
            let view = view::<C>(&mut self.ours);
            // The calls for C reject a load factor below that of one percent first.
            let is_small = u16::from_le_bytes([view.raw_bytes()[28], view.raw_bytes()[29]]) < 655;
            let Some(length) = view.grown_len().filter(|it| *it < 1 << 16 && !is_small) else {
                return;
            };
            let (mut ours, mut theirs, mut written) = (vec![1; length], vec![2; length], 0);
            view.grow_into(&mut ours);
            assert_eq!(C::grow(&self.theirs, &mut theirs, &mut written), OK);
            assert_eq!(written, length);
            if HashTable::<C, _>::try_from_raw_bytes(&ours[..]).is_ok() {
                (self.ours, self.theirs) = (ours, theirs);
            } else {
                assert_eq!(ours, theirs);
            }
        }

        // Some bytes are changed, in both; what is not opened then is forgotten.
        fn change(&mut self) {
            let before = self.ours.clone();
            for _ in 0..1 + self.random.below(3) {
                let at = match self.random.below(3) {
                    0 => self.random.below(32),
                    _ => self.random.below(before.len()),
                };
                self.ours[at] = self.random.byte();
            }
            let result = HashTable::<C, _>::try_from_raw_bytes(&self.ours[..]);
            assert_eq!(C::open(&self.ours), status(&result));
            let is_opened = result.is_ok();
            self.check_bytes();
            if !is_opened {
                self.ours = before;
            }
            self.theirs.clone_from(&self.ours);
        }

        fn run(&mut self, operations: usize) {
            for _ in 0..operations {
                match self.random.below(20) {
                    0 => self.grow(),
                    1 => self.change(),
                    2 | 3 => self.check(),
                    4 | 5 => self.insert_all(),
                    6..=12 => self.look(),
                    _ => self.insert(),
                }
                assert_eq!(self.ours, self.theirs);
            }
        }
    }

    fn built<C: Calls>(random: &mut Random)
    where
        C::Key: Chance,
        C::Value: Chance,
    {
        let (count, percent) = (random.below(100), 1 + random.below(100) as u8);
        let keys: Vec<C::Key> = (0..count).map(|_| C::Key::any(random)).collect();
        let values: Vec<C::Value> = (0..count).map(|_| C::Value::any(random)).collect();
        let items = keys.iter().copied().zip(values.iter().copied());
        let ours = HashTableOwned::<C>::from_iterator(items, percent);
        let mut theirs = vec![3; ours.raw_bytes().len()];
        let mut length = 0;
        assert_eq!(C::build(&keys, &values, percent, &mut theirs, &mut length), OK);
        assert_eq!((length, &theirs[..]), (theirs.len(), ours.raw_bytes()));
    }

    fn compare<C: Calls>(seed: u64)
    where
        C::Key: Chance,
        C::Value: Chance,
    {
        let lists = operations(3_000) / 300;
        for list in 0..lists as u64 {
            Pair::<C>::new(Random(seed * 1_000_000 + list)).run(300);
            built::<C>(&mut Random(seed * 2_000_000 + list));
        }
    }

    include!("../../../bindings/rust/src/generated/shapes.rs");

    macro_rules! test {
        ($(
            $module:ident, $shape:ident, $config:ident:
            $key:ty as $key_kind:ident => $value:ty $(as $value_kind:ident)?, $words:literal;
        )*) => { $(
            #[test]
            fn $module() {
                compare::<odht::configs::$config>(1);
            }
        )* };
    }

    each_shape!(test);
}
