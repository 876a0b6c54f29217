//! Tables that are forged to make the whole check read and compare much. Each is valid.

/// How many slots a search reads at once.
const GROUP: usize = 16;

/// A table by the hashes of its keys. Those of one home are below the slot count, except their tag.
pub struct Forged {
    /// Of the key in each slot; nothing where the slot is free.
    pub hashes: Vec<Option<u32>>,
    /// The load factor field of its header.
    factor: u16,
}

/// The load factors of 87 and 100 percent.
const MOST: u16 = 57_015;
const ALL: u16 = 65_535;

// The slot at a position of the probe order of a home.
fn slot_at(home: usize, position: usize, slots: usize) -> usize {
    let group = position / GROUP;
    (home + 8 * group * (group + 1) + position % GROUP) % slots
}

// Full at 87 percent from the home 0 on, with the hash of each position.
fn from_one_home(slots: usize, hash: impl Fn(usize) -> u32) -> Forged {
    let mut hashes = vec![None; slots];
    for position in 0..slots * usize::from(MOST) / 65_536 {
        hashes[slot_at(0, position, slots)] = Some(hash(position));
    }
    Forged { hashes, factor: MOST }
}

/// Full at 87 percent, and all keys have the hash 0: each is compared with all that come before it.
pub fn one_hash(slots: usize) -> Forged {
    from_one_home(slots, |_| 0)
}

/// Full at 87 percent, and all keys have the home 0, with each tag in turn: the groups before each are read, and few
/// keys are compared. For up to 2^25 slots, so that the tag is no part of the home.
pub fn one_home(slots: usize) -> Forged {
    from_one_home(slots, |position| (position as u32 % 128) << 25)
}

/// As few free slots as 100 percent leave, one of up to 65,536 and each the next of the one before; the home of each
/// key is chosen for its slot, so that the key comes late in the probe order, and before each free slot.
pub fn few_free_slots(slots: usize) -> Forged {
    let groups = slots / GROUP;
    let free = slots / 3..slots / 3 + (slots / 65_536).max(1);
    // The group of a probe order that begins that many times sixteen slots behind the home.
    let mut group_behind = vec![0; groups];
    for group in 0..groups {
        group_behind[group * (group + 1) / 2 % groups] = group;
    }
    let home_for = |slot: usize| {
        let homes = (1..16).rev().map(|part| {
            let group = part * groups / 16;
            (group, (slot + slots - 8 * group * (group + 1) % slots) % slots)
        });
        let mut homes = homes.filter(|(group, home)| {
            let [first, last] =
                [free.start, free.end - 1].map(|it| (it + slots - home) % slots / GROUP);
            (0..=(last + groups - first) % groups)
                .all(|more| group_behind[(first + more) % groups] > *group)
        });
        homes.next().map_or(slot, |(_, home)| home)
    };
    let hashes = (0..slots).map(|slot| (!free.contains(&slot)).then(|| home_for(slot) as u32));
    Forged { hashes: hashes.collect(), factor: ALL }
}

/// The longest search reads exactly that many groups, at most a sixteenth of the slots. There are
/// few free slots for that, and the home of each key is chosen for its slot: of those from which
/// the slot comes before each free one, that in whose probe order it comes last. All keys have the
/// tag 0, up to 2^25 slots.
pub fn up_to(slots: usize, groups: usize) -> Forged {
    let end = groups * GROUP;
    let offsets: Vec<usize> = (0..end).map(|position| slot_at(0, position, slots)).collect();
    let home_of = |slot: usize, position: usize| (slot + slots - offsets[position]) % slots;
    // For each home the position of the first free slot.
    let mut first_free = vec![end; slots];
    let mut is_free = vec![false; slots];
    for home in 0..slots {
        if first_free[home] == end {
            let free = slot_at(home, end - 1, slots);
            is_free[free] = true;
            for position in 0..end {
                let first = &mut first_free[home_of(free, position)];
                *first = position.min(*first);
            }
        }
    }
    let is_before = |slot, position| first_free[home_of(slot, position)] > position;
    let home_for = |slot: usize| {
        let last = (0..end).rev().find(|position| is_before(slot, *position));
        home_of(slot, last.expect("a slot that is not free is its own home"))
    };
    let hashes = (0..slots).map(|slot| (!is_free[slot]).then(|| home_for(slot) as u32));
    Forged { hashes: hashes.collect(), factor: ALL }
}

impl Forged {
    /// The bytes of the table, with keys and values of these lengths. A key is written of a number of its own and of
    /// its hash; values are zeros.
    pub fn bytes(&self, key: usize, value: usize, write: impl Fn(&mut [u8], u32, u32)) -> Vec<u8> {
        let (slots, entry) = (self.hashes.len(), key + value);
        let control = 32 + slots * entry;
        let count = self.hashes.iter().flatten().count();
        let mut bytes = vec![0; control + slots + GROUP];
        bytes[..8].copy_from_slice(&[79, 68, 72, 84, 1, key as u8, value as u8, 32]);
        bytes[8..16].copy_from_slice(&(count as u64).to_le_bytes());
        bytes[16..24].copy_from_slice(&(slots as u64).to_le_bytes());
        bytes[27] = 2;
        bytes[28..30].copy_from_slice(&self.factor.to_le_bytes());
        bytes[control..].fill(255);
        for (slot, hash) in self.hashes.iter().enumerate() {
            if let Some(hash) = *hash {
                write(&mut bytes[32 + slot * entry..][..key], slot as u32 + 1, hash);
                bytes[control + slot] = (hash >> 25) as u8;
            }
        }
        bytes.copy_within(control..control + GROUP, control + slots);
        bytes
    }
}
