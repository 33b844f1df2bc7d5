//! The profiles, each for a part of 01 that the others seldom reach.

use crate::profile::Profile;
use request::Kind::{self, *};

const DATA: [(Kind, u32); 7] =
    [(Base, 2), (Write, 5), (Delta, 6), (Estimate, 2), (Remove, 2), (Fetch, 7), (Materialise, 3)];

/// Few marks, since a read stops at one.
const DELTAS: [(Kind, u32); 7] = [
    (Base, 1),
    (Write, 12),
    (Delta, 16),
    (Estimate, 1),
    (Remove, 3),
    (Fetch, 24),
    (Materialise, 8),
];

const GROUPS: [(Kind, u32); 9] = [
    (LastCommitted, 2),
    (GroupBase, 2),
    (Exchange, 2),
    (GroupWrite, 7),
    (GroupEstimate, 2),
    (GroupRemove, 2),
    (GroupFetch, 5),
    (GroupSize, 3),
    (Finalise, 5),
];

const BOTH: [(Kind, u32); 16] = {
    let mut both = [(Base, 0); 16];
    let mut n = 0;
    while n < 16 {
        both[n] = if n < 7 { DATA[n] } else { GROUPS[n - 7] };
        n += 1;
    }
    both
};

const FILL_DATA: [(Kind, u32); 7] =
    [(Base, 2), (Write, 30), (Delta, 30), (Estimate, 1), (Remove, 3), (Fetch, 4), (Materialise, 2)];

const FILL_GROUPS: [(Kind, u32); 8] = [
    (LastCommitted, 1),
    (GroupBase, 6),
    (Exchange, 1),
    (GroupWrite, 12),
    (GroupRemove, 2),
    (GroupFetch, 2),
    (GroupSize, 1),
    (Finalise, 6),
];

const LAST: u32 = u32::MAX;
const ALL_TAGS: [u8; 64] = {
    let mut tags = [0; 64];
    let mut tag = 0;
    while tag < 64 {
        tags[tag] = tag as u8;
        tag += 1;
    }
    tags
};

/// 0 up to N - 1.
const fn numbers<const N: usize>() -> [u32; N] {
    let mut numbers = [0; N];
    let mut n = 0;
    while n < N {
        numbers[n] = n as u32;
        n += 1;
    }
    numbers
}

/// Few keys and small indexes, so that tickets meet each other.
const FEW: Profile = Profile {
    name: "few",
    often: 3,
    length: 300,
    kinds: &BOTH,
    keys: &[0, 7],
    indexes: &[0, 1, 2, 3, 4],
    incarnations: &[0, 1, 2, 3],
    lengths: &[0, 3, 16, 16, 16],
    layouts: &[0, 0, 0, 9],
    numbers: &[0, 1, 5, 20, 50, 100],
    steps: &[0, 1, 5, 20, 50, 100],
    limits: &[50, 100, 100, 100],
    wild: 0,
    tags: &[0, 1, 5],
    whole_sets: 10,
    deletions: 20,
    damaged: 1,
};

pub const ALL: [Profile; 10] = [
    FEW,
    Profile {
        name: "extreme indexes",
        often: 2,
        indexes: &[0, 1, 0x7FFF_FFFF, 0x8000_0000, LAST - 3, LAST - 2, LAST - 1, LAST],
        incarnations: &[0, 1, LAST - 1, LAST],
        keys: &[0, LAST],
        ..FEW
    },
    Profile {
        name: "deltas",
        length: 400,
        kinds: &DELTAS,
        keys: &[4],
        indexes: &[0, 1, 2, 3, 4, 5, 6, 7],
        lengths: &[16, 16, 16, 16, 16, 16, 16, 16, 16, 16, 0, 15],
        layouts: &[0, 0, 0, 0, 0, 0, 0, 0, 0, 0, 0, 1],
        numbers: &[0, 1, 10, 40, 50, 60, 90, 99, 100, 101],
        steps: &[0, 0, 0, 1, 1, 2, 3, 5, 10, 20, 60, 100],
        limits: &[100, 100, 100, 100, 100, 100, 100, 100, 100, 99],
        deletions: 5,
        damaged: 0,
        ..FEW
    },
    Profile {
        name: "carries",
        length: 400,
        kinds: &DELTAS,
        keys: &[5],
        lengths: &[16],
        layouts: &[0],
        numbers: &[
            0,
            1,
            0xFFFF_FFFF,
            0x1_0000_0000,
            0xFFFF_FFFF_FFFF_FFFF,
            0x1_0000_0000_0000_0000,
            0xFFFF_FFFF_FFFF_FFFF_FFFF_FFFF,
            0x1_0000_0000_0000_0000_0000_0000,
            0x8000_0000_0000_0000_0000_0000_0000_0000,
            0xFFFF_FFFF_FFFF_FFFF_0000_0000_0000_0000,
            u128::MAX - 1,
            u128::MAX,
        ],
        steps: &[
            0,
            0,
            0,
            0,
            0,
            1,
            1,
            2,
            0xFFFF_FFFF,
            0x1_0000_0000,
            0xFFFF_FFFF_FFFF_FFFF,
            0x1_0000_0000_0000_0000,
            0xFFFF_FFFF_FFFF_FFFF_FFFF_FFFF,
            0x8000_0000_0000_0000_0000_0000_0000_0000,
            u128::MAX,
        ],
        limits: &[
            u128::MAX,
            u128::MAX,
            u128::MAX,
            u128::MAX,
            u128::MAX,
            u128::MAX,
            u128::MAX - 1,
            0x1_0000_0000_0000_0000,
        ],
        wild: 25,
        deletions: 3,
        damaged: 0,
        ..FEW
    },
    Profile {
        name: "values",
        lengths: &[0, 0, 1, 15, 16, 16, 17, 1_048_576],
        layouts: &[0, 0, 1, LAST],
        deletions: 35,
        ..FEW
    },
    Profile {
        name: "groups of few tags",
        often: 4,
        kinds: &GROUPS,
        tags: &[0, 31, 32, 63],
        deletions: 30,
        damaged: 0,
        ..FEW
    },
    Profile {
        name: "groups of all tags",
        often: 2,
        length: 150,
        kinds: &GROUPS,
        keys: &[2],
        indexes: &[0, 1, 2],
        tags: &ALL_TAGS,
        whole_sets: 60,
        damaged: 0,
        ..FEW
    },
    Profile { name: "malformed", often: 4, damaged: 60, ..FEW },
    Profile {
        name: "a data store that fills up",
        often: 1,
        length: 900,
        kinds: &FILL_DATA,
        keys: &numbers::<60>(),
        indexes: &numbers::<40>(),
        ..FEW
    },
    Profile {
        name: "a group store that fills up",
        often: 2,
        length: 200,
        kinds: &FILL_GROUPS,
        keys: &[1, 2, 3],
        indexes: &[0, 1, 2, 3, 4],
        tags: &ALL_TAGS,
        whole_sets: 40,
        deletions: 10,
        ..FEW
    },
];

/// The profile of the history of this number; rounds repeat.
pub fn of(number: u64) -> Profile {
    let round: u64 = ALL.iter().map(|profile| profile.often).sum();
    let mut at = number % round;
    for profile in ALL {
        if at < profile.often {
            return profile;
        }
        at -= profile.often;
    }
    unreachable!("the sum bounds the number")
}
