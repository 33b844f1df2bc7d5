//! The data store: a directory of cells in pages, and payloads beside it. Every word with a part in
//! it is read once; a store is valid exactly if all of them keep to the rules and the others are 0.

use super::{delta_is_fine, is_exchanged, value_is_fine, Value};
use proved_mvhashmap::{MAX_UNITS, UNIT_WORDS};
use std::collections::{BTreeMap, BTreeSet};

/// Words of a payload: place, key and 20 of content.
const PAYLOAD: usize = 22;
const FIRST_PAYLOAD: usize = 6;
/// Words of a page where there is more than one: a count and 32 cells.
const PAGE: usize = 97;
const CELL: usize = 3;

/// What an entry holds, in words.
#[derive(Clone, Debug, PartialEq)]
pub enum Cell {
    Write { incarnation: u32, value: Value },
    Delta([u32; 17]),
    Shortcut([u32; 17], [u32; 4]),
}

#[derive(Clone, Debug, PartialEq)]
pub struct Entry {
    pub estimate: bool,
    pub cell: Cell,
}

/// Entries by key and shifted index.
pub type Entries = BTreeMap<(u32, u32), Entry>;

pub fn data_valid(store: &[u32]) -> bool {
    entries_in(store).is_some()
}

/// The words of the units, and which of them have been read.
struct Words<'a> {
    words: &'a [u32],
    read: Vec<bool>,
}

impl Words<'_> {
    fn at(&mut self, at: usize) -> u32 {
        self.read[at] = true;
        self.words[at]
    }

    fn several<const N: usize>(&mut self, from: usize) -> [u32; N] {
        std::array::from_fn(|n| self.at(from + n))
    }

    fn others_are_zero(&self) -> bool {
        self.words.iter().zip(&self.read).all(|(&word, &read)| read || word == 0)
    }
}

/// Cells of a page, and pages at most, for so many units.
fn room_and_pages(units: usize) -> (usize, usize) {
    if units <= 64 {
        (units, 1)
    } else {
        (32, units / 11)
    }
}

/// The entries that the words say; none where a rule is broken.
pub fn entries_in(store: &[u32]) -> Option<Entries> {
    let units = (store.len() / UNIT_WORDS).min(MAX_UNITS);
    if units == 0 {
        return Some(Entries::new());
    }
    let words = &store[..units * UNIT_WORDS];
    let mut words = Words { words, read: vec![false; words.len()] };
    let cells = cells_in(&mut words, units)?;
    let held = words.at(0) as usize;
    if held > units || cells.len() != held {
        return None;
    }
    let in_order =
        cells.windows(2).all(|two| (two[0].key, two[0].place) > (two[1].key, two[1].place));
    let numbers: BTreeSet<usize> = cells.iter().map(|cell| cell.number).collect();
    if !in_order || numbers.len() != held || numbers.iter().any(|&number| number >= held) {
        return None;
    }
    let mut entries = Entries::new();
    for cell in cells {
        let entry = entry_of(&mut words, &cell)?;
        entries.insert((cell.key, cell.place), entry);
    }
    words.others_are_zero().then_some(entries)
}

/// A cell of the directory.
struct Named {
    key: u32,
    place: u32,
    number: usize,
    marks: u32,
}

fn cells_in(words: &mut Words, units: usize) -> Option<Vec<Named>> {
    let (room, most_pages) = room_and_pages(units);
    let pages = words.at(1) as usize + 1;
    if pages > most_pages {
        return None;
    }
    let mut cells = Vec::new();
    for page in 0..pages {
        let start = FIRST_PAYLOAD + PAYLOAD * units + PAGE * page;
        let count = words.at(start) as usize;
        if count > room || count == 0 && pages > 1 {
            return None;
        }
        for cell in 0..count {
            let [place, key, word] = words.several(start + 1 + CELL * cell);
            cells.push(Named { key, place, number: (word & 0xFFFF) as usize, marks: word >> 16 });
        }
    }
    Some(cells)
}

/// What the payload of a cell and the cell's marks say, if that is an entry.
fn entry_of(words: &mut Words, cell: &Named) -> Option<Entry> {
    let start = FIRST_PAYLOAD + PAYLOAD * cell.number;
    if words.several(start) != [cell.place, cell.key] || cell.marks > 15 {
        return None;
    }
    let (form, estimate, sign) = (cell.marks & 3, cell.marks & 4 != 0, cell.marks >> 3);
    let content = start + 2;
    let kept = match form {
        0 if sign == 0 => {
            Cell::Write { incarnation: words.at(content), value: words.several(content + 1) }
        }
        1 => Cell::Delta(delta(words, content, sign)),
        2 => Cell::Shortcut(delta(words, content, sign), words.several(content + 16)),
        _ => return None,
    };
    let entry = Entry { estimate, cell: kept };
    entry_is_fine(cell.place, &entry).then_some(entry)
}

fn delta(words: &mut Words, at: usize, sign: u32) -> [u32; 17] {
    let numbers: [u32; 16] = words.several(at);
    std::array::from_fn(|n| if n < 16 { numbers[n] } else { sign })
}

/// "base entries are done writes of incarnation 0; .. only bases and committed values are raw"
fn entry_is_fine(place: u32, entry: &Entry) -> bool {
    match &entry.cell {
        Cell::Write { incarnation, value } if place == 0 => {
            value_is_fine(value) && *incarnation == 0 && !entry.estimate
        }
        Cell::Write { value, .. } => value_is_fine(value) && is_exchanged(value),
        Cell::Delta(delta) | Cell::Shortcut(delta, _) => place != 0 && delta_is_fine(delta),
    }
}

/// Two payloads exchanged, and the numbers by which cells name them: the same entries, elsewhere.
pub fn exchange_payloads(store: &mut [u32], one: usize, other: usize) {
    let units = (store.len() / UNIT_WORDS).min(MAX_UNITS);
    for word in 0..PAYLOAD {
        let at = |number: usize| FIRST_PAYLOAD + PAYLOAD * number + word;
        store.swap(at(one), at(other));
    }
    for page in 0..=store[1] as usize {
        let start = FIRST_PAYLOAD + PAYLOAD * units + PAGE * page;
        for cell in 0..store[start] as usize {
            let word = &mut store[start + CELL * (cell + 1)];
            let number = (*word & 0xFFFF) as usize;
            let named = if number == one {
                other
            } else if number == other {
                one
            } else {
                number
            };
            *word = *word & 0xFFFF_0000 | named as u32;
        }
    }
}
