//! What the requests of this test do, by 01's text alone: maps, and counts of units. It knows
//! nothing of how a store's words lie, and none of the library's code.

use crate::common::words::{self, number, number_in, Value, DELETION, MINUS, MODIFICATION, PLUS};
use proved_mvhashmap::Refusal;
use std::collections::BTreeMap;

pub type Said = Result<Vec<u32>, Refusal>;

/// A key, and an index or a tag.
type Place = (u32, u32);

enum Cell {
    Write { incarnation: u32, value: Value },
    Delta(Delta),
}

struct Entry {
    estimate: bool,
    cell: Cell,
}

struct Update {
    estimate: bool,
    incarnation: u32,
    members: BTreeMap<u32, Value>,
}

impl Update {
    /// "a group update 1 plus 1 a tag"
    fn units(&self) -> usize {
        1 + self.members.len()
    }
}

pub struct Model {
    data_units: usize,
    group_units: usize,
    entries: BTreeMap<Place, Entry>,
    updates: BTreeMap<Place, Update>,
    committed: BTreeMap<Place, Value>,
    /// Units of all updates, kept so that they are not counted at each request.
    update_units: usize,
}

fn answer(kind: u32, words: &[u32]) -> Said {
    Ok(words::request(kind, words))
}

fn done() -> Said {
    answer(0, &[])
}

fn versioned(index: u32, incarnation: u32, value: &Value) -> Said {
    answer(1, &[&[index, incarnation], &value[..]].concat())
}

fn kind_of(value: &Value) -> u32 {
    value[0] >> 30
}

fn value_in(words: &[u32]) -> Value {
    words[..7].try_into().unwrap()
}

/// A set's two words, and a value for each of its tags in rising order.
fn members_in(words: &[u32]) -> BTreeMap<u32, Value> {
    words::tags_in(words).zip(words[2..].chunks(7).map(value_in)).collect()
}

impl Model {
    pub fn with_units(data_units: usize, group_units: usize) -> Self {
        Model {
            data_units,
            group_units,
            entries: BTreeMap::new(),
            updates: BTreeMap::new(),
            committed: BTreeMap::new(),
            update_units: 0,
        }
    }

    /// The answer to a request whose words keep to the format.
    pub fn answer(&mut self, request: &[u32]) -> Said {
        let fields = &request[1..];
        let place = || (fields[0], fields[1]);
        match request[0] >> 28 {
            0 => self.last_committed(fields[0]),
            2 => self.write(place(), fields[2], value_in(&fields[3..])),
            3 => self.put(place(), Cell::Delta(Delta::in_words(&fields[2..]))),
            4 => self.estimate(place()),
            5 => self.remove(place()),
            6 => self.fetch(place()),
            10 => self.group_write(place(), fields[2], members_in(&fields[3..])),
            11 => self.group_estimate(place()),
            12 => self.group_remove(place()),
            13 => self.group_fetch(fields[0], fields[1], fields[2]),
            15 => self.finalize(place()),
            kind => unreachable!("kind {kind} is not in this test"),
        }
    }

    pub fn data_places(&self) -> Vec<Place> {
        self.entries.keys().copied().collect()
    }

    pub fn update_places(&self) -> Vec<Place> {
        self.updates.keys().copied().collect()
    }

    /// Keys, tags and indexes of all members.
    pub fn tagged_places(&self) -> impl Iterator<Item = (u32, u32, u32)> + '_ {
        self.updates.iter().flat_map(|(&(key, index), update)| {
            update.members.keys().map(move |&tag| (key, tag, index))
        })
    }

    pub fn tags_at(&self, place: Place) -> usize {
        self.updates.get(&place).map_or(0, |update| update.members.len())
    }

    /// Keys that have committed values, once a value.
    pub fn committed_keys(&self) -> impl Iterator<Item = u32> + '_ {
        self.committed.keys().map(|place| place.0)
    }

    pub fn committed_tags(&self, key: u32) -> Vec<u32> {
        self.committed.range((key, 0)..=(key, 63)).map(|(place, _)| place.1).collect()
    }

    pub fn is_committed(&self, key: u32, tag: u32) -> bool {
        self.committed.contains_key(&(key, tag))
    }

    pub fn free_group_units(&self) -> usize {
        self.group_units - self.update_units - self.committed.len()
    }

    /// "`write` over a write needs a higher incarnation; over a delta, any."
    fn write(&mut self, place: Place, incarnation: u32, value: Value) -> Said {
        if let Some(Entry { cell: Cell::Write { incarnation: earlier, .. }, .. }) =
            self.entries.get(&place)
        {
            if incarnation <= *earlier {
                return Err(Refusal::IncarnationNotHigher);
            }
        }
        self.put(place, Cell::Write { incarnation, value })
    }

    /// "A data entry takes 1", and one that takes another's place no more.
    fn put(&mut self, place: Place, cell: Cell) -> Said {
        let is_new = !self.entries.contains_key(&place);
        if self.entries.len() + usize::from(is_new) > self.data_units {
            return Err(Refusal::UnitsExhausted);
        }
        self.entries.insert(place, Entry { estimate: false, cell });
        done()
    }

    fn estimate(&mut self, place: Place) -> Said {
        self.entries.get_mut(&place).ok_or(Refusal::NothingThere)?.estimate = true;
        done()
    }

    fn remove(&mut self, place: Place) -> Said {
        self.entries.remove(&place).ok_or(Refusal::NothingThere)?;
        done()
    }

    /// The walk down a key's entries below an index.
    fn fetch(&self, (key, below): Place) -> Said {
        let mut deltas = Deltas::None;
        for (&(_, index), entry) in self.entries.range((key, 0)..(key, below)).rev() {
            match &entry.cell {
                _ if entry.estimate => return answer(6, &[index]),
                Cell::Write { incarnation, value } => {
                    return deltas.over(index, *incarnation, value)
                }
                Cell::Delta(delta) => deltas = deltas.and(*delta),
            }
        }
        deltas.over_nothing()
    }

    /// 14 is of the net count: the units of the update that is replaced are free for the new one.
    fn group_write(
        &mut self,
        place: Place,
        incarnation: u32,
        members: BTreeMap<u32, Value>,
    ) -> Said {
        let earlier = self.updates.get(&place);
        let update = Update { estimate: false, incarnation, members };
        let freed = earlier.map_or(0, Update::units);
        if update.units() > self.free_group_units() + freed {
            return Err(Refusal::UnitsExhausted);
        }
        let is_known = |tag| earlier.is_some_and(|update| update.members.contains_key(tag));
        let outside = !update.members.keys().all(is_known);
        self.update_units = self.update_units - freed + update.units();
        self.updates.insert(place, update);
        answer(if outside { 10 } else { 0 }, &[])
    }

    fn group_estimate(&mut self, place: Place) -> Said {
        self.updates.get_mut(&place).ok_or(Refusal::NothingThere)?.estimate = true;
        done()
    }

    /// "An absent key and an empty key answer alike: group removal is done".
    fn group_remove(&mut self, place: Place) -> Said {
        self.update_units -= self.updates.remove(&place).map_or(0, |update| update.units());
        done()
    }

    /// No base is recorded in this test, so a tag that is not found is Uninitialized.
    fn group_fetch(&self, key: u32, tag: u32, below: u32) -> Said {
        let mut lower = self.updates.range((key, 0)..(key, below)).rev();
        let found = lower.find_map(|(&(_, index), update)| {
            update.members.get(&tag).map(|value| (index, update, value))
        });
        match found {
            None => answer(4, &[]),
            Some((index, update, _)) if update.estimate => answer(6, &[index]),
            Some((index, update, value)) => versioned(index, update.incarnation, value),
        }
    }

    /// The commit rule for every tag, then the count of units, then the change. The answer is the
    /// group as it is committed then.
    fn finalize(&mut self, (key, index): Place) -> Said {
        let update = self.updates.get(&(key, index)).ok_or(Refusal::NothingThere)?;
        let (mut created, mut deleted) = (0, 0);
        for (&tag, value) in &update.members {
            match (kind_of(value), self.is_committed(key, tag)) {
                (DELETION, true) => deleted += 1,
                (MODIFICATION, true) => (),
                (words::CREATION, false) => created += 1,
                _ => return Err(Refusal::CommitRule),
            }
        }
        if created > self.free_group_units() + deleted {
            return Err(Refusal::UnitsExhausted);
        }
        for (&tag, value) in &update.members {
            match kind_of(value) {
                DELETION => self.committed.remove(&(key, tag)),
                _ => self.committed.insert((key, tag), *value),
            };
        }
        self.last_committed(key)
    }

    fn last_committed(&self, key: u32) -> Said {
        let tagged = self.committed.range((key, 0)..=(key, 63));
        let tagged: Vec<(u32, Value)> = tagged.map(|(&(_, tag), value)| (tag, *value)).collect();
        answer(9, &words::members(&tagged))
    }
}

/// A delta of small numbers, so that sums of them are exact here.
#[derive(Clone, Copy)]
struct Delta {
    limit: i128,
    high: i128,
    low: i128,
    size: i128,
}

impl Delta {
    fn in_words(words: &[u32]) -> Self {
        let [limit, high, low, size] = [0, 4, 8, 12].map(|at| number_in(&words[at..]) as i128);
        Delta { limit, high, low, size: if words[16] == MINUS { -size } else { size } }
    }

    fn words(self) -> Vec<u32> {
        let sign = if self.size < 0 { MINUS } else { PLUS };
        let [limit, high, low] = [self.limit, self.high, self.low].map(|n| n as u128);
        words::delta(limit, high, low, self.size.unsigned_abs(), sign)
    }

    /// "max(H', u' + H), max(L', L − u'), u' + u. It fails exactly if the limits differ or the new
    /// H or L exceeds M."
    fn onto(self, earlier: Delta) -> Option<Delta> {
        let high = earlier.high.max(earlier.size + self.high);
        let low = earlier.low.max(self.low - earlier.size);
        let fits = self.limit == earlier.limit && high.max(low) <= self.limit;
        fits.then_some(Delta { limit: self.limit, high, low, size: earlier.size + self.size })
    }

    /// "succeeds exactly if v ≥ L and v + H ≤ M, giving v + u"
    fn applied_to(self, number: u128) -> Option<u128> {
        // Above any limit of this test.
        let number = i128::try_from(number).ok()?;
        let fits = number >= self.low && number <= self.limit - self.high;
        fits.then_some((number + self.size) as u128)
    }
}

/// The deltas that a walk has met.
enum Deltas {
    None,
    Merged(Delta),
    Failed,
}

impl Deltas {
    fn and(self, earlier: Delta) -> Self {
        match self {
            Deltas::None => Deltas::Merged(earlier),
            Deltas::Merged(newer) => newer.onto(earlier).map_or(Deltas::Failed, Deltas::Merged),
            Deltas::Failed => Deltas::Failed,
        }
    }

    fn over_nothing(self) -> Said {
        match self {
            Deltas::None => answer(4, &[]),
            Deltas::Merged(delta) => answer(3, &delta.words()),
            Deltas::Failed => answer(7, &[]),
        }
    }

    /// "a layout is refused; then a deletion is Versioned even after a failed merge; then a missing
    /// number is refused; else the merged delta is applied, or DeltaApplicationFailure"
    fn over(self, index: u32, incarnation: u32, value: &Value) -> Said {
        let sum = match self {
            Deltas::None => return versioned(index, incarnation, value),
            _ if value[1] != 0 => return Err(Refusal::LayoutUnderDelta),
            _ if kind_of(value) == DELETION => return versioned(index, incarnation, value),
            _ if value[0] & 0x1FFF_FFFF != 16 => return Err(Refusal::NoNumberUnderDelta),
            Deltas::Merged(delta) => delta.applied_to(number_in(&value[3..])),
            Deltas::Failed => None,
        };
        sum.map_or_else(|| answer(7, &[]), |sum| answer(2, &number(sum)))
    }
}
