//! One read, a request at a time: it brings in the base from storage where the store needs it.
//! Execution and validation read by the same steps.

use crate::block::Storage;
use crate::counts::{Counts, Met};
use crate::failure::{refused, Failure};
use crate::program::{Location, Seen};
use proved_mvhashmap::*;

/// What validation compares: who wrote what was read, or where deltas were added up, the number.
#[derive(Debug, Clone, Copy, PartialEq, Eq)]
pub enum Descriptor {
    Storage,
    Version(TxnIndex, Incarnation),
    Number(u128),
    DeltaFailure,
    TagNotFound,
    Size(GroupSize),
}

#[derive(Debug, Clone, Copy)]
pub enum Progress {
    Again,
    Blocked(TxnIndex),
    Found(Descriptor, Seen),
}

#[derive(Debug, Clone, Copy)]
enum Request {
    Fetch,
    SetBase,
    Exchange,
}

#[derive(Debug, Clone, Copy)]
pub struct Reader {
    pub location: Location,
    pub txn_idx: TxnIndex,
    next: Request,
    base_set: bool,
}

impl Reader {
    pub fn new(location: Location, txn_idx: TxnIndex) -> Self {
        Reader { location, txn_idx, next: Request::Fetch, base_set: false }
    }

    /// Makes the next request.
    pub fn step(
        &mut self,
        map: &MVHashMap,
        storage: &Storage,
        counts: &mut Counts,
    ) -> Result<Progress, Failure> {
        match self.next {
            Request::Fetch => return self.fetch(map, storage),
            Request::SetBase => {
                set_base(map, storage, self.location)?;
                self.base_set = true;
                counts.count(Met::Base);
            }
            Request::Exchange => {
                self.exchange(map, storage)?;
                counts.count(Met::Exchange);
            }
        }
        self.next = Request::Fetch;
        Ok(Progress::Again)
    }

    fn fetch(&mut self, map: &MVHashMap, storage: &Storage) -> Result<Progress, Failure> {
        let at = self.txn_idx;
        match self.location {
            Location::Data(key) => self.data_found(map.data().fetch_data(key, at), storage),
            Location::Member(key, tag) => match map.group_data().fetch_tagged_data(key, tag, at) {
                Ok((version, value)) => Ok(self.versioned(version, value, storage)),
                Err(error) => self.group_error(error),
            },
            Location::Size(key) => match map.group_data().get_group_size(key, at) {
                Ok(size) => Ok(Progress::Found(Descriptor::Size(size), Seen::Size(size))),
                Err(error) => self.group_error(error),
            },
        }
    }

    fn data_found(
        &mut self,
        found: Result<MVDataOutput, MVDataError>,
        storage: &Storage,
    ) -> Result<Progress, Failure> {
        match found {
            Ok(MVDataOutput::Versioned(version, value)) => {
                Ok(self.versioned(version, value, storage))
            }
            Ok(MVDataOutput::Resolved(number)) => {
                Ok(Progress::Found(Descriptor::Number(number), Seen::Number(number)))
            }
            Err(MVDataError::Dependency(blocking)) => Ok(Progress::Blocked(blocking)),
            // Over a base that is a deletion a failed merge is no failure: it needs the base too.
            Err(MVDataError::DeltaApplicationFailure) if self.base_set => {
                Ok(Progress::Found(Descriptor::DeltaFailure, Seen::DeltaFailure))
            }
            Err(MVDataError::Refused(refusal)) => Err(refused(|| self.name())(refusal)),
            Err(error) => self.wants_base(&error),
        }
    }

    fn group_error(&mut self, error: MVGroupError) -> Result<Progress, Failure> {
        match error {
            MVGroupError::Dependency(blocking) => Ok(Progress::Blocked(blocking)),
            MVGroupError::TagNotFound => Ok(Progress::Found(Descriptor::TagNotFound, Seen::Absent)),
            MVGroupError::Refused(refusal) => Err(refused(|| self.name())(refusal)),
            MVGroupError::Uninitialized => self.wants_base(&error),
        }
    }

    fn wants_base(&mut self, error: &dyn std::fmt::Debug) -> Result<Progress, Failure> {
        if self.base_set {
            let answer = format!("{error:?} though its base is set");
            return Err(Failure::Unexpected { request: self.name(), answer });
        }
        self.next = Request::SetBase;
        Ok(Progress::Again)
    }

    /// A raw base that has a layout is exchanged first, so that every reader sees it exchanged.
    fn versioned(
        &mut self,
        version: Version,
        value: ValueWithLayout,
        storage: &Storage,
    ) -> Progress {
        let raw = matches!(value, ValueWithLayout::RawFromStorage(_));
        if raw && stored(storage, self.location).1.is_some() {
            self.next = Request::Exchange;
            return Progress::Again;
        }
        let descriptor = match version {
            Ok((txn_idx, incarnation)) => Descriptor::Version(txn_idx, incarnation),
            Err(StorageVersion) => Descriptor::Storage,
        };
        Progress::Found(descriptor, Seen::value(*value.write_op(), value.layout()))
    }

    fn exchange(&self, map: &MVHashMap, storage: &Storage) -> Result<(), Failure> {
        let (value, layout) = stored(storage, self.location);
        let done = match self.location {
            Location::Data(key) => {
                map.data().set_base_value(key, ValueWithLayout::Exchanged(value, layout))
            }
            Location::Member(key, tag) => {
                map.group_data().update_tagged_base_value_with_layout(key, tag, value, layout)
            }
            Location::Size(_) => Ok(()),
        };
        done.map_err(refused(|| format!("to exchange the base of {:?}", self.location)))
    }

    fn name(&self) -> String {
        format!("the read of {:?} by transaction {}", self.location, self.txn_idx)
    }
}

/// What storage holds at a place that has a value there.
fn stored(storage: &Storage, location: Location) -> (WriteOp, Option<Layout>) {
    match location {
        Location::Data(key) => storage.value(key),
        Location::Member(key, tag) => storage.group(key)[&tag],
        Location::Size(_) => (WriteOp::deletion(0), None),
    }
}

/// Sets the base of a key, or of the whole group, from storage.
pub fn set_base(map: &MVHashMap, storage: &Storage, location: Location) -> Result<(), Failure> {
    let done = match location {
        Location::Data(key) => {
            let raw = ValueWithLayout::RawFromStorage(storage.value(key).0);
            map.data().set_base_value(key, raw)
        }
        Location::Member(key, _) | Location::Size(key) => {
            let members = storage.group(key).iter().map(|(tag, (value, _))| (*tag, *value));
            map.group_data().set_raw_base_values(key, members)
        }
    };
    done.map_err(refused(|| format!("to set the base of {location:?}")))
}
