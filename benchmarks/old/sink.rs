//! Where the old product's answers go: into a checksum while the clock runs, into 01's words
//! when they are compared. The calls are the same code for both.

use crate::convert::{shown, shown_delta, Held};
use aptos_aggregator::delta_change_set::DeltaOp;
use aptos_vm_types::resolver::ResourceGroupSize;
use mvhashmap::types::{MVDataError, MVDataOutput, MVGroupError, ValueWithLayout, Version};
use request::{Response, Tagged};
use std::hint::black_box;

type Group = anyhow::Result<Vec<(u8, ValueWithLayout<Held>)>>;
type Tag = Result<(Version, ValueWithLayout<Held>), MVGroupError>;

pub trait Sink {
    /// A call that answers nothing.
    fn done(&mut self, call: impl FnOnce());
    fn outside(&mut self, answer: bool);
    fn data(&mut self, answer: Result<MVDataOutput<Held>, MVDataError>);
    fn materialised(&mut self, answer: Result<u128, DeltaOp>);
    fn tagged(&mut self, answer: Tag);
    fn size(&mut self, answer: Result<ResourceGroupSize, MVGroupError>);
    fn group(&mut self, answer: Group);
}

#[derive(Default)]
pub struct Checksum(pub u64);

impl Checksum {
    #[inline(always)]
    fn add(&mut self, part: u64) {
        self.0 = self.0.wrapping_add(part);
    }
}

/// `black_box` has the answer made whole; what it points to is not read, to the old's favour.
impl Sink for Checksum {
    #[inline(always)]
    fn done(&mut self, call: impl FnOnce()) {
        call();
        self.add(1);
    }

    #[inline(always)]
    fn outside(&mut self, answer: bool) {
        self.add(u64::from(black_box(answer)));
    }

    #[inline(always)]
    fn data(&mut self, answer: Result<MVDataOutput<Held>, MVDataError>) {
        self.add(u64::from(black_box(&answer).is_ok()));
    }

    #[inline(always)]
    fn materialised(&mut self, answer: Result<u128, DeltaOp>) {
        self.add(u64::from(black_box(&answer).is_ok()));
    }

    #[inline(always)]
    fn tagged(&mut self, answer: Tag) {
        self.add(u64::from(black_box(&answer).is_ok()));
    }

    #[inline(always)]
    fn size(&mut self, answer: Result<ResourceGroupSize, MVGroupError>) {
        self.add(u64::from(black_box(&answer).is_ok()));
    }

    #[inline(always)]
    fn group(&mut self, answer: Group) {
        self.add(u64::from(black_box(&answer).is_ok()));
    }
}

#[derive(Default)]
pub struct Words(pub Vec<Vec<u32>>);

impl Words {
    fn push(&mut self, response: Response) {
        self.0.push(response.words());
    }
}

impl Sink for Words {
    fn done(&mut self, call: impl FnOnce()) {
        call();
        self.push(Response::Done);
    }

    fn outside(&mut self, answer: bool) {
        self.push(if answer { Response::WroteOutside } else { Response::Done });
    }

    fn data(&mut self, answer: Result<MVDataOutput<Held>, MVDataError>) {
        self.push(match answer {
            Ok(MVDataOutput::Versioned(version, value)) => versioned(version, &value),
            Ok(MVDataOutput::Resolved(number)) => Response::Resolved(number),
            Err(MVDataError::Unresolved(op)) => Response::Unresolved(shown_delta(&op)),
            Err(MVDataError::Uninitialized) => Response::Uninitialized,
            Err(MVDataError::Dependency(index)) => Response::Dependency(index),
            Err(MVDataError::DeltaApplicationFailure) => Response::DeltaApplicationFailure,
        });
    }

    fn materialised(&mut self, answer: Result<u128, DeltaOp>) {
        self.push(match answer {
            Ok(number) => Response::Resolved(number),
            Err(op) => Response::Unresolved(shown_delta(&op)),
        });
    }

    fn tagged(&mut self, answer: Tag) {
        self.push(match answer {
            Ok((version, value)) => versioned(version, &value),
            Err(error) => group_error(error),
        });
    }

    fn size(&mut self, answer: Result<ResourceGroupSize, MVGroupError>) {
        self.push(match answer {
            Ok(size) => Response::Size { members: size.members, sum: size.sum },
            Err(error) => group_error(error),
        });
    }

    /// The old product lists a group in the order of a hash map, so the list is sorted.
    fn group(&mut self, answer: Group) {
        let list = answer.unwrap_or_else(|error| panic!("refused: {error:?}"));
        let mut values: Tagged = list.iter().map(|(tag, value)| (*tag, shown(value))).collect();
        values.sort_by_key(|(tag, _)| *tag);
        self.push(Response::Committed(values));
    }
}

fn versioned(version: Version, value: &ValueWithLayout<Held>) -> Response {
    match version {
        Ok((index, incarnation)) => Response::Versioned { index, incarnation, value: shown(value) },
        Err(_) => Response::VersionedAtBase(shown(value)),
    }
}

fn group_error(error: MVGroupError) -> Response {
    match error {
        MVGroupError::Uninitialized => Response::Uninitialized,
        MVGroupError::TagNotFound => Response::TagNotFound,
        MVGroupError::Dependency(index) => Response::Dependency(index),
        MVGroupError::TagSerializationError(_) => unreachable!("the stand-in never fails"),
    }
}
