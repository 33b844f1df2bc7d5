//! The crate's answers in 01's words, to compare them with the others'.

use proved_mvhashmap::{
    DeltaOp, GroupSize, Layout, MVDataError, MVDataOutput, MVGroupError, Materialized, Refusal,
    SignedU128, Tag, ValueWithLayout, Version, WriteOpKind,
};
use request::{
    value::{CREATION, DELETION, MODIFICATION},
    Delta, Response, Value,
};

pub struct Words(pub Vec<u32>);

impl Words {
    pub fn done(answer: Result<(), Refusal>) -> Words {
        accepted(answer);
        of(Response::Done)
    }

    pub fn outside(answer: Result<bool, Refusal>) -> Words {
        of(if accepted(answer) { Response::WroteOutside } else { Response::Done })
    }

    pub fn data(answer: Result<MVDataOutput, MVDataError>) -> Words {
        of(match answer {
            Ok(MVDataOutput::Versioned(version, value)) => versioned(version, &value),
            Ok(MVDataOutput::Resolved(number)) => Response::Resolved(number),
            Err(MVDataError::Unresolved(op)) => Response::Unresolved(delta(&op)),
            Err(MVDataError::Uninitialized) => Response::Uninitialized,
            Err(MVDataError::Dependency(index)) => Response::Dependency(index),
            Err(MVDataError::DeltaApplicationFailure) => Response::DeltaApplicationFailure,
            Err(MVDataError::Refused(refusal)) => refused(refusal),
        })
    }

    pub fn materialized(answer: Result<Materialized, Refusal>) -> Words {
        of(match accepted(answer) {
            Materialized::Resolved(number) => Response::Resolved(number),
            Materialized::Unresolved(op) => Response::Unresolved(delta(&op)),
        })
    }

    pub fn tagged(answer: Result<(Version, ValueWithLayout), MVGroupError>) -> Words {
        of(match answer {
            Ok((version, value)) => versioned(version, &value),
            Err(error) => group_error(error),
        })
    }

    pub fn size(answer: Result<GroupSize, MVGroupError>) -> Words {
        of(match answer {
            Ok(GroupSize { members, size }) => Response::Size { members, sum: size },
            Err(error) => group_error(error),
        })
    }

    pub fn committed(answer: Result<Vec<(Tag, ValueWithLayout)>, Refusal>) -> Words {
        let values = accepted(answer);
        of(Response::Committed(values.iter().map(|(tag, v)| (tag.get(), shown(v))).collect()))
    }
}

fn of(response: Response) -> Words {
    Words(response.words())
}

fn refused(refusal: Refusal) -> ! {
    panic!("refused: {refusal}")
}

fn accepted<T>(answer: Result<T, Refusal>) -> T {
    answer.unwrap_or_else(|refusal| refused(refusal))
}

fn group_error(error: MVGroupError) -> Response {
    match error {
        MVGroupError::Uninitialized => Response::Uninitialized,
        MVGroupError::TagNotFound => Response::TagNotFound,
        MVGroupError::Dependency(index) => Response::Dependency(index),
        MVGroupError::Refused(refusal) => refused(refusal),
    }
}

fn versioned(version: Version, value: &ValueWithLayout) -> Response {
    match version {
        Ok((index, incarnation)) => Response::Versioned { index, incarnation, value: shown(value) },
        Err(_) => Response::VersionedAtBase(shown(value)),
    }
}

fn shown(value: &ValueWithLayout) -> Value {
    let op = value.write_op();
    let kind = match op.kind {
        WriteOpKind::Creation => CREATION,
        WriteOpKind::Modification => MODIFICATION,
        WriteOpKind::Deletion => DELETION,
    };
    let bare = match value {
        ValueWithLayout::RawFromStorage(_) => Value::raw(kind, op.length),
        ValueWithLayout::Exchanged(..) => Value::exchanged(kind, op.length),
    };
    bare.layout(value.layout().map_or(0, Layout::get)).handle(op.handle).number(op.number)
}

fn delta(op: &DeltaOp) -> Delta {
    let make = match op.update {
        SignedU128::Positive(_) => Delta::plus,
        SignedU128::Negative(_) => Delta::minus,
    };
    let (SignedU128::Positive(size) | SignedU128::Negative(size)) = op.update;
    make(size, op.max_value, op.max_achieved_positive_delta, op.min_achieved_negative_delta)
}
