//! The old product's two maps and the call of its public function for each request, bare: no
//! rule of 01 is put around it.

use crate::{
    convert::{delta_op, held, layout, shown, shown_delta, with_layout, Held},
    panics,
};
use mvhashmap::{
    types::{MVDataError, MVDataOutput, MVGroupError, ValueWithLayout, Version},
    versioned_data::VersionedData,
    versioned_group_data::VersionedGroupData,
};
use request::{Kind, Request, Response, Tagged};

pub struct Maps {
    data: VersionedData<u32, Held>,
    groups: VersionedGroupData<u32, u8, Held>,
}

impl Default for Maps {
    fn default() -> Self {
        Self { data: mvhashmap::new_data(), groups: mvhashmap::new_group_data() }
    }
}

impl Maps {
    /// The answer, or the message of the panic or of the error.
    pub fn call(&self, request: &Request) -> Result<Response, String> {
        panics::catch(|| self.dispatch(request)).and_then(|result| result)
    }

    fn dispatch(&self, request: &Request) -> Result<Response, String> {
        match request {
            Request::LastCommitted { key } => committed(self.groups.get_last_committed_group(key)),
            Request::Base { .. } | Request::Write { .. } | Request::Delta { .. } => {
                self.edit_data(request);
                Ok(Response::Done)
            }
            Request::GroupBase { .. } | Request::Exchange { .. } | Request::GroupWrite { .. } => {
                Ok(self.edit_group(request))
            }
            Request::GroupFetch { key, tag, index } => {
                Ok(match self.groups.fetch_tagged_data(key, &small(*tag), *index) {
                    Ok((version, value)) => versioned(version, &value),
                    Err(error) => group_error(error),
                })
            }
            Request::At { kind, key, index } => self.dispatch_at(*kind, *key, *index),
        }
    }

    fn edit_data(&self, request: &Request) {
        match request {
            Request::Base { key, value } => self.data.set_base_value(*key, with_layout(value)),
            Request::Write { key, index, incarnation, value } => {
                self.data.write(*key, *index, *incarnation, (held(value), layout(value)));
            }
            Request::Delta { key, index, delta } => {
                self.data.add_delta(*key, *index, delta_op(delta));
            }
            other => unreachable!("{other:?} does not edit data"),
        }
    }

    fn edit_group(&self, request: &Request) -> Response {
        let outside = match request {
            Request::GroupBase { key, values } => {
                let values = values.iter().map(|(tag, value)| (*tag, held(value)));
                self.groups.set_raw_base_values(*key, values);
                false
            }
            Request::Exchange { key, tag, value } => {
                let (tag, new, layout) = (small(*tag), held(value), layout(value));
                self.groups.update_tagged_base_value_with_layout(*key, tag, new, layout);
                false
            }
            Request::GroupWrite { key, index, incarnation, values } => {
                let parts = |value| (held(value), layout(value));
                let values = values.iter().map(|(tag, value)| (*tag, parts(value)));
                self.groups.write(*key, *index, *incarnation, values)
            }
            other => unreachable!("{other:?} does not edit a group"),
        };
        if outside {
            Response::WroteOutside
        } else {
            Response::Done
        }
    }

    fn dispatch_at(&self, kind: Kind, key: u32, index: u32) -> Result<Response, String> {
        Ok(match kind {
            Kind::Estimate => {
                self.data.mark_estimate(&key, index);
                Response::Done
            }
            Kind::Remove => {
                self.data.remove(&key, index);
                Response::Done
            }
            Kind::Fetch => match self.data.fetch_data(&key, index) {
                Ok(MVDataOutput::Versioned(version, value)) => versioned(version, &value),
                Ok(MVDataOutput::Resolved(number)) => Response::Resolved(number),
                Err(MVDataError::Unresolved(op)) => Response::Unresolved(shown_delta(&op)),
                Err(MVDataError::Uninitialized) => Response::Uninitialized,
                Err(MVDataError::Dependency(index)) => Response::Dependency(index),
                Err(MVDataError::DeltaApplicationFailure) => Response::DeltaApplicationFailure,
            },
            Kind::Materialise => match self.data.materialize_delta(&key, index) {
                Ok(number) => Response::Resolved(number),
                Err(op) => Response::Unresolved(shown_delta(&op)),
            },
            Kind::GroupEstimate => {
                self.groups.mark_estimate(&key, index);
                Response::Done
            }
            Kind::GroupRemove => {
                self.groups.remove(&key, index);
                Response::Done
            }
            Kind::GroupSize => match self.groups.get_group_size(&key, index) {
                Ok(size) => Response::Size { members: size.members, sum: size.sum },
                Err(error) => group_error(error),
            },
            Kind::Finalise => committed(self.groups.finalize_group(&key, index))?,
            other => unreachable!("{other:?} has more fields than a key and an index"),
        })
    }
}

/// A tag that was checked.
fn small(tag: u32) -> u8 {
    u8::try_from(tag).expect("a tag is at most 63")
}

fn versioned(version: Version, value: &ValueWithLayout<Held>) -> Response {
    match version {
        Ok((index, incarnation)) => Response::Versioned { index, incarnation, value: shown(value) },
        Err(_) => Response::VersionedAtBase(shown(value)),
    }
}

fn group_error(error: MVGroupError) -> Response {
    match error {
        MVGroupError::Uninitialized => Response::Uninitialized,
        MVGroupError::TagNotFound => Response::TagNotFound,
        MVGroupError::Dependency(index) => Response::Dependency(index),
        MVGroupError::TagSerializationError(_) => unreachable!("the stand-in never fails"),
    }
}

/// The old product lists a group in the order of a hash map, so the list is sorted.
fn committed(list: anyhow::Result<Vec<(u8, ValueWithLayout<Held>)>>) -> Result<Response, String> {
    let list = list.map_err(|error| format!("{error:?}"))?;
    let mut values: Tagged = list.iter().map(|(tag, v)| (*tag, shown(v))).collect();
    values.sort_by_key(|(tag, _)| *tag);
    Ok(Response::Committed(values))
}
