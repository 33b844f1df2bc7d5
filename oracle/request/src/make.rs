//! A constructor for each kind, with the fields in 01's order.

use crate::{Delta, Kind, Request, Tagged, Value};

impl Request {
    pub fn last_committed(key: u32) -> Request {
        Request::LastCommitted { key }
    }

    pub fn base(key: u32, value: Value) -> Request {
        Request::Base { key, value }
    }

    pub fn write(key: u32, index: u32, incarnation: u32, value: Value) -> Request {
        Request::Write { key, index, incarnation, value }
    }

    pub fn delta(key: u32, index: u32, delta: Delta) -> Request {
        Request::Delta { key, index, delta }
    }

    pub fn group_base(key: u32, values: &[(u8, Value)]) -> Request {
        let values: Tagged = values.to_vec();
        Request::GroupBase { key, values }
    }

    pub fn exchange(key: u32, tag: u32, value: Value) -> Request {
        Request::Exchange { key, tag, value }
    }

    pub fn group_write(key: u32, index: u32, incarnation: u32, values: &[(u8, Value)]) -> Request {
        Request::GroupWrite { key, index, incarnation, values: values.to_vec() }
    }

    pub fn group_fetch(key: u32, tag: u32, index: u32) -> Request {
        Request::GroupFetch { key, tag, index }
    }
}

macro_rules! at_an_index {
    ($($name:ident $kind:ident,)*) => {
        impl Request {
            $(pub fn $name(key: u32, index: u32) -> Request {
                Request::at(Kind::$kind, key, index)
            })*
        }
    };
}

at_an_index! {
    estimate Estimate,
    remove Remove,
    fetch Fetch,
    materialise Materialise,
    group_estimate GroupEstimate,
    group_remove GroupRemove,
    group_size GroupSize,
    finalise Finalise,
}
