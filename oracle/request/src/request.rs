use crate::{delta::Delta, head, head_count, reader::Reader, value, value::Tagged, Kind, Value};

/// A ticket of 01 whose count is right; its fields are any words.
#[derive(Clone, Debug, PartialEq, Eq)]
pub enum Request {
    LastCommitted {
        key: u32,
    },
    Base {
        key: u32,
        value: Value,
    },
    Write {
        key: u32,
        index: u32,
        incarnation: u32,
        value: Value,
    },
    Delta {
        key: u32,
        index: u32,
        delta: Delta,
    },
    GroupBase {
        key: u32,
        values: Tagged,
    },
    Exchange {
        key: u32,
        tag: u32,
        value: Value,
    },
    GroupWrite {
        key: u32,
        index: u32,
        incarnation: u32,
        values: Tagged,
    },
    GroupFetch {
        key: u32,
        tag: u32,
        index: u32,
    },
    /// The kinds whose fields are just a key and an index.
    At {
        kind: Kind,
        key: u32,
        index: u32,
    },
}

impl Request {
    pub fn at(kind: Kind, key: u32, index: u32) -> Request {
        Request::At { kind, key, index }
    }

    pub fn kind(&self) -> Kind {
        match self {
            Request::LastCommitted { .. } => Kind::LastCommitted,
            Request::Base { .. } => Kind::Base,
            Request::Write { .. } => Kind::Write,
            Request::Delta { .. } => Kind::Delta,
            Request::GroupBase { .. } => Kind::GroupBase,
            Request::Exchange { .. } => Kind::Exchange,
            Request::GroupWrite { .. } => Kind::GroupWrite,
            Request::GroupFetch { .. } => Kind::GroupFetch,
            Request::At { kind, .. } => *kind,
        }
    }

    /// `None` exactly where 2 applies: no word, or a count that is wrong for the words or for
    /// the kind.
    pub fn decode(words: &[u32]) -> Option<Request> {
        let (&first, rest) = words.split_first()?;
        let kind = Kind::of_head(first);
        if head_count(first) != rest.len() || kind.count(words) != Some(rest.len()) {
            return None;
        }
        let mut r = Reader::new(rest);
        let key = r.word();
        Some(match kind {
            Kind::LastCommitted => Request::LastCommitted { key },
            Kind::Base => Request::Base { key, value: r.value() },
            Kind::Write => {
                Request::Write { key, index: r.word(), incarnation: r.word(), value: r.value() }
            }
            Kind::Delta => Request::Delta { key, index: r.word(), delta: r.delta() },
            Kind::GroupBase => Request::GroupBase { key, values: r.tagged() },
            Kind::Exchange => Request::Exchange { key, tag: r.word(), value: r.value() },
            Kind::GroupWrite => Request::GroupWrite {
                key,
                index: r.word(),
                incarnation: r.word(),
                values: r.tagged(),
            },
            Kind::GroupFetch => Request::GroupFetch { key, tag: r.word(), index: r.word() },
            Kind::Estimate
            | Kind::Remove
            | Kind::Fetch
            | Kind::Materialise
            | Kind::GroupEstimate
            | Kind::GroupRemove
            | Kind::GroupSize
            | Kind::Finalise => Request::at(kind, key, r.word()),
        })
    }

    pub fn words(&self) -> Vec<u32> {
        let fields = self.fields();
        let mut words = vec![head(self.kind() as u32, fields.len())];
        words.extend(fields);
        words
    }

    fn fields(&self) -> Vec<u32> {
        match self {
            Request::LastCommitted { key } => vec![*key],
            Request::Base { key, value } => [&[*key], &value.words()[..]].concat(),
            Request::Write { key, index, incarnation, value } => {
                [&[*key, *index, *incarnation], &value.words()[..]].concat()
            }
            Request::Delta { key, index, delta } => {
                [&[*key, *index], delta.words().as_slice()].concat()
            }
            Request::GroupBase { key, values } => {
                [&[*key], value::set_words(values).as_slice()].concat()
            }
            Request::Exchange { key, tag, value } => {
                [&[*key, *tag], value.words().as_slice()].concat()
            }
            Request::GroupWrite { key, index, incarnation, values } => {
                let set = value::set_words(values);
                [&[*key, *index, *incarnation], set.as_slice()].concat()
            }
            Request::GroupFetch { key, tag, index } => vec![*key, *tag, *index],
            Request::At { key, index, .. } => vec![*key, *index],
        }
    }
}
