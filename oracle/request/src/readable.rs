//! Tickets and lines as text, in the form of tools/requests: names of README.md, then fields.

use crate::{head_kind, line, response::NAMES, Delta, Kind, Request, Response, Value};
use std::fmt::{Display, Formatter, Result};

/// A ticket of any words; in hexadecimal where the text has no form for it.
pub fn ticket(words: &[u32]) -> String {
    match (Request::decode(words), words.first()) {
        (Some(request), _) if has_text(&request) => request.to_string(),
        (_, Some(&head)) => format!("{} # {}", line(words), Kind::of_head(head).name()),
        (_, None) => "# no word".to_string(),
    }
}

/// Neither a value of kind 3 nor a sign above 1 has a name.
fn has_text(request: &Request) -> bool {
    let named = |value: &Value| value.kind() < VALUE_KINDS.len() as u32;
    match request {
        Request::Base { value, .. } | Request::Write { value, .. } => named(value),
        Request::Exchange { value, .. } => named(value),
        Request::GroupBase { values, .. } | Request::GroupWrite { values, .. } => {
            values.iter().all(|(_, value)| named(value))
        }
        Request::Delta { delta, .. } => delta.sign <= 1,
        Request::LastCommitted { .. } | Request::GroupFetch { .. } | Request::At { .. } => true,
    }
}

const VALUE_KINDS: [&str; 3] = ["creation", "modification", "deletion"];

/// A line of the history program, with the answer's name before its words.
pub fn answer(line: &str) -> String {
    let head = line.split(' ').next().and_then(|digits| u32::from_str_radix(digits, 16).ok());
    let name = head.and_then(|head| NAMES.get(head_kind(head) as usize));
    match name {
        Some(name) => format!("{line}  ({name})"),
        None => line.to_string(),
    }
}

impl Display for Request {
    fn fmt(&self, f: &mut Formatter<'_>) -> Result {
        let name = self.kind().name();
        match self {
            Request::LastCommitted { key } => write!(f, "{name} key={key}"),
            Request::Base { key, value } => write!(f, "{name} key={key} {value}"),
            Request::Write { key, index, incarnation, value } => {
                write!(f, "{name} key={key} index={index} incarnation={incarnation} {value}")
            }
            Request::Delta { key, index, delta } => {
                write!(f, "{name} key={key} index={index} {delta}")
            }
            Request::GroupBase { key, values } => {
                write!(f, "{name} key={key} ")?;
                tagged(f, values)
            }
            Request::Exchange { key, tag, value } => {
                write!(f, "{name} key={key} tag={tag} {value}")
            }
            Request::GroupWrite { key, index, incarnation, values } => {
                write!(f, "{name} key={key} index={index} incarnation={incarnation} ")?;
                tagged(f, values)
            }
            Request::GroupFetch { key, tag, index } => {
                write!(f, "{name} key={key} tag={tag} index={index}")
            }
            Request::At { key, index, .. } => write!(f, "{name} key={key} index={index}"),
        }
    }
}

impl Display for Response {
    fn fmt(&self, f: &mut Formatter<'_>) -> Result {
        let name = NAMES[head_kind(self.words()[0]) as usize];
        match self {
            Response::Versioned { index, incarnation, value } => {
                write!(f, "{name} index={index} incarnation={incarnation} {value}")
            }
            Response::VersionedAtBase(value) => write!(f, "{name} {value}"),
            Response::Resolved(number) => write!(f, "{name} number={number}"),
            Response::Unresolved(delta) => write!(f, "{name} {delta}"),
            Response::Dependency(index) => write!(f, "{name} index={index}"),
            Response::Size { members, sum } => write!(f, "{name} members={members} sum={sum}"),
            Response::Committed(values) => {
                write!(f, "{name} ")?;
                tagged(f, values)
            }
            _ => write!(f, "{name}"),
        }
    }
}

fn tagged(f: &mut Formatter<'_>, values: &[(u8, Value)]) -> Result {
    if values.is_empty() {
        return write!(f, "empty");
    }
    for (n, (tag, value)) in values.iter().enumerate() {
        let separator = if n == 0 { "" } else { " " };
        write!(f, "{separator}tag={tag} {value}")?;
    }
    Ok(())
}

impl Display for Value {
    fn fmt(&self, f: &mut Formatter<'_>) -> Result {
        let mark = if self.is_exchanged() { "exchanged" } else { "raw" };
        let kind = VALUE_KINDS.get(self.kind() as usize).unwrap_or(&"kind 3");
        write!(f, "{mark} {kind} length={}", self.length())?;
        for (name, word) in [("layout", self.layout), ("handle", self.handle)] {
            if word != 0 {
                write!(f, " {name}={word}")?;
            }
        }
        if self.number != 0 || self.length() == 16 {
            write!(f, " number={}", self.number)?;
        }
        Ok(())
    }
}

impl Display for Delta {
    fn fmt(&self, f: &mut Formatter<'_>) -> Result {
        let (limit, high, low) = (self.limit, self.highest, self.lowest);
        write!(f, "limit={limit} high={high} low={low} update=")?;
        match self.sign {
            0 => write!(f, "+")?,
            1 => write!(f, "-")?,
            sign => write!(f, "sign {sign} ")?,
        }
        write!(f, "{}", self.update)
    }
}
