//! The small types: refusals by number, tags, values without a map.

use proved_mvhashmap::*;
use std::collections::HashSet;
use std::error::Error;

#[test]
fn refusals_and_their_numbers() {
    assert_eq!(Refusal::from_number(0), None);
    assert_eq!(Refusal::from_number(15), None);
    assert_eq!(Refusal::from_number(u32::MAX), None);
    for (number, refusal) in (1..=14).zip(Refusal::ALL) {
        assert_eq!(refusal.number(), number);
        assert_eq!(Refusal::from_number(number), Some(refusal));
    }
    assert_eq!(Refusal::AnswerTooShort.number(), 1);
    assert_eq!(Refusal::NothingThere.number(), 6);
    assert_eq!(Refusal::UnitsExhausted.number(), 14);
}

/// The header for C names the same numbers and limits.
#[test]
fn the_header_agrees() {
    const HEADER: &str = include_str!("../../../crates/mvhashmap_c/mvhashmap.h");
    let says = |name: &str, number: usize| {
        let line = format!("MVHASHMAP_{name} = {number}");
        let lines = HEADER.lines().map(|line| line.trim().trim_end_matches(','));
        assert_eq!(lines.filter(|&found| found == line).count(), 1, "{line}");
    };
    says("ACCEPTED", 0);
    for refusal in Refusal::ALL {
        let name: String = format!("{refusal:?}")
            .char_indices()
            .flat_map(|(at, c)| [(at > 0 && c.is_uppercase()).then_some('_'), Some(c)])
            .flatten()
            .collect();
        says(&name.to_uppercase(), refusal.number() as usize);
    }
    says("UNIT_WORDS", UNIT_WORDS);
    says("MAX_UNITS", MAX_UNITS);
    says("ANSWER_WORDS", ANSWER_WORDS);
}

#[test]
fn each_refusal_has_a_text_of_its_own() {
    let texts: HashSet<String> = Refusal::ALL.iter().map(Refusal::to_string).collect();
    assert_eq!(texts.len(), 14);
    let error: Box<dyn Error> = Box::new(Refusal::UnitsExhausted);
    assert_eq!(error.to_string(), "the store has too few units");
}

#[test]
fn tags_are_below_64() {
    for n in 0..=u8::MAX {
        let tag = Tag::new(n);
        assert_eq!(tag.map(Tag::get), (n < 64).then_some(n));
        assert_eq!(Tag::try_from(n).ok(), tag);
    }
    assert_eq!(Tag::try_from(64).unwrap_err().to_string(), "a tag is 0 to 63, not 64");
}

#[test]
fn parts_of_a_value() {
    let layout = Layout::new(4);
    let empty = WriteOp::bytes(WriteOpKind::Creation, 0, 1);
    let raw = ValueWithLayout::RawFromStorage(empty);
    assert_eq!((raw.bytes_len(), raw.layout(), raw.write_op()), (Some(0), None, &empty));
    let gone = ValueWithLayout::Exchanged(WriteOp::deletion(1), layout);
    assert_eq!((gone.bytes_len(), gone.layout()), (None, layout));
    assert_eq!(gone.write_op_kind(), WriteOpKind::Deletion);
    assert_eq!(WriteOp::number(WriteOpKind::Creation, 7, 1).length, 16);
}

#[test]
fn a_map_shows_its_units() {
    let map = MVHashMap::with_units(3, MAX_UNITS);
    assert_eq!(format!("{map:?}"), "MVHashMap { data_units: 3, group_units: 4096, .. }");
}

#[test]
#[should_panic(expected = "a store has at most 4096 units, not 4097")]
fn a_store_has_a_most_of_units() {
    MVHashMap::with_units(1, MAX_UNITS + 1);
}
