//! One input, asked of both sides.

use crate::answers::{Answer, Place, Reply, Said, Text, Value, NAN_BITS};
use crate::cases::{Case, Encoding, Field};
use crate::library::{self, Owed};
use crate::original::{self, Stopped};
use crate::outside::{self, Difference};

pub enum Verdict {
    Equal,
    /// Outside the domain, and the library gives what is due there; the crate may or may not.
    Listed {
        difference: Difference,
        crate_too: bool,
    },
    /// Neither equal nor listed: why.
    Unlisted(String),
}

/// Due is what the crate says inside the domain, and outside it what the listed difference says.
pub fn judge(case: &Case, ours: &Owed<Answer>) -> Verdict {
    let theirs = original::answer(case);
    let (due, difference) = match outside::due(case) {
        Some((difference, answer)) => (Ok(Said::Answer(answer)), Some(difference)),
        None => (theirs.clone(), None),
    };
    if let Some(why) = contradiction(case, ours, &due) {
        return Verdict::Unlisted(why);
    }
    let crate_too = matches!((ours, &theirs), (Ok(ours), Ok(theirs)) if theirs.allows(ours));
    match difference {
        None => Verdict::Equal,
        Some(difference) => Verdict::Listed { difference, crate_too },
    }
}

fn contradiction(case: &Case, ours: &Owed<Answer>, due: &Result<Said, Stopped>) -> Option<String> {
    match (ours, due) {
        (Err(why), _) => Some(format!("the library gives {why}")),
        (Ok(ours), Err(stopped)) => Some(format!("the library gives {ours:x?}; the crate stops: {}", stopped.0)),
        (Ok(ours), Ok(due)) if !due.allows(ours) => Some(format!("the library gives {ours:x?}; due is {due:x?}")),
        (Ok(ours), _) => {
            wrong_text(case, ours).or_else(|| wrong_record(case, ours)).or_else(|| wrong_bounded(case, ours))
        }
    }
}

pub fn ask_library(case: &Case) -> Owed<Answer> {
    Ok(match case {
        Case::Type { code } => {
            Answer::Type { code: library::type_code(*code), default_bits: library::default_bits(*code) }
        }
        Case::HeaderRead { bytes } => Answer::Header(library::read_header(bytes)?),
        Case::HeaderWrite { header, room } => Answer::Written(library::write_header(header, *room)?),
        Case::ListRead { bytes } => Answer::List(library::read_list(bytes)?),
        Case::ListWriteEqual { room, next, length, links } => {
            Answer::Written(library::write_list_equal(*room, *next, links, *length)?)
        }
        Case::ListWriteVariable { room, next, links, offsets } => {
            Answer::Written(library::write_list_variable(*room, *next, links, offsets)?)
        }
        Case::ChannelRead { bytes } => Answer::Channel(library::read_channel(bytes)?),
        Case::ChannelWrite { block, room } => Answer::Written(library::write_channel(block, *room)?),
        Case::Value(field) => Answer::Value(library::decode_value(field)?),
        Case::Validity(field) => Answer::Validity(library::check_validity_unbounded(field)?),
        Case::Both(field) => Answer::Both(library::decode_valid_value_unbounded(field)?),
        Case::Double(field) => Answer::Double(library::decode_double(field)),
        Case::Text { encoding, bytes, room } => Answer::Text(library::text(*encoding, bytes, *room)?),
        Case::Carried { field, into } => Answer::Value(library::carried(field, into)?.map(|(value, _)| value)),
    })
}

/// A value that was written must come back: from the crate, and where that differs as it is due there. And the value that
/// stood there before, written again, must give the whole record back, since no other bit has changed.
fn wrong_record(case: &Case, answer: &Answer) -> Option<String> {
    let (Case::Carried { field, into }, Answer::Value(Ok(value))) = (case, answer) else {
        return None;
    };
    let (_, written) = library::carried(field, into).ok()?.ok()?;
    let (written, before) = (field.with_record(&written?), field.with_record(into));
    let read = outside::decoded(&written);
    if read != Some(Ok(*value)) {
        return Some(format!("{value:x?} is written as {:x?}; there stands {read:x?}", written.record));
    }
    match library::carried(&before, &written.record) {
        Ok(Ok((Value::Double(NAN_BITS), _))) if field.channel.bit_count == 32 => None, // any NaN is read as the one
        Ok(Ok((_, Some(back)))) if back == *into => None,
        other => Some(format!("the record was {into:x?}, and is then {other:x?}")),
    }
}

/// The calls in which the invalidation bytes have an end give the same answer, but for 28 and 29 where these are due.
fn wrong_bounded(case: &Case, answer: &Answer) -> Option<String> {
    match (case, answer) {
        (Case::Validity(field), Answer::Validity(is_valid)) => {
            unequal(library::check_validity(field), outside::bounded(field, *is_valid))
        }
        (Case::Both(field), Answer::Both(both)) => {
            unequal(library::decode_valid_value(field), both.and_then(|both| outside::bounded(field, both)))
        }
        _ => None,
    }
}

fn unequal<T: PartialEq + std::fmt::Debug>(given: Owed<Reply<T>>, due: Reply<T>) -> Option<String> {
    let due = Ok(due);
    (given != due).then(|| format!("with an end, the library gives {given:x?}; due is {due:x?}"))
}

/// A text is told by its place, so the string must come out of the bytes there.
fn wrong_text(case: &Case, answer: &Answer) -> Option<String> {
    let (Case::Value(field), Answer::Value(Ok(Value::Text(place)))) = (case, answer) else {
        return None;
    };
    let encoding = field.channel.encoding()?;
    let theirs = original::text_of(&field.without_places()).ok()??.into_bytes();
    match text_at(field, encoding, place, theirs.len()) {
        Ok(Some(ours)) if ours.utf8 == theirs => None,
        other => Some(format!("the text at {place:x?} is {other:x?}; the crate's is {theirs:x?}")),
    }
}

fn text_at(field: &Field, encoding: Encoding, place: &Place, room: usize) -> Owed<Option<Text>> {
    let end = place.at.checked_add(place.length).ok_or("a place past 2^64")?;
    let bytes = field.record.get(place.at as usize..end as usize).ok_or("a place outside the record")?;
    Ok(library::text(encoding, bytes, room)?.ok())
}
