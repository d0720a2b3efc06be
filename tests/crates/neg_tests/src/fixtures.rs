//! Items, rolls, bounds and messages that several modules use.

use item_roll::{Roll, RollFault};
use neg_codec::{Bound, Id, Item, Key, Payload, Range};
use neg_initiator::Outcome;
use std::alloc::{AllocError, Global};
use std::collections::BTreeSet;

/// Asks for all ids, and lists none.
pub const ASK_ALL: &[u8] = b"\x61\x00\x00\x02\x00";
/// Skips what is below the time 5, and lists no id of the rest.
pub const ASKS_THE_REST: &[u8] = b"\x61\x06\x00\x00\x00\x00\x02\x00";
/// Lists the ids aa..aa and bb..bb.
pub const ASKS_AA_BB: &[u8] =
    b"\x61\x00\x00\x02\x02\xaa\xaa\xaa\xaa\xaa\xaa\xaa\xaa\xaa\xaa\xaa\xaa\xaa\xaa\xaa\xaa\xaa\xaa\xaa\xaa\xaa\xaa\xaa\xaa\xaa\xaa\xaa\xaa\xaa\xaa\xaa\xaa\xbb\xbb\xbb\xbb\xbb\xbb\xbb\xbb\xbb\xbb\xbb\xbb\xbb\xbb\xbb\xbb\xbb\xbb\xbb\xbb\xbb\xbb\xbb\xbb\xbb\xbb\xbb\xbb\xbb\xbb\xbb\xbb";
/// Lists the id 01..01: 37 bytes.
pub const LISTS_ONE: &[u8] =
    b"\x61\x00\x00\x02\x01\x01\x01\x01\x01\x01\x01\x01\x01\x01\x01\x01\x01\x01\x01\x01\x01\x01\x01\x01\x01\x01\x01\x01\x01\x01\x01\x01\x01\x01\x01\x01\x01";
/// Lists the id 01..01 below the time 5, and the fingerprint 77..77 of the rest.
pub const LISTS_AND_PRINTS: &[u8] =
    b"\x61\x06\x00\x02\x01\x01\x01\x01\x01\x01\x01\x01\x01\x01\x01\x01\x01\x01\x01\x01\x01\x01\x01\x01\x01\x01\x01\x01\x01\x01\x01\x01\x01\x01\x01\x01\x01\x00\x00\x01\x77\x77\x77\x77\x77\x77\x77\x77\x77\x77\x77\x77\x77\x77\x77\x77";

/// The bound at a time and an id that begins with these bytes and goes on with zeros.
pub fn at(time: u32, front: [u8; 3]) -> Bound {
    let mut id = [0; 32];
    id[..3].copy_from_slice(&front);
    Bound::At(Key::new(u64::from(time), Id(id)))
}

/// An item at a time, its id one byte 32 times.
pub fn item(time: u64, byte: u8) -> Item {
    Item {
        time,
        id: Id([byte; 32]),
    }
}

/// An item at a time, its id one byte 31 times and a last byte.
pub fn item_ending(time: u64, byte: u8, last: u8) -> Item {
    let mut id = [byte; 32];
    id[31] = last;
    Item { time, id: Id(id) }
}

fn numbered(alloc: Global, count: u8) -> Result<Vec<Item>, AllocError> {
    let mut items = Vec::new(alloc);
    for byte in 0..count {
        items.push(item(u64::from(byte), byte))?;
    }
    Ok(items)
}

/// The items of a roll.
#[derive(Clone, Copy)]
pub enum Mine {
    /// So many numbered items.
    Line(u8),
    /// Items by their times, the byte that their ids have 31 times, and the last byte of these.
    Items(&'static [(u64, u8, u8)]),
}

fn items_of(alloc: Global, mine: Mine) -> Result<Vec<Item>, AllocError> {
    let items = match mine {
        Mine::Line(count) => return numbered(alloc, count),
        Mine::Items(items) => items,
    };
    let mut all = Vec::new(alloc);
    for (time, byte, last) in items {
        all.push(item_ending(*time, *byte, *last))?;
    }
    Ok(all)
}

/// The roll of these items.
pub fn roll_of(alloc: Global, mine: Mine) -> Result<Roll, RollFault> {
    Roll::from_items(alloc, &items_of(alloc, mine)?)
}

/// So many items: at each time from 0 on one, whose id is that byte 32 times.
pub fn line(alloc: Global, count: u8) -> Result<Roll, RollFault> {
    roll_of(alloc, Mine::Line(count))
}

fn many_items(alloc: Global) -> Result<Vec<Item>, AllocError> {
    let mut items = Vec::new(alloc);
    for time in 0..400 {
        let mut id = [7; 32];
        id[0] = (time % 256) as u8;
        id[1] = (time / 256) as u8;
        items.push(Item { time, id: Id(id) })?;
    }
    Ok(items)
}

/// 400 items of distinct ids at the times from 0 on.
pub fn many(alloc: Global) -> Result<Roll, RollFault> {
    Roll::from_items(alloc, &many_items(alloc)?)
}

/// What a range says.
#[derive(Clone, Copy)]
pub enum Told<'a> {
    Skip,
    Print(&'a [u8; 16]),
    /// The ids that are one of these bytes 32 times.
    Ids(&'a [u8]),
}

fn is_list(ids: &[Id], bytes: &[u8]) -> bool {
    for (id, byte) in ids.iter().zip(bytes) {
        if *id != Id([*byte; 32]) {
            return false;
        }
    }
    ids.len() == bytes.len()
}

fn says(payload: &Payload, told: Told) -> bool {
    match (payload, told) {
        (Payload::Skip, Told::Skip) => true,
        (Payload::Print(print), Told::Print(want)) => *print == *want,
        (Payload::Ids(ids), Told::Ids(bytes)) => is_list(ids, bytes),
        _ => false,
    }
}

/// Whether the ranges say just this, each up to a bound.
pub fn are_told(ranges: &[Range], told: &[(Bound, Told)]) -> bool {
    for (range, (upper, told)) in ranges.iter().zip(told) {
        if range.upper != *upper || !says(&range.payload, *told) {
            return false;
        }
    }
    ranges.len() == told.len()
}

/// Whether the ranges are sixteen fingerprints, each up to a time, and the last up to infinity.
pub fn are_prints(ranges: &[Range], times: &[u32; 15], prints: &[&[u8; 16]; 16]) -> bool {
    for (k, (range, print)) in ranges.iter().zip(prints).enumerate() {
        let upper = match times.get(k) {
            Some(time) => at(*time, [0; 3]),
            None => Bound::Infinite,
        };
        if range.upper != upper || range.payload != Payload::Print(**print) {
            return false;
        }
    }
    ranges.len() == prints.len()
}

/// What a session finds: ids of one byte 32 times each, and how many stretches it trusts.
#[derive(Clone, Copy)]
pub struct Found<'a> {
    pub need: &'a [u8],
    pub have: &'a [u8],
    pub trusted: usize,
}

fn is_set(set: &BTreeSet<Id>, ids: &[u8]) -> bool {
    for byte in ids {
        if !set.contains(&Id([*byte; 32])) {
            return false;
        }
    }
    set.len() == ids.len()
}

pub fn is_found(outcome: &Outcome, found: Found) -> bool {
    is_set(&outcome.need, found.need)
        && is_set(&outcome.have, found.have)
        && outcome.trusted.len() == found.trusted
}
