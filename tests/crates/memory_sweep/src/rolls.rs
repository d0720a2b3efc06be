//! Numbers, messages and rolls.

use crate::said::Said;
use item_roll::{Roll, RollFault};
use neg_codec::{Bound, CodecFault, Id, Item, Key, Message, Payload, Range, decode, encode};
use neg_varint::put;
use std::alloc::Global;

/// The names of the calls.
pub const NAMES: &[&str] = &[
    "put",
    "decode",
    "encode",
    "from_items",
    "from_vec",
    "insert",
    "ids",
    "split listed",
    "split printed",
    "share",
];

/// What the call of that name came to.
pub fn said_of(alloc: Global, name: &str) -> Option<Said> {
    match name {
        "put" => put_number(alloc),
        "decode" => decode_message(alloc),
        "encode" => encode_message(alloc),
        "from_items" => from_items(alloc),
        "from_vec" => from_vec(alloc),
        "insert" => insert(alloc),
        "ids" => ids(alloc),
        "split listed" => split(alloc, 31),
        "split printed" => split(alloc, 33),
        "share" => share(alloc),
        _ => None,
    }
}

/// The id 01..01 below the time 5, and the fingerprint 77..77 of the rest.
const MESSAGE: &[u8] =
    b"\x61\x06\x00\x02\x01\x01\x01\x01\x01\x01\x01\x01\x01\x01\x01\x01\x01\x01\x01\x01\x01\x01\x01\x01\x01\x01\x01\x01\x01\x01\x01\x01\x01\x01\x01\x01\x01\x00\x00\x01\x77\x77\x77\x77\x77\x77\x77\x77\x77\x77\x77\x77\x77\x77\x77\x77";

fn put_number(alloc: Global) -> Option<Said> {
    let mut out = Vec::with_capacity(alloc, 1).ok()?;
    out.push(0x61).ok()?;
    match put(&mut out, u64::MAX) {
        Ok(()) => Said::ample(
            out.as_slice() == b"\x61\x81\xff\xff\xff\xff\xff\xff\xff\xff\x7f".as_slice(),
        ),
        Err(_) => Said::memory(out.as_slice() == b"\x61".as_slice()),
    }
}

/// The ranges of the message.
fn ranges(alloc: Global) -> Option<Vec<Range>> {
    let mut ids = Vec::new(alloc);
    ids.push(Id([1; 32])).ok()?;
    let mut ranges = Vec::new(alloc);
    ranges
        .push(Range {
            upper: Bound::At(Key::new(5, Id([0; 32]))),
            payload: Payload::Ids(ids),
        })
        .ok()?;
    ranges
        .push(Range {
            upper: Bound::Infinite,
            payload: Payload::Print([0x77; 16]),
        })
        .ok()?;
    Some(ranges)
}

/// Whether the ranges are these.
fn are_those(ranges: &[Range], want: &[Range]) -> bool {
    for k in 0..want.len() {
        if k >= ranges.len() || ranges[k].upper != want[k].upper || ranges[k].payload != want[k].payload {
            return false;
        }
    }
    ranges.len() == want.len()
}

fn decode_message(alloc: Global) -> Option<Said> {
    let want = ranges(alloc)?;
    match decode(alloc, MESSAGE) {
        Ok(message) => Said::ample(are_those(message.ranges(), &want)),
        Err(CodecFault::Memory) => Said::memory(true),
        Err(_) => Said::wrong(),
    }
}

fn encode_message(alloc: Global) -> Option<Said> {
    let message = Message::of(ranges(alloc)?).ok()?;
    match encode(alloc, &message) {
        Ok(bytes) => Said::ample(bytes.as_slice() == MESSAGE),
        Err(_) => Said::memory(true),
    }
}

/// The item at a time, its id the time 32 times.
pub fn item(time: u8) -> Item {
    Item {
        time: u64::from(time),
        id: Id([time; 32]),
    }
}

/// Items at the times from one on below another.
pub fn line(alloc: Global, from: u8, to: u8) -> Option<Vec<Item>> {
    let mut items = Vec::new(alloc);
    for time in from..to {
        items.push(item(time)).ok()?;
    }
    Some(items)
}

/// Whether a roll has these items.
pub fn has_items(roll: &Roll, items: &[Item]) -> bool {
    if roll.len() != items.len() {
        return false;
    }
    for (at, item) in items.iter().enumerate() {
        if at >= roll.len() || roll.get(at) != *item {
            return false;
        }
    }
    true
}

fn from_items(alloc: Global) -> Option<Said> {
    let items = line(alloc, 0, 3)?;
    match Roll::from_items(alloc, &[item(2), item(0), item(1)]) {
        Ok(roll) => Said::ample(has_items(&roll, &items)),
        Err(RollFault::Memory) => Said::memory(true),
        Err(_) => Said::wrong(),
    }
}

fn from_vec(alloc: Global) -> Option<Said> {
    let items = line(alloc, 0, 3)?;
    let mut given = Vec::new(alloc);
    for time in [2, 0, 1] {
        given.push(item(time)).ok()?;
    }
    match Roll::from_vec(alloc, given) {
        Ok(roll) => Said::ample(has_items(&roll, &items)),
        Err(RollFault::Memory) => Said::memory(true),
        Err(_) => Said::wrong(),
    }
}

/// An item at a time, whose id ends with the time's bytes.
pub fn timed(time: u64) -> Item {
    let mut id = [0xe7; 32];
    id[24..].copy_from_slice(&time.to_le_bytes());
    Item { time, id: Id(id) }
}

/// 512 items at even times, and the one at time 301 if it is to be there.
fn evens(alloc: Global, has_odd: bool) -> Option<Vec<Item>> {
    let mut items = Vec::new(alloc);
    for half in 0..512 {
        items.push(timed(2 * half)).ok()?;
        if has_odd && half == 150 {
            items.push(timed(301)).ok()?;
        }
    }
    Some(items)
}

/// Inserts into a roll whose chunks are full and shared.
fn insert(alloc: Global) -> Option<Said> {
    let (before, after) = (evens(alloc, false)?, evens(alloc, true)?);
    let mut roll = Roll::from_items(alloc, &before).ok()?;
    let share = roll.share(alloc).ok()?;
    let result = roll.insert(timed(301));
    let is_share_kept = has_items(&share, &before);
    match result {
        Ok(()) => Said::ample(is_share_kept && has_items(&roll, &after)),
        Err(RollFault::Memory) => Said::memory(is_share_kept && has_items(&roll, &before)),
        Err(_) => Said::wrong(),
    }
}

fn ids(alloc: Global) -> Option<Said> {
    let roll = Roll::from_items(alloc, &line(alloc, 0, 31)?).ok()?;
    if roll.len() != 31 {
        return None;
    }
    match roll.ids(alloc, 3, 5) {
        Ok(ids) => Said::ample(ids.as_slice() == [Id([3; 32]), Id([4; 32])].as_slice()),
        Err(_) => Said::memory(true),
    }
}

/// Splits a roll of so many items: up to 31 are listed, more are told by 16 fingerprints.
fn split(alloc: Global, count: u8) -> Option<Said> {
    let roll = Roll::from_items(alloc, &line(alloc, 0, count)?).ok()?;
    let hi = roll.find(&Bound::Infinite);
    match roll.split(alloc, 0, hi, &Bound::Infinite) {
        Ok(ranges) => Said::ample(ranges.len() == if count < 32 { 1 } else { 16 }),
        Err(_) => Said::memory(true),
    }
}

fn share(alloc: Global) -> Option<Said> {
    let items = line(alloc, 0, 31)?;
    let roll = Roll::from_items(alloc, &items).ok()?;
    match roll.share(alloc) {
        Ok(share) => Said::ample(has_items(&share, &items)),
        Err(_) => Said::memory(has_items(&roll, &items)),
    }
}
