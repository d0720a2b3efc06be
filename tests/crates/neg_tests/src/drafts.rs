ghost use Rattle.std.specs.Prelude.{◌≤◌};

use super::fixtures::{Told, are_prints, are_told, at, line, many};
use item_roll::Roll;
use neg_codec::{Bound, Message, Payload, Range, encode};
use neg_draft::Draft;
use std::alloc::{AllocError, Global};
use std::test::*;

/// How a stretch is told.
#[derive(Clone, Copy)]
enum Part {
    Skip,
    Ids,
    Split,
}

/// The time that stands for infinity.
const END: u32 = u32::MAX;

/// The bound at a time and an id of zeros, or infinity.
fn upto(time: u32) -> Bound {
    if time == END {
        Bound::Infinite
    } else {
        at(time, [0; 3])
    }
}

/// The draft with one more part, which is to be ahead.
fn with_part(
    alloc: Global,
    draft: Draft,
    roll: &Roll,
    part: Part,
    upper: Bound,
) -> Result<Option<Draft>, AllocError> {
    if !draft.end().is_below(&upper) {
        return Ok(None);
    }
    match part {
        Part::Skip => Ok(Some(draft.skip(upper))),
        Part::Ids => Ok(Some(draft.tell_ids(alloc, roll, upper)?)),
        Part::Split => Ok(Some(draft.tell_split(alloc, roll, upper)?)),
    }
}

/// The message of these parts, each up to a time, with the time where the draft ends then. None where it ends elsewhere, or
/// where a part isn't ahead.
fn message_of(
    alloc: Global,
    roll: &Roll,
    limit: usize,
    parts: &[(Part, u32, u32)],
) -> Result<Option<Message>, AllocError>
    requires { 4096 ≤ limit }
{
    let mut draft = Draft::new(alloc, limit);
    if draft.end() != Bound::lowest() {
        return Ok(None);
    }
    for (part, upper, end) in parts {
        let Some(next) = with_part(alloc, draft, roll, *part, upto(*upper))? else {
            return Ok(None);
        };
        if next.end() != upto(*end) {
            return Ok(None);
        }
        draft = next;
    }
    Ok(Some(draft.into_message()))
}

/// Whether the message of these parts, of at most 60,000 bytes, says just this.
fn tells(
    alloc: Global,
    roll: &Roll,
    parts: &[(Part, u32, u32)],
    expected: &[(Bound, Told)],
) -> bool {
    match message_of(alloc, roll, 60_000, parts) {
        Ok(Some(message)) => are_told(message.ranges(), expected),
        _ => false,
    }
}

/// Whether a message is written from front to back, where what is skipped at its end isn't.
fn writes_forward(alloc: Global, roll: &Roll) -> bool {
    let parts = [
        (Part::Skip, 3, 3),
        (Part::Skip, 5, 5),
        (Part::Ids, 7, 7),
        (Part::Skip, 10, 10),
        (Part::Split, 12, 12),
        (Part::Skip, 20, 20),
    ];
    let expected = [
        (upto(5), Told::Skip),
        (upto(7), Told::Ids(&[5, 6])),
        (upto(10), Told::Skip),
        (upto(12), Told::Ids(&[10, 11])),
    ];
    tells(alloc, roll, &parts, &expected) && tells(alloc, roll, &[(Part::Skip, END, END)], &[])
}

/// What a range of a message that is cut says: of ids how many.
#[derive(Clone, Copy)]
enum Claim {
    Skip,
    Print,
    Ids(usize),
}

fn says(payload: &Payload, claim: Claim) -> bool {
    match (payload, claim) {
        (Payload::Skip, Claim::Skip) => true,
        (Payload::Print(_), Claim::Print) => true,
        (Payload::Ids(list), Claim::Ids(count)) => list.len() == count,
        _ => false,
    }
}

fn are_claimed(ranges: &[Range], claims: &[(u32, Claim)]) -> bool {
    for (range, (upper, claim)) in ranges.iter().zip(claims) {
        if range.upper != upto(*upper) || !says(&range.payload, *claim) {
            return false;
        }
    }
    ranges.len() == claims.len()
}

fn is_short(alloc: Global, message: &Message) -> bool {
    match encode(alloc, message) {
        Ok(bytes) => bytes.len() <= 4096,
        Err(_) => false,
    }
}

/// Whether the message of these parts, of at most 4,096 bytes, claims just this.
fn claims(
    alloc: Global,
    roll: &Roll,
    parts: &[(Part, u32, u32)],
    expected: &[(u32, Claim)],
) -> bool {
    match message_of(alloc, roll, 4096, parts) {
        Ok(Some(message)) => are_claimed(message.ranges(), expected) && is_short(alloc, &message),
        _ => false,
    }
}

/// What is skipped and told, and the ranges then.
static CUT: [(&[(Part, u32, u32)], &[(u32, Claim)]); 5] = [
    // 124 ids fit, and 122 behind a Skip
    (
        &[(Part::Ids, 400, END)],
        &[(124, Claim::Ids(124)), (END, Claim::Print)],
    ),
    (
        &[(Part::Skip, 124, 124), (Part::Ids, 400, END)],
        &[
            (124, Claim::Skip),
            (246, Claim::Ids(122)),
            (END, Claim::Print),
        ],
    ),
    // just as many as fit
    (&[(Part::Ids, 124, 124)], &[(124, Claim::Ids(124))]),
    (
        &[(Part::Ids, 125, END)],
        &[(124, Claim::Ids(124)), (END, Claim::Print)],
    ),
    (
        &[(Part::Skip, 368, 368), (Part::Ids, 400, 400)],
        &[(368, Claim::Skip), (400, Claim::Ids(32))],
    ),
];

/// Whether the split of the whole is sixteen fingerprints, each up to a time, and the last up to infinity.
fn tells_prints(alloc: Global, roll: &Roll, times: &[u32; 15], prints: &[&[u8; 16]; 16]) -> bool {
    let parts = [(Part::Split, END, END)];
    match message_of(alloc, roll, 60_000, &parts) {
        Ok(Some(message)) => are_prints(message.ranges(), times, prints),
        _ => false,
    }
}

/// Whether 40 items are told by sixteen fingerprints.
fn tells_sixteen(alloc: Global, roll: &Roll) -> bool {
    let times = [3, 6, 9, 12, 15, 18, 21, 24, 26, 28, 30, 32, 34, 36, 38];
    let prints = [
        b"\xc2\x05\x5e\x4b\x53\x3b\x89\x74\x50\xa2\xf7\xab\xc1\x4a\x36\x88",
        b"\x68\x6a\xed\xff\x2f\x9c\x44\x03\xc9\x5d\xf6\x63\xa2\xe7\xf9\x4d",
        b"\x78\x51\x00\x8d\xe1\xc1\x11\x11\x47\xa0\xcf\xfd\x55\x42\xd5\xee",
        b"\x21\xc4\x7e\x33\x89\xdd\x7e\x42\xed\x5f\x99\x90\xec\x98\x78\x97",
        b"\xbe\x94\xa0\x5e\x5a\x68\x3c\x00\xbb\xb0\x0a\xc3\xbb\x44\x35\xdc",
        b"\x4b\x71\x5d\x05\x7b\x6f\x72\x48\x6a\x25\x21\x02\x17\x28\x53\xb1",
        b"\x1b\xc6\x9c\x0b\x9f\xe0\x40\xf1\x1e\x81\x4e\xcf\x7d\xde\xd6\xd4",
        b"\x7c\x8f\x95\x35\xa9\xd6\xcd\x73\xeb\xc6\xcc\xc0\xbb\x2a\x05\xd4",
        b"\xea\x0b\x19\x9c\xcb\x75\xb2\xbf\x4a\xd3\x41\xfb\x9f\xc5\x11\x23",
        b"\xa1\xf8\x1d\x85\x1b\x2a\xeb\x0e\x73\x17\x2e\x41\x3a\x6a\xb5\x74",
        b"\xb3\xe3\x85\x82\x68\xb6\xe1\x6c\xf1\x9c\xad\x87\x46\x4b\xb7\x95",
        b"\x1f\xcf\xbd\xb9\x95\xca\x76\x6a\x5b\xe2\xbb\xd5\x28\xe9\xee\x3d",
        b"\xe6\xb5\x8a\x8f\x00\x2f\x65\xb6\x5f\xd1\xd4\xbc\xb4\xc0\xfe\xfa",
        b"\x12\x41\xfc\x13\x04\x74\x94\x50\x6c\x3f\xe9\x2e\x98\x7b\xb0\x0f",
        b"\x16\xd3\x26\xae\x01\xc5\x3d\xb8\x9e\x5e\xcd\x79\xd9\x6a\xa0\x42",
        b"\x3c\xe0\x89\x0e\x0e\x3b\x24\xcb\x66\x29\x49\x52\x68\xf0\x52\x99",
    ];
    tells_prints(alloc, roll, &times, &prints)
}

/// Whether a fingerprint is the roll's own between two times, where they don't descend.
fn is_own(draft: &mut Draft, roll: &Roll, from: u32, to: u32, print: &[u8; 16]) -> Option<bool> {
    let (lower, upper) = (upto(from), upto(to));
    if upper.is_below(&lower) {
        return None;
    }
    Some(draft.has_print(roll, &lower, &upper, print))
}

/// Whether fingerprints of 40 items are known as own ones, and others not.
fn knows_its_own(alloc: Global, roll: &Roll) -> bool {
    let mut draft = Draft::new(alloc, 4_096);
    let of_two = b"\x7f\x2d\xa0\x89\xf1\xf5\x29\xe2\x16\x95\x15\x8e\x4a\x2d\x6f\x43";
    let of_none = b"\x7f\x9c\x9e\x31\xac\x82\x56\xca\x2f\x25\x85\x83\xdf\x26\x2d\xbc";
    is_own(&mut draft, roll, 5, 7, of_two) == Some(true)
        && is_own(&mut draft, roll, 5, 8, of_two) == Some(false)
        && is_own(&mut draft, roll, 4, 7, of_two) == Some(false)
        && is_own(&mut draft, roll, 5, 5, of_none) == Some(true)
}

#[test]
fn messages_are_drafted(rt: HostRuntime) -> Result<(), Fail> {
    let roll = line(rt.alloc(), 40)?;
    assert!(rt; writes_forward(rt.alloc(), &roll));
    assert!(rt; tells_sixteen(rt.alloc(), &roll));
    assert!(rt; knows_its_own(rt.alloc(), &roll));
    Ok(())
}

#[test]
fn messages_are_cut(rt: HostRuntime) -> Result<(), Fail> {
    let roll = many(rt.alloc())?;
    for (place, (parts, expected)) in CUT.iter().enumerate() {
        assert!(rt; claims(rt.alloc(), &roll, parts, expected), "{place}");
    }
    Ok(())
}
