use super::fixtures::{Told, are_told, at};
use neg_codec::{Bound, CodecFault, Id, Item, Key, Message, Payload, Range, decode, encode};
use std::alloc::{AllocError, Global};
use std::test::*;

fn payload(alloc: Global, told: Told) -> Result<Payload, AllocError> {
    match told {
        Told::Skip => Ok(Payload::Skip),
        Told::Print(print) => Ok(Payload::Print(*print)),
        Told::Ids(bytes) => {
            let mut ids = Vec::new(alloc);
            for byte in bytes {
                ids.push(Id([*byte; 32]))?;
            }
            Ok(Payload::Ids(ids))
        }
    }
}

fn ranges(alloc: Global, told: &[(Bound, Told)]) -> Result<Vec<Range>, AllocError> {
    let mut ranges = Vec::new(alloc);
    for (upper, told) in told {
        let payload = payload(alloc, *told)?;
        ranges.push(Range {
            upper: *upper,
            payload,
        })?;
    }
    Ok(ranges)
}

fn is_text_of(alloc: Global, message: &Message, bytes: &[u8]) -> bool {
    match encode(alloc, message) {
        Ok(text) => text.as_slice() == bytes,
        Err(_) => false,
    }
}

/// Whether a message of the ranges is written so.
fn is_written(alloc: Global, told: &[(Bound, Told)], bytes: &[u8]) -> Result<bool, AllocError> {
    match Message::of(ranges(alloc, told)?) {
        Ok(message) => Ok(is_text_of(alloc, &message, bytes)),
        Err(_) => Ok(false),
    }
}

/// Whether the ranges are read from the bytes.
fn is_read(alloc: Global, told: &[(Bound, Told)], bytes: &[u8]) -> bool {
    match decode(alloc, bytes) {
        Ok(message) => are_told(message.ranges(), told),
        Err(_) => false,
    }
}

fn is_both(alloc: Global, told: &[(Bound, Told)], bytes: &[u8]) -> bool {
    is_written(alloc, told, bytes) == Ok(true) && is_read(alloc, told, bytes)
}

/// Whether the ranges are no message for a fault, and are handed back.
fn is_refused(
    alloc: Global,
    told: &[(Bound, Told)],
    fault: CodecFault,
) -> Result<bool, AllocError> {
    match Message::of(ranges(alloc, told)?) {
        Ok(_) => Ok(false),
        Err((found, back)) => Ok(found == fault && are_told(&back, told)),
    }
}

/// The bound at a time and an id of zeros and a last byte 80.
fn at_last(time: u32) -> Bound {
    let mut id = [0; 32];
    id[31] = 0x80;
    Bound::At(Key::new(u64::from(time), Id(id)))
}

/// Whether messages of one kind of range each are written and read.
fn are_both(alloc: Global) -> bool {
    let top = Bound::At(Key::new(u64::MAX - 1, Id([0; 32])));
    is_both(alloc, &[], b"\x61")
        && is_both(alloc, &[(at(5, [0; 3]), Told::Skip)], b"\x61\x06\x00\x00")
        && is_both(
            alloc,
            &[(top, Told::Skip)],
            b"\x61\x81\xff\xff\xff\xff\xff\xff\xff\xff\x7f\x00\x00",
        )
        && is_both(
            alloc,
            &[(Bound::Infinite, Told::Ids(&[1]))],
            b"\x61\x00\x00\x02\x01\x01\x01\x01\x01\x01\x01\x01\x01\x01\x01\x01\x01\x01\x01\x01\x01\x01\x01\x01\x01\x01\x01\x01\x01\x01\x01\x01\x01\x01\x01\x01\x01",
        )
        && is_both(
            alloc,
            &[
                (at_last(0), Told::Skip),
                (at_last(1_700_000_000), Told::Skip),
            ],
            b"\x61\x01\x20\x00\x00\x00\x00\x00\x00\x00\x00\x00\x00\x00\x00\x00\x00\x00\x00\x00\x00\x00\x00\x00\x00\x00\x00\x00\x00\x00\x00\x00\x00\x00\x80\x00\x86\xaa\xcf\xe2\x01\x20\x00\x00\x00\x00\x00\x00\x00\x00\x00\x00\x00\x00\x00\x00\x00\x00\x00\x00\x00\x00\x00\x00\x00\x00\x00\x00\x00\x00\x00\x00\x00\x80\x00",
        )
}

/// Whether a message with all payloads is written and read.
fn has_all_payloads(alloc: Global) -> bool {
    let print = [0, 1, 2, 3, 4, 5, 6, 7, 8, 9, 10, 11, 12, 13, 14, 15];
    let told = [
        (at(10, [0xaa, 0, 0xab]), Told::Print(&print)),
        (Bound::At(Key::new(10, Id([0xbb; 32]))), Told::Skip),
        (at(16394, [0; 3]), Told::Ids(&[])),
        (Bound::Infinite, Told::Ids(&[7, 9])),
    ];
    let bytes =
        b"\x61\x0b\x03\xaa\x00\xab\x01\x00\x01\x02\x03\x04\x05\x06\x07\x08\x09\x0a\x0b\x0c\x0d\x0e\x0f\x01\x20\xbb\xbb\xbb\xbb\xbb\xbb\xbb\xbb\xbb\xbb\xbb\xbb\xbb\xbb\xbb\xbb\xbb\xbb\xbb\xbb\xbb\xbb\xbb\xbb\xbb\xbb\xbb\xbb\xbb\xbb\xbb\xbb\x00\x81\x80\x01\x00\x02\x00\x00\x00\x02\x02\x07\x07\x07\x07\x07\x07\x07\x07\x07\x07\x07\x07\x07\x07\x07\x07\x07\x07\x07\x07\x07\x07\x07\x07\x07\x07\x07\x07\x07\x07\x07\x07\x09\x09\x09\x09\x09\x09\x09\x09\x09\x09\x09\x09\x09\x09\x09\x09\x09\x09\x09\x09\x09\x09\x09\x09\x09\x09\x09\x09\x09\x09\x09\x09";
    is_both(alloc, &told, bytes)
}

/// Whether bounds that are equal, or have id bytes at infinity, are read.
fn reads_other_spellings(alloc: Global) -> bool {
    let twice = [
        (at(5, [2, 0, 0]), Told::Skip),
        (at(5, [2, 0, 0]), Told::Skip),
    ];
    is_read(alloc, &twice, b"\x61\x06\x01\x02\x00\x01\x01\x02\x00")
        && is_read(
            alloc,
            &[(Bound::Infinite, Told::Skip)],
            b"\x61\x00\x01\xff\x00",
        )
}

#[test]
fn messages_are_written_and_read(rt: HostRuntime) -> Result<(), Fail> {
    assert!(rt; are_both(rt.alloc()));
    assert!(rt; has_all_payloads(rt.alloc()));
    assert!(rt; reads_other_spellings(rt.alloc()));
    Ok(())
}

fn refusal(alloc: Global, bytes: &[u8]) -> Option<CodecFault> {
    decode(alloc, bytes).err()
}

static FAULTS: [(&[u8], CodecFault); 10] = [
    (
        b"\x61\x02\x00\x00\x81\xff\xff\xff\xff\xff\xff\xff\xff\x7f\x00\x00",
        CodecFault::TimeTooLarge(4),
    ),
    (b"\x61\x00\x00\x00\x00", CodecFault::AfterInfinity(4)),
    (
        b"\x61\x06\x01\x02\x00\x01\x01\x01\x00",
        CodecFault::Descending(5),
    ),
    (b"\x61\x05", CodecFault::Varint(2)),
    (b"\x62", CodecFault::Version(0x62)),
    (b"\x61\x00\x00\x03", CodecFault::Mode(3)),
    (b"\x61\x00\x21\x00", CodecFault::PrefixLength(2)),
    (b"\x61\x80\x00", CodecFault::Varint(1)),
    (b"\x61\x00\x00\x01\x00", CodecFault::Truncated(4)),
    (b"\x61\x01\x02\xff", CodecFault::Truncated(3)),
];

/// Whether a message of 1,048,577 bytes is too long, and one of a byte less isn't.
fn takes_the_longest(alloc: Global) -> Option<bool> {
    let long = vec![in alloc; 0x61; 1_048_577].ok()?;
    let is_too_long = refusal(alloc, &long) == Some(CodecFault::TooLong);
    let [_, rest @ ..] = long.as_slice() else {
        return None;
    };
    Some(is_too_long && refusal(alloc, rest) == Some(CodecFault::PrefixLength(2)))
}

/// A message of one list, of the id 01..01.
const ONE_ID: &[u8] =
    b"\x61\x06\x00\x02\x01\x01\x01\x01\x01\x01\x01\x01\x01\x01\x01\x01\x01\x01\x01\x01\x01\x01\x01\x01\x01\x01\x01\x01\x01\x01\x01\x01\x01\x01\x01\x01\x01";

/// Whether each beginning of the message is refused as it should be, and the whole isn't.
fn refuses_beginnings(alloc: Global) -> bool {
    for (len, _) in ONE_ID.iter().enumerate() {
        let fault = match len {
            0 => Some(CodecFault::Empty),
            1 => None,
            2..=4 => Some(CodecFault::Varint(len)),
            _ => Some(CodecFault::Truncated(5)),
        };
        if refusal(alloc, &ONE_ID[..len]) != fault {
            return false;
        }
    }
    refusal(alloc, ONE_ID).is_none()
}

#[test]
fn faults(rt: HostRuntime) -> Result<(), Fail> {
    for (bytes, fault) in FAULTS {
        assert_eq!(rt; refusal(rt.alloc(), bytes), Some(fault));
    }
    assert!(rt; takes_the_longest(rt.alloc()) == Some(true));
    assert!(rt; refuses_beginnings(rt.alloc()));
    Ok(())
}

/// Whether ranges out of their places are refused and handed back.
fn refuses_misplaced(alloc: Global) -> bool {
    let cases: [(&[(Bound, Told)], CodecFault); 3] = [
        (
            &[(Bound::Infinite, Told::Skip), (Bound::Infinite, Told::Skip)],
            CodecFault::AfterInfinity(1),
        ),
        (
            &[(Bound::Infinite, Told::Skip), (at(1, [0; 3]), Told::Skip)],
            CodecFault::Descending(1),
        ),
        (
            &[
                (at(1, [0; 3]), Told::Skip),
                (at(2, [0; 3]), Told::Skip),
                (at(1, [9; 3]), Told::Skip),
                (at(1, [0; 3]), Told::Skip),
            ],
            CodecFault::Descending(2),
        ),
    ];
    for (told, fault) in cases {
        if is_refused(alloc, told, fault) != Ok(true) {
            return false;
        }
    }
    true
}

/// Whether bounds ascend, each above all before it, and their edges too.
fn ascend(bounds: &[Bound]) -> bool {
    for (i, low) in bounds.iter().enumerate() {
        for (j, high) in bounds.iter().enumerate() {
            if low.is_below(high) != (i < j) || low.edge().compare(&high.edge()) != i.cmp(&j) {
                return false;
            }
        }
    }
    true
}

#[test]
fn order(rt: HostRuntime) -> Result<(), Fail> {
    let zero = Item {
        time: 0,
        id: Id([0; 32]),
    };
    assert!(rt; refuses_misplaced(rt.alloc()));
    assert!(rt;
        ascend(&[
            at(0, [0; 3]),
            at(1, [0; 3]),
            at(1, [0, 0, 1]),
            at(1, [1, 0, 0]),
            at(2, [0; 3]),
            Bound::Infinite
        ])
    );
    assert!(rt;
        Bound::lowest().edge() == zero
            && Bound::Infinite.time() == u64::MAX
            && *Id([5; 32]).as_bytes() == [5; 32]
    );
    Ok(())
}
