use super::fixtures::{Told, are_prints, are_told, at, item, item_ending, line};
use item_roll::{Chunk, Group, Roll, RollFault, minimal_bound};
use neg_codec::{Bound, Id, Item, Key, Range};
use neg_print::Sum;
use std::alloc::{AllocError, Global};
use std::test::*;

/// A whole roll of as many items in ranges.
fn whole(alloc: Global, count: u8) -> Result<Vec<Range>, RollFault> {
    let roll = line(alloc, count)?;
    let hi = roll.find(&Bound::Infinite);
    Ok(roll.split(alloc, 0, hi, &Bound::Infinite)?)
}

const PRINTS_OF_32: [&[u8; 16]; 16] = [
    b"\x2b\xad\xbd\x76\x59\x92\x4f\x48\x87\x90\xab\x57\x7a\x29\xbc\xbe",
    b"\x1b\xa9\x16\x35\xa8\xdd\xc0\xe3\x2a\x0a\x79\x6e\xe0\x38\x9d\xef",
    b"\x07\xaa\x15\xa5\xc1\x53\xb0\x36\xe6\x4b\x5d\x1a\x0b\x68\xa7\x41",
    b"\xc3\xb2\x20\xcd\x26\x82\xa0\xd3\x5c\x0d\x55\xf0\x69\x0e\xb1\x4a",
    b"\xde\x7c\xc2\x18\xa4\x59\xca\xaf\x75\x6d\x49\x8e\x46\xda\x37\x49",
    b"\xd1\xcf\x57\x05\x26\xe4\xc1\x87\x01\x96\xa8\xd9\xe5\x39\xe2\x2d",
    b"\xf8\xdb\xdb\xec\x6e\xee\x46\x57\x7c\x11\x91\x84\xfa\x36\x22\xdd",
    b"\x22\x8f\xf9\xbe\x58\x0a\xf0\x34\x0e\xa2\xa3\xf9\x95\x58\x63\xf7",
    b"\xeb\x56\xfc\x10\xdc\x92\xe8\x7e\xb8\xdd\x86\x93\xfa\x52\x50\x3f",
    b"\xaa\xaa\x6b\xa6\xf4\xc7\xfa\x31\x24\x92\xe1\x8f\x36\x07\x99\xf9",
    b"\xc9\x89\xe4\x8a\xae\xb8\x95\xae\x19\xea\x03\xe4\xc3\x84\xb2\x7d",
    b"\xa2\x95\x2b\x0b\xc6\x1a\x90\xae\xa9\x47\xbd\xd3\xd3\xb2\x51\x1d",
    b"\xea\x0b\x19\x9c\xcb\x75\xb2\xbf\x4a\xd3\x41\xfb\x9f\xc5\x11\x23",
    b"\xa1\xf8\x1d\x85\x1b\x2a\xeb\x0e\x73\x17\x2e\x41\x3a\x6a\xb5\x74",
    b"\xb3\xe3\x85\x82\x68\xb6\xe1\x6c\xf1\x9c\xad\x87\x46\x4b\xb7\x95",
    b"\x1f\xcf\xbd\xb9\x95\xca\x76\x6a\x5b\xe2\xbb\xd5\x28\xe9\xee\x3d",
];

const PRINTS_OF_33: [&[u8; 16]; 16] = [
    b"\xc2\x05\x5e\x4b\x53\x3b\x89\x74\x50\xa2\xf7\xab\xc1\x4a\x36\x88",
    b"\xb8\xea\x73\x6a\xbf\xbf\x60\x97\x81\xff\xf6\x72\x7e\xb9\xcd\x04",
    b"\x7f\x2d\xa0\x89\xf1\xf5\x29\xe2\x16\x95\x15\x8e\x4a\x2d\x6f\x43",
    b"\xb7\xd8\x3b\x68\x0d\xbd\xf0\x4a\xd2\xbe\x2d\x72\x3a\xd7\x64\xb4",
    b"\xd7\xf6\xae\xf4\x8c\x81\x05\xc6\xa8\xd1\xed\xb1\x1b\xc1\xf6\x1d",
    b"\x5a\x3b\x9f\x41\xeb\xac\xbc\x3c\x88\xd6\x23\xfa\x11\xab\xd2\xc4",
    b"\x07\x8b\xc7\x73\x00\x5f\x17\x6b\xa6\x44\x46\x0b\xd7\x7f\x43\xd1",
    b"\xc1\xd8\xd2\x5d\xd3\xad\x8c\x37\x67\x8e\x17\xdf\xce\x54\xdf\x61",
    b"\x1b\x3f\xaf\x13\x78\x5b\x65\xbf\x5c\x6d\xeb\xbe\xf6\xeb\x3b\x8b",
    b"\x13\xfc\x23\x5a\xc2\xe2\x60\x4d\x77\x30\x47\x35\x28\xb6\x46\x91",
    b"\x6d\xb3\x26\x35\x64\x2a\x41\xb8\x16\x7e\x43\x46\xe5\x9c\xe8\xf2",
    b"\xaf\x9e\x87\xdc\x5a\xce\x9a\xf9\x76\x61\x08\xae\xea\x1c\xd5\x82",
    b"\xcd\x20\xb9\xf8\x3a\xa1\x8e\x89\xdd\x32\x32\x57\xca\x0a\x6e\x09",
    b"\x21\x98\x85\x09\x80\x14\x1c\x51\x1a\xed\x17\x58\x78\xf6\x50\x40",
    b"\xca\x3d\x66\x88\x8b\x97\xca\xc9\x5e\x08\x95\x1f\xff\x74\x2c\x97",
    b"\x15\xe5\x2d\xde\x58\xa3\xe1\xe3\xe7\x13\xe9\xcd\x65\x24\xdd\x88",
];

/// Whether 31 items are listed, and 32 and 33 are told by 16 fingerprints.
fn are_split(alloc: Global) -> Option<bool> {
    let ids = [
        0, 1, 2, 3, 4, 5, 6, 7, 8, 9, 10, 11, 12, 13, 14, 15, 16, 17, 18, 19, 20, 21, 22, 23, 24,
        25, 26, 27, 28, 29, 30,
    ];
    let of_32 = [2, 4, 6, 8, 10, 12, 14, 16, 18, 20, 22, 24, 26, 28, 30];
    let of_33 = [3, 5, 7, 9, 11, 13, 15, 17, 19, 21, 23, 25, 27, 29, 31];
    Some(
        are_told(
            &whole(alloc, 31).ok()?,
            &[(Bound::Infinite, Told::Ids(&ids))],
        ) && are_prints(&whole(alloc, 32).ok()?, &of_32, &PRINTS_OF_32)
            && are_prints(&whole(alloc, 33).ok()?, &of_33, &PRINTS_OF_33),
    )
}

/// The minimal bound between two items, which are in order.
fn between(first: Item, second: Item) -> Option<Bound> {
    if first.is_below(&second) && first.time < u64::MAX && second.time < u64::MAX {
        Some(minimal_bound(&first, &second))
    } else {
        None
    }
}

/// Whether the bounds between items are the shortest ones.
fn are_shortest() -> bool {
    let mut front = [0; 32];
    front[0] = 0xaa;
    let second = item_ending(7, 0xaa, 2);
    for (first, want) in [
        (item_ending(7, 0xaa, 1), second.id),
        (item(6, 0xff), Id([0; 32])),
        (item(7, 9), Id(front)),
    ] {
        if between(first, second) != Some(Bound::At(Key::new(7, want))) {
            return false;
        }
    }
    true
}

#[test]
fn pieces_are_told(rt: HostRuntime) -> Result<(), Fail> {
    assert!(rt; are_split(rt.alloc()) == Some(true));
    assert!(rt; are_shortest());
    Ok(())
}

/// Whether a roll has just these items, in this order.
fn is_roll_of(roll: &Roll, items: &[Item]) -> bool {
    for (at, item) in items.iter().enumerate() {
        if at >= roll.len() || roll.get(at) != *item {
            return false;
        }
    }
    roll.len() == items.len()
}

/// Whether a roll takes or refuses each of these items as told.
fn takes(roll: &mut Roll, cases: &[(Item, Result<(), RollFault>)]) -> bool {
    for (item, want) in cases {
        if roll.insert(*item) != *want {
            return false;
        }
    }
    true
}

/// Why there is no roll of these items.
fn refusal(alloc: Global, items: &[Item]) -> Option<RollFault> {
    Roll::from_items(alloc, items).err()
}

/// Whether lists of items are refused as they should be.
fn refuses_lists(alloc: Global) -> bool {
    let repeated = [item(1, 1), item(2, 2), item(1, 1)];
    let endless = [item(1, 1), item(u64::MAX, 2), item(1, 1)];
    refusal(alloc, &[]).is_none()
        && refusal(alloc, &endless) == Some(RollFault::Infinity)
        && refusal(alloc, &repeated) == Some(RollFault::Present)
}

/// Whether items are taken in their places, and refused with nothing changed.
fn takes_in_order(alloc: Global) -> Option<bool> {
    let top = u64::MAX - 1;
    let items = [item(top, 3), item(5, 2), item(5, 1), item(0, 9), item(6, 1)];
    let mut roll = Roll::from_items(alloc, &items).ok()?;
    let refused = [
        (item(u64::MAX, 0), Err(RollFault::Infinity)),
        (item(5, 2), Err(RollFault::Present)),
    ];
    let sorted = [item(0, 9), item(5, 1), item(5, 2), item(6, 1), item(top, 3)];
    let keeps = is_roll_of(&roll, &sorted)
        && takes(&mut roll, &refused)
        && is_roll_of(&roll, &sorted);
    let taken = [
        (item(5, 3), Ok(())),
        (item(0, 0), Ok(())),
        (item(top, 4), Ok(())),
    ];
    let sorted = [
        item(0, 0),
        item(0, 9),
        item(5, 1),
        item(5, 2),
        item(5, 3),
        item(6, 1),
        item(top, 3),
        item(top, 4),
    ];
    Some(keeps && takes(&mut roll, &taken) && is_roll_of(&roll, &sorted))
}

fn are_ids_of(ids: &[Id], items: &[Item]) -> bool {
    for (id, item) in ids.iter().zip(items) {
        if *id != item.id {
            return false;
        }
    }
    ids.len() == items.len()
}

/// Whether the ids of a roll from a place on are those of the items.
fn has_ids(alloc: Global, roll: &Roll, from: usize, items: &[Item]) -> bool {
    if from > roll.len() || items.len() > roll.len() - from {
        return false;
    }
    match roll.ids(alloc, from, from + items.len()) {
        Ok(ids) => are_ids_of(&ids, items),
        Err(_) => false,
    }
}

/// Whether each bound is found at its place.
fn finds_places(roll: &Roll) -> bool {
    let cases = [
        (at(0, [0; 3]), 0),
        (at(0, [1, 0, 0]), 1),
        (at(7, [8, 0, 0]), 8),
        (at(7, [0; 3]), 7),
        (at(32, [33, 0, 0]), 33),
        (at(99, [0; 3]), 33),
        (Bound::Infinite, 33),
    ];
    for (bound, want) in cases {
        if roll.find(&bound) != want {
            return false;
        }
    }
    true
}

/// Whether a roll of 33 items tells a fingerprint and ids.
fn tells_33(alloc: Global, roll: &Roll) -> bool {
    let print = b"\xf2\x84\x21\x34\xed\xf9\x71\x36\xc0\x5e\xda\xfb\xed\xa6\xa3\x46";
    roll.len() == 33
        && roll.print(3, 20) == *print
        && has_ids(alloc, roll, 3, &[item(3, 3), item(4, 4)])
        && has_ids(alloc, roll, 33, &[])
}

#[test]
fn items_have_their_places(rt: HostRuntime) -> Result<(), Fail> {
    assert!(rt; refuses_lists(rt.alloc()));
    assert!(rt; takes_in_order(rt.alloc()) == Some(true));
    let roll = line(rt.alloc(), 33)?;
    assert!(rt; finds_places(&roll));
    assert!(rt; tells_33(rt.alloc(), &roll));
    Ok(())
}

/// An item at a time, whose id ends with the time's bytes.
fn timed(time: u64) -> Item {
    let mut id = [0xe7; 32];
    id[24..].copy_from_slice(&time.to_le_bytes());
    Item { time, id: Id(id) }
}

/// The sum of all ids, one by one.
fn sum_of(items: &[Item]) -> Sum {
    let mut sum = Sum::zero();
    for item in items {
        sum = sum.add(Sum::of(&item.id));
    }
    sum
}

/// Whether a chunk has 1 to 512 items, which stand in the list from a place on, and their sum.
fn is_chunk_at(chunk: &Chunk, items: &[Item], from: usize) -> bool {
    let own = chunk.items();
    if own.is_empty() || own.len() > 512 || from > items.len() || own.len() > items.len() - from {
        return false;
    }
    let there = &items[from..from + own.len()];
    own == there && chunk.sum() == sum_of(own)
}

/// How many items of a list, from a place on, the chunks of a group have; none where they are others.
fn group_len(group: &Group, items: &[Item], from: usize) -> Option<usize> {
    let mut len = 0;
    for entry in group.parts() {
        let at = from.saturating_add(len);
        if !is_chunk_at(entry.part(), items, at) {
            return None;
        }
        len = len.saturating_add(entry.part().items().len());
    }
    Some(len)
}

/// Whether the chunks by their numbers, one behind the other, have these items, and no chunk has a number more.
fn are_in_chunks(roll: &Roll, items: &[Item]) -> bool {
    let mut from = 0;
    for i in 0..roll.chunks() {
        let Some(chunk) = roll.chunk(i) else {
            return false;
        };
        if !is_chunk_at(chunk, items, from) {
            return false;
        }
        from = from.saturating_add(chunk.items().len());
    }
    from == items.len() && roll.chunk(roll.chunks()).is_none()
}

/// Whether each of these items is found at its place.
fn finds_items(roll: &Roll, items: &[Item]) -> bool {
    for (at, item) in items.iter().enumerate() {
        if item.time >= u64::MAX {
            return false;
        }
        let bound = Bound::At(Key::new(item.time, item.id));
        if roll.find(&bound) != at || roll.find_near(&bound, at) != at {
            return false;
        }
    }
    true
}

/// Whether a roll has these items, one by one and in its chunks, of which a group has at most 64.
fn has_items(roll: &Roll, items: &[Item]) -> bool {
    let mut from = 0;
    let mut chunks: usize = 0;
    for entry in roll.groups() {
        let group = entry.part();
        let Some(len) = group_len(group, items, from) else {
            return false;
        };
        from = from.saturating_add(len);
        let parts = group.parts().len();
        if parts > 64 {
            return false;
        }
        chunks = chunks.saturating_add(parts);
    }
    chunks == roll.chunks()
        && from == items.len()
        && are_in_chunks(roll, items)
        && is_roll_of(roll, items)
        && finds_items(roll, items)
}

/// Whether the fingerprints between all these places are those of the items there.
fn has_all_prints(roll: &Roll, items: &[Item], places: &[usize]) -> bool {
    for lo in places {
        for hi in places {
            if *lo <= *hi && *hi <= roll.len() && *hi <= items.len() {
                let want = neg_print::print(sum_of(&items[*lo..*hi]), (*hi - *lo) as u64);
                if roll.print(*lo, *hi) != want {
                    return false;
                }
            }
        }
    }
    true
}

/// Items at the times from 0 on.
fn timed_line(alloc: Global, len: u64) -> Result<Vec<Item>, AllocError> {
    let mut items = Vec::new(alloc);
    for time in 0..len {
        items.push(timed(time))?;
    }
    Ok(items)
}

/// Whether 20,000 items lie in chunks of several groups, with their fingerprints and ids.
fn lie_in_chunks(alloc: Global) -> Option<bool> {
    let items = timed_line(alloc, 20_000).ok()?;
    let roll = Roll::from_items(alloc, &items).ok()?;
    let places = [
        0, 1, 127, 129, 255, 256, 257, 383, 16_383, 16_384, 16_385, 16_700, 20_000,
    ];
    Some(
        roll.groups().len() > 1
            && has_items(&roll, &items)
            && has_all_prints(&roll, &items, &places)
            && items.len() == 20_000
            && has_ids(alloc, &roll, 16_300, &items[16_300..16_700]),
    )
}

/// Those of these items that stand at an even time or from 1200 on.
fn thinned(alloc: Global, items: &[Item]) -> Result<Vec<Item>, AllocError> {
    let mut some = Vec::new(alloc);
    for item in items {
        if item.time % 2 == 0 || item.time >= 1200 {
            some.push(*item)?;
        }
    }
    Ok(some)
}

/// Fills in the odd times below 1200, in no order.
fn fill_in(roll: &mut Roll) -> Result<(), RollFault> {
    for at in 0..600 {
        roll.insert(timed(1 + (at * 7 % 600) * 2))?;
    }
    Ok(())
}

/// Whether a roll has these items, and their fingerprints.
fn is_whole(roll: &Roll, items: &[Item]) -> bool {
    let places = [
        0, 2, 200, 255, 256, 700, 1025, 1300, 1624, 1625, 9000, 20_000,
    ];
    has_items(roll, items) && has_all_prints(roll, items, &places)
}

/// Whether a share stays as it was while the roll is filled in.
fn stays(alloc: Global, roll: &mut Roll, before: &[Item], after: &[Item]) -> bool {
    match roll.share(alloc) {
        Ok(share) => fill_in(roll) == Ok(()) && is_whole(&share, before) && is_whole(roll, after),
        Err(_) => false,
    }
}

/// The same of a roll whose every second item is put in later.
fn share_stays(alloc: Global) -> Option<bool> {
    let after = timed_line(alloc, 1625).ok()?;
    let before = thinned(alloc, &after).ok()?;
    let mut roll = Roll::from_items(alloc, &before).ok()?;
    Some(stays(alloc, &mut roll, &before, &after))
}

/// Puts the items of 20,000 times into a roll, the last first and then in no order.
fn put_one_by_one(roll: &mut Roll) -> Result<(), RollFault> {
    for at in 0..20_000 {
        roll.insert(timed(19_999 - at * 7919 % 20_000))?;
    }
    Ok(())
}

/// Whether a roll into which items were put one by one has them, in several groups.
fn grows(alloc: Global) -> Option<bool> {
    let items = timed_line(alloc, 20_000).ok()?;
    let mut roll = Roll::from_items(alloc, &[]).ok()?;
    let refused = [(timed(512), Err(RollFault::Present))];
    Some(
        put_one_by_one(&mut roll) == Ok(())
            && roll.groups().len() > 1
            && takes(&mut roll, &refused)
            && is_whole(&roll, &items),
    )
}

#[test]
fn chunks_are_shared(rt: HostRuntime) -> Result<(), Fail> {
    assert!(rt; lie_in_chunks(rt.alloc()) == Some(true));
    assert!(rt; share_stays(rt.alloc()) == Some(true));
    assert!(rt; grows(rt.alloc()) == Some(true));
    Ok(())
}
