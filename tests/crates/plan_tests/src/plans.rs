//! Plans of a few offers, with and without bases, and of some thousands in several shapes.

use fetch_plan::{Plan, plan, plan_offers};
use neg_codec::Id;
use offer_table::{Bases, OfferTable};
use std::alloc::{AllocError, Global};
use std::collections::BTreeSet;
use std::process::Abort;
use std::test::Fail;

/// An id for a number, spread over the whole range.
fn spread(number: u32) -> Id {
    let [a, b, c, d] = number.wrapping_mul(2_654_435_761).to_be_bytes();
    let mut id = [7; 32];
    id[0] = a;
    id[1] = b;
    id[2] = c;
    id[3] = d;
    Id(id)
}

fn table_of(alloc: Global, relay: u16, ids: &BTreeSet<Id>) -> Result<OfferTable, Fail> {
    match OfferTable::of_report(alloc, relay, ids) {
        Ok(table) => Ok(table),
        Err(_) => Err("no table of a report")?,
    }
}

fn merged(a: OfferTable, b: OfferTable) -> Result<OfferTable, Fail> {
    match a.merge(b) {
        Ok(both) => Ok(both),
        Err(_) => Err("no merge")?,
    }
}

/// The ids, each of which repeats a byte, that this relay is said to offer.
fn offered_to(
    alloc: Global,
    offers: &[(u8, &[u16])],
    relay: u16,
) -> Result<BTreeSet<Id>, AllocError> {
    let mut ids = BTreeSet::new(alloc);
    for (byte, relays) in offers {
        if relays.contains(&relay) {
            ids.insert(Id([*byte; 32]))?;
        }
    }
    Ok(ids)
}

/// The table of these offers by the relays below a number.
fn table(alloc: Global, offers: &[(u8, &[u16])], relays: u16) -> Result<OfferTable, Fail> {
    let mut all = OfferTable::empty(alloc);
    for relay in 0..relays {
        let report = table_of(alloc, relay, &offered_to(alloc, offers, relay)?)?;
        all = merged(all, report)?;
    }
    Ok(all)
}

fn bases_of(loads: &[(u16, u64)]) -> Result<Bases, Fail> {
    let mut bases = Bases::none();
    for (relay, load) in loads {
        match bases.set(*relay, *load) {
            Ok(()) => {}
            Err(_) => Err("no base")?,
        }
    }
    Ok(bases)
}

/// Whether the group of a plan has just these relays.
fn has_group(made: &Plan, group: &[u16]) -> bool {
    let mut all = true;
    for relay in 0u16..300 {
        all = all && made.group().has(relay) == group.contains(&relay);
    }
    all
}

type Row = (
    &'static [(u8, &'static [u16])],
    &'static [(u16, u64)],
    u64,
    &'static [u16],
    [u64; 3],
);

const ROWS: [Row; 11] = [
    (&[], &[], 0, &[], [0, 0, 0]),
    (
        &[(10, &[0]), (11, &[0]), (12, &[0]), (13, &[0, 1])],
        &[],
        3,
        &[0],
        [3, 1, 0],
    ),
    (
        &[(10, &[0]), (11, &[0, 1]), (12, &[1, 2])],
        &[],
        1,
        &[0, 1, 2],
        [1, 1, 1],
    ),
    (
        &[
            (10, &[0, 1]),
            (11, &[0, 1]),
            (12, &[0, 1]),
            (13, &[0, 1]),
            (14, &[1, 2]),
        ],
        &[],
        2,
        &[0, 1],
        [2, 2, 1],
    ),
    (
        &[(10, &[0]), (11, &[0, 1]), (12, &[0, 1]), (13, &[0, 1])],
        &[],
        2,
        &[0, 1],
        [2, 2, 0],
    ),
    (&[], &[(7, 9)], 9, &[7], [0, 0, 0]),
    (&[(10, &[0, 1])], &[(0, 2)], 2, &[0], [2, 1, 0]),
    (
        &[(10, &[0, 1]), (11, &[0, 1]), (12, &[0, 1])],
        &[(0, 2)],
        3,
        &[0, 1],
        [3, 2, 0],
    ),
    (&[(10, &[0, 1])], &[(1, 1)], 1, &[0, 1], [1, 1, 0]),
    (
        &[(10, &[1])],
        &[(1, 1_000_000_000_000)],
        1_000_000_000_001,
        &[1],
        [0, 1_000_000_000_001, 0],
    ),
    (
        &[(10, &[2])],
        &[(0, 1), (200, 1)],
        1,
        &[0, 2, 200],
        [1, 0, 1],
    ),
];

#[test]
fn small_plans(rt: HostRuntime) -> Result<(), Fail> {
    for (offers, bases, least_max, group, loads) in ROWS {
        let table = table(rt.alloc(), offers, 3)?;
        let bases = bases_of(bases)?;
        let made = plan(rt.alloc(), &table, &bases)?;
        assert!(rt; is_made(&made, least_max, group, loads), "{offers:?}");
        let made = plan_offers(rt.alloc(), table.list(), &bases)?;
        assert!(rt; is_made(&made, least_max, group, loads), "{offers:?} in no table");
    }
    Ok(())
}

// Whether a plan has this busiest load, this group, and these loads of the first three relays.
fn is_made(made: &Plan, least_max: u64, group: &[u16], loads: [u64; 3]) -> bool {
    made.least_max() == least_max
        && has_group(made, group)
        && [made.load(0), made.load(1), made.load(2)] == loads
}

#[test]
fn one_id_on_all_relays(rt: HostRuntime) -> Result<(), Fail> {
    let mut all = OfferTable::empty(rt.alloc());
    let mut one = BTreeSet::new(rt.alloc());
    one.insert(Id([10; 32]))?;
    for relay in 0u16..256 {
        all = merged(all, table_of(rt.alloc(), relay, &one)?)?;
    }
    let made = plan(rt.alloc(), &all, &Bases::none())?;
    let mut whole = true;
    for relay in 0u16..300 {
        whole = whole && made.group().has(relay) == (relay < 256);
    }
    assert_eq!(rt; (made.len(), made.least_max(), whole), (1, 1, true));
    Ok(())
}

#[test]
fn a_plan_tells_its_gives(rt: HostRuntime) -> Result<(), Fail> {
    let offers: [(u8, &[u16]); 3] = [(12, &[1, 2]), (10, &[0]), (11, &[0, 1])];
    let bases = bases_of(&[(2, 5)])?;
    let made = plan(rt.alloc(), &table(rt.alloc(), &offers, 3)?, &bases)?;
    assert_eq!(rt; made.len(), 3);
    let cells = [made.cell(0), made.cell(1), made.cell(2)];
    assert!(rt;
        cells == [(Id([10; 32]), 0), (Id([11; 32]), 0), (Id([12; 32]), 1)]
            || cells == [(Id([10; 32]), 0), (Id([11; 32]), 1), (Id([12; 32]), 1)]
    );
    assert!(rt; made.relay_of(&Id([12; 32])) == Some(1) && made.relay_of(&Id([13; 32])) == None);
    assert_eq!(rt;
        (made.least_max(), made.bases().of(2), made.load(300)),
        (5, 5, 0)
    );
    Ok(())
}

/// Which three of some relays offer the id of a number, in a shape of offers.
fn relays_for(shape: u8, number: u32) -> [u32; 3] {
    let mixed = (number ^ 0x9e37_79b9).wrapping_mul(2_246_822_519);
    let [a, b, c, _] = (mixed ^ mixed >> 15)
        .wrapping_mul(3_266_489_917)
        .to_be_bytes();
    let (a, b, c) = (u32::from(a), u32::from(b), u32::from(c));
    match shape {
        0 => [a, b, c],
        1 => [number % 8, b % 8, b % 8],
        2 => [a % 64, a % 64, a % 64],
        // Most on the first of neighbours.
        3 => [a * b / 256, a * b / 256 + 1, a * b / 256 + 1],
        // Two communities that overlap a little: the ids of the first could go to the second by few of them.
        _ if number % 4 != 0 => [a % 32, b % 33, c % 32],
        _ => [32 + a % 32, 32 + b % 32, 32 + c % 32],
    }
}

fn large_table(alloc: Global, shape: u8, ids: u32) -> Result<OfferTable, Fail> {
    let mut all = OfferTable::empty(alloc);
    for relay in 0u16..256 {
        let mut want = BTreeSet::new(alloc);
        for number in 0..ids {
            if relays_for(shape, number).contains(&u32::from(relay)) {
                want.insert(spread(number))?;
            }
        }
        all = merged(all, table_of(alloc, relay, &want)?)?;
    }
    Ok(all)
}

/// Whether a plan of a shape has all its ids and a greatest load from one number to another.
fn shares_evenly(
    rt: &(impl AllocGlobal + Abort),
    shape: u8,
    least: u64,
    most: u64,
) -> Result<bool, Fail> {
    let made = plan(
        rt.alloc(),
        &large_table(rt.alloc(), shape, 1_024)?,
        &Bases::none(),
    )?;
    Ok(made.len() == 1_024 && made.least_max() >= least && made.least_max() <= most)
}

// 1,024 ids over 256 relays are 4 for each, over 8 relays 128, over 64 relays 16. Of those of the two communities 768
// are on 33 relays, which has 24 for one of them.
#[test]
fn large_plans(rt: HostRuntime) -> Result<(), Fail> {
    for (shape, least, most) in [
        (0u8, 4u64, 8u64),
        (1, 128, 128),
        (2, 16, 64),
        (3, 4, 64),
        (4, 24, 24),
    ] {
        assert!(rt; shares_evenly(&rt, shape, least, most)?, "shape {shape}");
    }
    Ok(())
}
