//! Tables of a few reports, each call with memory enough.

use neg_codec::Id;
use offer_table::{BaseFault, Bases, OfferFault, OfferTable, RelaySet};
use sharing::RELAYS;
use std::alloc::{AllocError, Global};
use std::collections::BTreeSet;
use std::test::Fail;

/// An id whose first bytes are the number's, so that ids are in the order of their numbers.
fn numbered(number: u32) -> Id {
    let [a, b, c, d] = number.to_be_bytes();
    let mut id = [7; 32];
    id[0] = a;
    id[1] = b;
    id[2] = c;
    id[3] = d;
    Id(id)
}

/// The ids of as many numbers from the first on.
fn run_of(alloc: Global, first: u32, count: u32) -> Result<BTreeSet<Id>, AllocError> {
    let mut ids = BTreeSet::new(alloc);
    for k in 0..count {
        ids.insert(numbered(first.wrapping_add(k)))?;
    }
    Ok(ids)
}

/// A relay's report of the ids of as many numbers from the first on.
fn report(alloc: Global, relay: u16, first: u32, count: u32) -> Result<OfferTable, OfferFault> {
    let ids = run_of(alloc, first, count)?;
    OfferTable::of_report(alloc, relay, &ids)
}

fn merged(a: OfferTable, b: OfferTable) -> Result<OfferTable, OfferFault> {
    match a.merge(b) {
        Ok(both) => Ok(both),
        Err((fault, _, _)) => Err(fault),
    }
}

/// Ids 0 to 9 on relays 0 and 1, 10 to 14 on 1 and 255, and 15 to 17 on 255 alone.
fn three_groups(alloc: Global) -> Result<OfferTable, OfferFault> {
    let a = report(alloc, 0, 0, 10)?;
    let b = report(alloc, 1, 0, 15)?;
    let c = report(alloc, 255, 10, 8)?;
    merged(merged(c, a)?, b)
}

fn set_of(relays: &[u16]) -> RelaySet {
    let mut set = RelaySet::empty();
    for relay in relays {
        if *relay < RELAYS {
            set = set.with(*relay);
        }
    }
    set
}

/// Whether a set has just these relays, in this order.
fn is_set(set: RelaySet, relays: &[u16]) -> bool {
    for relay in 0..300u16 {
        if set.has(relay) != relays.contains(&relay) {
            return false;
        }
    }
    set.iter().eq(relays.iter().copied()) && set.len() == relays.len() && set.is_empty() == relays.is_empty()
}

/// Whether a group has just these relays, and the ids of just these numbers.
fn is_group(table: &OfferTable, k: usize, relays: &[u16], numbers: &[u32]) -> bool {
    if k >= table.groups() {
        return false;
    }
    let (set, ids) = table.group_at(k);
    is_set(set, relays) && ids.iter().copied().eq(numbers.iter().map(|n| numbered(*n)))
}

/// Whether a table has just these groups.
fn are_groups(table: &OfferTable, wanted: &[(&[u16], &[u32])]) -> bool {
    for (k, group) in wanted.iter().enumerate() {
        if !is_group(table, k, group.0, group.1) {
            return false;
        }
    }
    table.groups() == wanted.len()
}

/// Whether the numbers of the groups are those of the three.
fn are_numbered(table: &OfferTable) -> bool {
    let wanted = [0, 0, 0, 0, 0, 0, 0, 0, 0, 0, 2, 2, 2, 2, 2, 1, 1, 1];
    table.numbers() == wanted.as_slice() && table.list().len() == 18
}

/// Whether sets stand in the order of their highest relays.
fn are_in_order(sets: &[RelaySet]) -> bool {
    for (i, a) in sets.iter().enumerate() {
        for (k, b) in sets.iter().enumerate() {
            if a.compare(*b) != i.cmp(&k) {
                return false;
            }
        }
    }
    true
}

#[test]
fn sets_of_relays(rt: HostRuntime) -> Result<(), Fail> {
    let (a, b) = (set_of(&[1, 100, 200]), set_of(&[100, 201]));
    assert!(rt;
        is_set(
            set_of(&[0, 1, 63, 64, 127, 128, 255]),
            &[0, 1, 63, 64, 127, 128, 255]
        )
    );
    assert!(rt;
        is_set(a.union(b), &[1, 100, 200, 201])
            && is_set(a.minus(b), &[1, 200])
            && is_set(RelaySet::empty(), &[])
    );
    assert!(rt; a.meets(b) && !a.meets(set_of(&[0, 201])));
    assert!(rt;
        are_in_order(&[
            set_of(&[]),
            set_of(&[0, 1, 2]),
            set_of(&[127]),
            set_of(&[126, 127]),
            set_of(&[128]),
            set_of(&[127, 128]),
            set_of(&[0, 255])
        ])
    );
    Ok(())
}

/// Whether loads are taken and told so.
fn are_kept(bases: &mut Bases) -> bool {
    bases.are_none()
        && bases.set(7, 9) == Ok(())
        && bases.set(255, 1_000_000_000_000) == Ok(())
        && bases.set(256, 1_000_000_000_001) == Err(BaseFault::Relay)
        && bases.set(3, 1_000_000_000_001) == Err(BaseFault::Load)
        && [bases.of(7), bases.of(255), bases.of(3), bases.of(256)] == [9, 1_000_000_000_000, 0, 0]
        && !bases.are_none()
}

#[test]
fn loads_to_begin_with(rt: HostRuntime) -> Result<(), Fail> {
    assert!(rt; are_kept(&mut Bases::none()));
    Ok(())
}

/// The fault of a merge that hands both tables back as they were.
fn refused(a: OfferTable, b: OfferTable) -> Option<OfferFault> {
    let (many, few) = (a.list().len(), b.list().len());
    match a.merge(b) {
        Ok(_) => None,
        Err((fault, a, b)) => {
            if a.list().len() == many && b.list().len() == few {
                Some(fault)
            } else {
                None
            }
        }
    }
}

#[test]
fn refused_reports(rt: HostRuntime) -> Result<(), Fail> {
    let alloc = rt.alloc();
    assert!(rt;
        refused(report(alloc, 0, 9, 1)?, report(alloc, 0, 9, 1)?) == Some(OfferFault::Double)
    );
    assert!(rt; report(alloc, 256, 0, 1).err() == Some(OfferFault::Relay));
    Ok(())
}

#[test]
fn groups_of_equal_relays(rt: HostRuntime) -> Result<(), Fail> {
    let table = three_groups(rt.alloc())?;
    assert!(rt; are_numbered(&table));
    assert!(rt;
        are_groups(
            &table,
            &[
                (&[0, 1], &[0, 1, 2, 3, 4, 5, 6, 7, 8, 9]),
                (&[255], &[15, 16, 17]),
                (&[1, 255], &[10, 11, 12, 13, 14])
            ]
        )
    );
    assert!(rt;
        is_set(table.reported(), &[0, 1, 255])
            && is_set(table.offers(&numbered(12)), &[1, 255])
            && is_set(table.offers(&numbered(18)), &[])
    );
    assert!(rt; are_groups(&OfferTable::empty(rt.alloc()), &[]));
    Ok(())
}

/// Strikes offers, and says whether each was there as stated.
fn struck(table: &mut OfferTable, offers: &[(u32, u16, bool)]) -> Result<bool, AllocError> {
    let mut all = true;
    for offer in offers {
        all = table.strike(&numbered(offer.0), offer.1)? == offer.2 && all;
    }
    Ok(all)
}

#[test]
fn strikes_take_single_offers(rt: HostRuntime) -> Result<(), Fail> {
    let mut table = three_groups(rt.alloc())?;
    let offers = [
        (12, 1, true),
        (4, 1, true),
        (4, 0, true),
        (4, 0, false),
        (17, 255, true),
        (18, 0, false),
    ];
    assert!(rt; struck(&mut table, &offers)?);
    assert!(rt;
        are_groups(
            &table,
            &[
                (&[0, 1], &[0, 1, 2, 3, 5, 6, 7, 8, 9]),
                (&[255], &[12, 15, 16]),
                (&[1, 255], &[10, 11, 13, 14])
            ]
        )
    );
    Ok(())
}

/// Ids 0 on relay 0, 0 to 3 on 1, 10 on 2, 15 and 16 on 255.
fn some_offers(alloc: Global) -> Result<OfferTable, OfferFault> {
    let a = merged(report(alloc, 0, 0, 1)?, report(alloc, 1, 0, 4)?)?;
    let b = merged(report(alloc, 2, 10, 1)?, report(alloc, 255, 15, 2)?)?;
    merged(a, b)
}

#[test]
fn many_offers_are_left_out_at_once(rt: HostRuntime) -> Result<(), Fail> {
    let mut table = three_groups(rt.alloc())?;
    let gone = some_offers(rt.alloc())?;
    table.leave_out(gone.list())?;
    assert!(rt;
        are_groups(
            &table,
            &[
                (&[0], &[1, 2, 3]),
                (&[0, 1], &[4, 5, 6, 7, 8, 9]),
                (&[255], &[17]),
                (&[1, 255], &[10, 11, 12, 13, 14])
            ]
        )
    );
    Ok(())
}

/// Whether a set has each relay.
fn has_all(set: RelaySet) -> bool {
    for relay in 0..RELAYS {
        if !set.has(relay) {
            return false;
        }
    }
    true
}

#[test]
fn an_id_on_each_relay(rt: HostRuntime) -> Result<(), Fail> {
    let mut table = OfferTable::empty(rt.alloc());
    for relay in 0..RELAYS {
        table = merged(table, report(rt.alloc(), relay, 1, 1)?)?;
    }
    assert!(rt; has_all(table.offers(&numbered(1))) && table.groups() == 1);
    Ok(())
}

#[test]
fn known_offers_make_a_table(rt: HostRuntime) -> Result<(), Fail> {
    let known = three_groups(rt.alloc())?;
    let offers = known.list().to_vec(rt.alloc())?;
    let table = OfferTable::of_sets(rt.alloc(), offers)?;
    assert!(rt; is_set(table.reported(), &[0, 1, 255]) && are_numbered(&table));
    Ok(())
}

#[test]
fn faults_have_texts(rt: HostRuntime) -> Result<(), Fail> {
    let faults = [
        OfferFault::Relay,
        OfferFault::TableFull,
        OfferFault::Double,
        OfferFault::Memory,
    ];
    let texts = [
        "not a relay's number",
        "more than 200,000 ids",
        "two reports of one relay",
        "out of memory",
    ];
    for (fault, text) in faults.iter().zip(texts) {
        assert_eq!(rt; format!(in rt.alloc(); "{fault}")?.as_str(), text);
    }
    let text = format!(in rt.alloc(); "{}, {}", BaseFault::Relay, BaseFault::Load)?;
    assert_eq!(rt;
        text.as_str(),
        "not a relay's number, a load above 1,000,000,000,000"
    );
    Ok(())
}
