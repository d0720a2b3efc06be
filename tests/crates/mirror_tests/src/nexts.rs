//! Plans of next rounds.

use fetch_plan::{Cell, Plan, plan};
use mirror_core::next_plan;
use neg_codec::Id;
use offer_table::{Bases, OfferTable};
use sharing::RELAYS;
use std::alloc::Global;
use std::collections::BTreeSet;
use std::test::Fail;

/// Relays that offer the ids of these bytes, and the loads that they begin with; what became of the cells of their plan; the loads
/// that they begin with next, and the next plan.
struct Case {
    offers: &'static [&'static [u8]],
    bases: &'static [u64],
    cells: &'static [Cell],
    grown: &'static [u64],
    gives: &'static [(u8, u16)],
    least_max: u64,
    group: &'static [u16],
}

const CASES: &[Case] = &[
    // A relay missed an id that another one has.
    Case {
        offers: &[b"\x0a", b"\x0a"],
        bases: &[0, 1],
        cells: &[Cell::Missed],
        grown: &[],
        gives: &[(10, 1)],
        least_max: 1,
        group: &[1],
    },
    // A relay missed all.
    Case {
        offers: &[b"\x0a\x0b", b"\x0a\x0b"],
        bases: &[0, 9],
        cells: &[Cell::Missed, Cell::Missed],
        grown: &[2, 9],
        gives: &[(10, 1), (11, 1)],
        least_max: 11,
        group: &[1],
    },
    // It missed an id that no other one has.
    Case {
        offers: &[b"\x0a", b"\x0b"],
        bases: &[],
        cells: &[Cell::Missed, Cell::Free],
        grown: &[1, 0],
        gives: &[(11, 1)],
        least_max: 1,
        group: &[0, 1],
    },
    // An id that is done isn't asked of another relay.
    Case {
        offers: &[b"\x0a", b"\x0a"],
        bases: &[0, 5],
        cells: &[Cell::Done],
        grown: &[1, 5],
        gives: &[],
        least_max: 5,
        group: &[1],
    },
    // What nobody came to is planned again, and so is what is held.
    Case {
        offers: &[b"\x0a\x0b\x0c"],
        bases: &[],
        cells: &[Cell::Free, Cell::Held(0), Cell::Done],
        grown: &[1],
        gives: &[(10, 0), (11, 0)],
        least_max: 3,
        group: &[0],
    },
    // An id goes on to where the base grew less, and back to a relay that never missed it.
    Case {
        offers: &[b"\x0a\x0b", b"\x0b"],
        bases: &[],
        cells: &[Cell::Done, Cell::Free],
        grown: &[1, 0],
        gives: &[(11, 1)],
        least_max: 1,
        group: &[0, 1],
    },
    Case {
        offers: &[b"\x0a\x0b", b"\x0b"],
        bases: &[],
        cells: &[Cell::Done, Cell::Free],
        grown: &[1, 7],
        gives: &[(11, 0)],
        least_max: 7,
        group: &[1],
    },
    Case {
        offers: &[b"\x0a\x0b", b"\x0b"],
        bases: &[],
        cells: &[Cell::Done, Cell::Missed],
        grown: &[1, 1],
        gives: &[(11, 0)],
        least_max: 2,
        group: &[0],
    },
];

/// What the relay offers.
fn report(alloc: Global, relay: u16, bytes: &[u8]) -> Option<OfferTable> {
    let mut ids = BTreeSet::new(alloc);
    for byte in bytes {
        ids.insert(Id([*byte; 32])).ok()?;
    }
    OfferTable::of_report(alloc, relay, &ids).ok()
}

fn table_of(alloc: Global, offers: &[&[u8]]) -> Option<OfferTable> {
    let mut table = OfferTable::empty(alloc);
    for relay in 0..offers.len() {
        let number = u16::try_from(relay).ok()?;
        table = table.merge(report(alloc, number, offers[relay])?).ok()?;
    }
    Some(table)
}

fn bases_of(loads: &[u64]) -> Option<Bases> {
    let mut bases = Bases::none();
    for relay in 0..loads.len() {
        let number = u16::try_from(relay).ok()?;
        bases.set(number, loads[relay]).ok()?;
    }
    Some(bases)
}

/// The plan of the case's next round.
fn next_of(alloc: Global, case: &Case) -> Option<Plan> {
    let mut table = table_of(alloc, case.offers)?;
    let first = plan(alloc, &table, &bases_of(case.bases)?).ok()?;
    if first.len() != case.cells.len() {
        return None;
    }
    let grown = bases_of(case.grown)?;
    next_plan(alloc, &mut table, &first, case.cells, &grown).ok()
}

fn is_as_told(plan: &Plan, case: &Case) -> bool {
    for give in case.gives {
        if plan.relay_of(&Id([give.0; 32])) != Some(give.1) {
            return false;
        }
    }
    for relay in 0..RELAYS {
        if plan.group().has(relay) != case.group.contains(&relay) {
            return false;
        }
    }
    plan.len() == case.gives.len() && plan.least_max() == case.least_max
}

#[test]
fn what_is_left_is_planned_again(rt: HostRuntime) -> Result<(), Fail> {
    for case in CASES {
        let Some(plan) = next_of(rt.alloc(), case) else {
            panic!(rt; "no plan")
        };
        assert!(rt; is_as_told(&plan, case), "{:?}", case.gives);
    }
    Ok(())
}
