//! Offers, plans and plan files.

use crate::said::Said;
use fetch_plan::{Cell, Plan, plan, plan_offers};
use mirror_core::next_plan;
use neg_codec::Id;
use offer_table::{Bases, OfferFault, OfferTable};
use plan_check::{PlanFault, check, read_plan, write_plan};
use std::alloc::Global;
use std::collections::BTreeSet;

/// The names of the calls.
pub const NAMES: &[&str] = &[
    "of_report",
    "merge",
    "strike",
    "plan",
    "plan_offers",
    "next_plan",
    "read_plan",
    "write_plan",
];

/// What the call of that name came to.
pub fn said_of(alloc: Global, name: &str) -> Option<Said> {
    match name {
        "of_report" => reported(alloc),
        "merge" => merged(alloc),
        "strike" => struck(alloc),
        "plan" => planned(alloc),
        "plan_offers" => planned_offers(alloc),
        "next_plan" => planned_next(alloc),
        "read_plan" => read_file(alloc),
        "write_plan" => write_file(alloc),
        _ => None,
    }
}

/// The id that is that byte 32 times.
pub fn id(byte: u8) -> Id {
    Id([byte; 32])
}

/// The ids of these bytes.
pub fn ids(alloc: Global, bytes: &[u8]) -> Option<BTreeSet<Id>> {
    let mut ids = BTreeSet::new(alloc);
    for byte in bytes {
        ids.insert(id(*byte)).ok()?;
    }
    Some(ids)
}

/// The report of a relay that offers the ids of these bytes.
fn report(alloc: Global, relay: u16, bytes: &[u8]) -> Option<OfferTable> {
    OfferTable::of_report(alloc, relay, &ids(alloc, bytes)?).ok()
}

/// The offers of `TABLE`.
pub fn table(alloc: Global) -> Option<OfferTable> {
    let both = report(alloc, 0, b"\x0a\x0b")?
        .merge(report(alloc, 1, b"\x0b\x0c")?)
        .ok()?;
    both.merge(report(alloc, 2, b"\x0c")?).ok()
}

/// Ids, each by its byte, with the relays that offer it.
pub type Offers<'a> = &'a [(u8, &'a [u16])];

pub const TABLE: Offers<'static> = &[(10, &[0]), (11, &[0, 1]), (12, &[1, 2])];

/// Whether a table has these offers and no others, all of them by relays below 3.
pub fn has_offers(table: &OfferTable, offers: Offers<'_>) -> bool {
    if table.list().len() != offers.len() {
        return false;
    }
    for (byte, relays) in offers {
        for relay in 0..3 {
            if table.offers(&id(*byte)).has(relay) != relays.contains(&relay) {
                return false;
            }
        }
    }
    true
}

fn reported(alloc: Global) -> Option<Said> {
    let ids = ids(alloc, b"\x0a\x0b")?;
    match OfferTable::of_report(alloc, 2, &ids) {
        Ok(table) => Said::ample(has_offers(&table, &[(10, &[2]), (11, &[2])])),
        Err(OfferFault::Memory) => Said::memory(true),
        Err(_) => Said::wrong(),
    }
}

fn merged(alloc: Global) -> Option<Said> {
    let both = report(alloc, 0, b"\x0a\x0b")?
        .merge(report(alloc, 1, b"\x0b\x0c")?)
        .ok()?;
    match both.merge(report(alloc, 2, b"\x0c")?) {
        Ok(table) => Said::ample(has_offers(&table, TABLE)),
        Err((OfferFault::Memory, both, one)) => Said::memory(
            has_offers(&both, &[(10, &[0]), (11, &[0, 1]), (12, &[1])])
                && has_offers(&one, &[(12, &[2])])
                && both.reported().has(1)
                && one.reported().has(2),
        ),
        Err(_) => Said::wrong(),
    }
}

fn struck(alloc: Global) -> Option<Said> {
    let mut table = table(alloc)?;
    match table.strike(&id(10), 0) {
        Ok(was_there) => {
            Said::ample(was_there && has_offers(&table, &[(11, &[0, 1]), (12, &[1, 2])]))
        }
        Err(_) => Said::memory(has_offers(&table, TABLE)),
    }
}

/// Whether a plan gives the ids of these bytes to these relays, with this greatest load.
pub fn gives(plan: &Plan, gives: &[(u8, u16)], least_max: u64) -> bool {
    for (byte, relay) in gives {
        if plan.relay_of(&id(*byte)) != Some(*relay) {
            return false;
        }
    }
    plan.len() == gives.len() && plan.least_max() == least_max
}

pub const GIVES: &[(u8, u16)] = &[(10, 0), (11, 1), (12, 2)];

fn planned(alloc: Global) -> Option<Said> {
    let table = table(alloc)?;
    match plan(alloc, &table, &Bases::none()) {
        Ok(plan) => Said::ample(gives(&plan, GIVES, 1)),
        Err(_) => Said::memory(has_offers(&table, TABLE)),
    }
}

fn planned_offers(alloc: Global) -> Option<Said> {
    let table = table(alloc)?;
    match plan_offers(alloc, table.list(), &Bases::none()) {
        Ok(plan) => Said::ample(gives(&plan, GIVES, 1)),
        Err(_) => Said::memory(has_offers(&table, TABLE)),
    }
}

/// Plans a second round, where one id is done, its cell's relay missed another, and nobody came to the third.
fn planned_next(alloc: Global) -> Option<Said> {
    let cells = [Cell::Done, Cell::Missed, Cell::Free];
    let mut table = table(alloc)?;
    let last = plan(alloc, &table, &Bases::none()).ok()?;
    if last.len() != cells.len() {
        return None;
    }
    match next_plan(alloc, &mut table, &last, &cells, &Bases::none()) {
        Ok(next) => Said::ample(is_next(&table, &next)),
        Err(_) => {
            let has_left = has_left(&table);
            let Ok(next) = next_plan(alloc, &mut table, &last, &cells, &Bases::none()) else {
                return Said::wrong();
            };
            Said::memory(has_left && is_next(&table, &next))
        }
    }
}

/// Whether the table has lost the offers that need no further round, and the plan is one of those left.
fn is_next(table: &OfferTable, next: &Plan) -> bool {
    has_offers(table, NEXT)
        && next.relay_of(&id(11)) == Some(0)
        && next.len() == 2
        && next.least_max() == 1
}

/// The offers of `TABLE` without some of those.
const LEFT: [Offers<'static>; 4] = [
    TABLE,
    &[(11, &[0, 1]), (12, &[1, 2])],
    &[(10, &[0]), (11, &[0]), (12, &[1, 2])],
    NEXT,
];

const NEXT: Offers<'static> = &[(11, &[0]), (12, &[1, 2])];

/// Whether the table has lost some of those offers and no other.
fn has_left(table: &OfferTable) -> bool {
    for offers in LEFT {
        if has_offers(table, offers) {
            return true;
        }
    }
    false
}

/// A plan text.
const FILE: &str =
    "nostr-plan 1\noffer 0a0a0a0a0a0a0a0a0a0a0a0a0a0a0a0a0a0a0a0a0a0a0a0a0a0a0a0a0a0a0a0a 0 1 2\ngive 0a0a0a0a0a0a0a0a0a0a0a0a0a0a0a0a0a0a0a0a0a0a0a0a0a0a0a0a0a0a0a0a 1\ngroup 0 1 2\n";

fn read_file(alloc: Global) -> Option<Said> {
    match read_plan(alloc, FILE) {
        Ok(file) => Said::ample(file.offers().len() == 1 && check(&file) == Ok(1)),
        Err(PlanFault::Memory) => Said::memory(true),
        Err(_) => Said::wrong(),
    }
}

fn write_file(alloc: Global) -> Option<Said> {
    let file = read_plan(alloc, FILE).ok()?;
    match write_plan(alloc, &file) {
        Ok(text) => Said::ample(text.as_str() == FILE),
        Err(_) => Said::memory(check(&file) == Ok(1)),
    }
}
