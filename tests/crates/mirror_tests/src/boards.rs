//! Two lanes on one cell.
ghost use Rattle.std.specs.Prelude.{◌≡◌, length, slice_index, IfSome};
ghost use Rattle.claim_board.specs.Rules.{relays, fresh, IsIdOf};
ghost use Rattle.claim_board.specs.Views.{placed_at};

use super::events::event;
use claim_board::{Board, BoardFault, Cell, Claimed, Lane};
use event_store::{Blank, Naming, Placed, open_store};
use fetch_plan::{Plan, plan};
use neg_codec::Id;
use offer_table::{Bases, OfferTable};
use std::alloc::Global;
use std::collections::BTreeSet;
use std::marker::Brand;
use std::sync::Wait;
use std::test::*;

// The plan of an id that relay 0 offers.
fn plan_of(alloc: Global, id: &Id) -> Option<Plan> {
    let mut ids = BTreeSet::new(alloc);
    ids.insert(*id).ok()?;
    let table = OfferTable::of_report(alloc, 0, &ids).ok()?;
    plan(alloc, &table, &Bases::none()).ok()
}

// The board of that plan, and its two lanes.
fn two_lanes<J: Naming>(alloc: Global, id: &Id) -> Option<(Board<J>, Lane, Lane)>
    ensures board { IfSome result (λ r. (length r.0.cells ≡ 1) × (slice_index (relays r.0.cells) 0 ≡ 0) × IsIdOf r.0.cells 0 id.now) }
    ensures lanes { IfSome result (λ r. (r.1 ≡ placed_at r.0.board (fresh 0 0)) × (r.2 ≡ placed_at r.0.board (fresh 1 0))) }
{
    let plan = plan_of(alloc, id)?;
    let (board, mut lanes) = Board::new(alloc, &plan, &[0, 0]).ok()?;
    if board.len() != 1 {
        return None;
    }
    let (first_id, relay) = board.cell(0);
    if first_id != *id || relay != 0 {
        return None;
    }
    let second = lanes.pop()?;
    let first = lanes.pop()?;
    Some((board, first, second))
}

// What two lanes find that claim, release and finish the one cell, and what it is in the end.
fn played<J: Naming>(
    board: Board<J>,
    first: Lane,
    second: Lane,
    placed: &Placed<J>,
) -> Option<(Cell, Cell, Cell, Vec<Cell>)>
    requires board { (length board.cells ≡ 1) × (slice_index (relays board.cells) 0 ≡ 0) × IsIdOf board.cells 0 placed.now.id }
    requires lanes { (first ≡ placed_at board.board (fresh 0 0)) × (second ≡ placed_at board.board (fresh 1 0)) }
{
    let (mut first, mut second) = (first, second);
    let Claimed::Won = board.claim(&mut first, 0) else {
        return None;
    };
    let Claimed::Lost(held) = board.claim(&mut second, 0) else {
        return None;
    };
    let (mut first, mut second) = board.hold_apart(first, second);
    board.release(&mut first, 0);
    let free = board.look(&mut first, 0);
    let Claimed::Won = board.claim(&mut second, 0) else {
        return None;
    };
    board.finish(&mut second, 0, placed);
    let Claimed::Lost(done) = board.claim(&mut first, 0) else {
        return None;
    };
    board.leave(&mut second, first);
    let cells = board.close(second).ok()?;
    Some((held, free, done, cells))
}

// Whether a cell of a store's event goes to one lane at a time.
fn goes_to_one_lane<J: Naming, D: Wait + Drop, R: Wait>(
    rt: &R,
    keep: D,
    alloc: Global,
    blank: Blank,
) -> Option<bool>
    requires book { blank ≡ J.book }
    requires most { J.most ≡ 1000000 }
{
    let (mut desk, _) = open_store::<J, D>(keep, alloc, blank, 1).ok()?;
    let placed = desk.insert(rt, event(alloc, 7, 9)?).ok();
    is_claimed(alloc, &placed?)
}

// Whether the cell of that event goes to one lane at a time.
fn is_claimed<J: Naming>(alloc: Global, placed: &Placed<J>) -> Option<bool> {
    let (board, first, second) = two_lanes(alloc, &placed.id())?;
    let relays = (first.relay(), second.relay());
    let (held, free, done, cells) = played(board, first, second, placed)?;
    Some(
        relays == (0, 0)
            && held == Cell::Held(0)
            && free == Cell::Free
            && done == Cell::Done
            && cells.as_slice() == [Cell::Done].as_slice(),
    )
}

#[test]
fn a_cell_goes_to_one_lane(rt: HostRuntime) -> Result<(), Fail> {
    let told = goes_to_one_lane::<Brand, _, _>(&rt, &rt, rt.alloc(), Blank::new());
    assert_eq!(rt; told, Some(true));
    Ok(())
}

#[test]
fn lanes_are_one_to_1024(rt: HostRuntime) -> Result<(), Fail> {
    let alloc = rt.alloc();
    let Some(plan) = plan_of(alloc, &Id([7; 32])) else {
        panic!(rt; "no plan")
    };
    let lanes = [3; 1025];
    assert!(rt; Board::<Brand>::new(alloc, &plan, &[]).err() == Some(BoardFault::Lanes));
    assert!(rt; Board::<Brand>::new(alloc, &plan, &lanes).err() == Some(BoardFault::Lanes));
    assert!(rt; Board::<Brand>::new(alloc, &plan, &lanes[1..]).is_ok());
    Ok(())
}
