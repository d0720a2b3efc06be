//! Sessions and fetches with several relays at once.

ghost use Rattle.std.specs.Prelude.{◌≡◌, ℕ, ◌<◌, ◌^◌, ◌-◌, All, map, IfSome};
ghost use Rattle.claim_board.specs.Rules.{named};
ghost use Rattle.claim_board.specs.Views.{placed_at};

use crate::events::{event, event_id};
use crate::plans::gives;
use crate::rolls::item;
use crate::said::Said;
use crate::sessions::local;
use claim_board::{Board, Cell, Lane};
use event_store::{Desk, Naming, Reader};
use fetch_plan::plan;
use mirror_core::{
    End, Fetch, FetchFault, FetchReport, Source, SourceFault, Stop, SyncFault, Synced, fetch_all,
    sync_plan,
};
use neg_codec::Id;
use neg_session::{Peer, SessionFault, SessionLimits};
use nostr_event::Event;
use nostr_filter::Filter;
use offer_table::{Bases, OfferTable};
use std::alloc::Global;
use std::collections::BTreeSet;
use std::sync::{Arc, Mutex, Wait};
use std::thread::Threads;

/// The names of the calls.
pub const NAMES: &[&str] = &["sync_plan", "fetch_all"];

/// Makes a plan with two relays: relay 0 has an item and relay 1 another one, neither of which is the store's.
pub fn synced<J: Naming, R: Threads + Wait + Sync>(
    rt: &R,
    alloc: Global,
    reader: &mut Reader<J>,
) -> Option<Said> {
    let mut peers = [local(alloc, &[item(1)])?, local(alloc, &[item(2)])?];
    let snapshot = reader.pin(alloc, &Filter::all()).ok()?;
    let (bases, limits) = (Bases::none(), SessionLimits::default());
    match sync_plan(rt, alloc, &mut peers, &snapshot, &bases, &limits) {
        Ok(done) => shared_out(&done),
        Err(SyncFault::Memory) => {
            Said::memory(peers[0].failures() == 0 && peers[1].failures() == 0)
        }
        Err(_) => Said::wrong(),
    }
}

/// What a plan comes to, which has to be one of what the sessions found that finished.
fn shared_out(done: &Synced) -> Option<Said> {
    let [first, second] = done.ends.as_slice() else {
        return Said::wrong();
    };
    match (first, second) {
        (End::Finished(_), End::Finished(_)) => {
            Said::ample(gives(&done.plan, &[(1, 0), (2, 1)], 1))
        }
        (End::Finished(_), End::Failed(SessionFault::Memory)) => {
            Said::allowed(gives(&done.plan, &[(1, 0)], 1))
        }
        (End::Failed(SessionFault::Memory), End::Finished(_)) => {
            Said::allowed(gives(&done.plan, &[(2, 1)], 1))
        }
        _ => Said::wrong(),
    }
}

/// A source that gives an event whatever it is asked.
#[derive(Drop)]
struct Giving {
    alloc: Global,
    event: Arc<Event>,
    log: Vec<Fetch>,
}

impl Giving {
    fn new(alloc: Global, event: Arc<Event>) -> Giving {
        Giving {
            alloc,
            event,
            log: Vec::new(alloc),
        }
    }
}

impl Source for Giving {
    ghost log = { λ s. s.log.items };

    ghost faults = { λ s. 0 };

    ghost becomes = { λ s t. Unit {0} };

    ghost stays = { λ s. tt };

    ghost goes_on = { λ s t u h k. tt };

    fn fetch(&mut self, ids: &[Id]) -> Result<Vec<Arc<Event>>, SourceFault> {
        let mut given = Vec::new(self.alloc);
        given.push(Arc::try_clone(&self.event)?)?;
        self.log.push(Fetch::of(self.alloc, ids, &given)?)?;
        Ok(given)
    }

    fn fetches(&self) -> &[Fetch] {
        self.log.as_slice()
    }

    fn failures(&self) -> u64 {
        0
    }
}

/// The report of a relay that has this event.
fn report(alloc: Global, relay: u16, event: &Event) -> Option<OfferTable> {
    let mut ids = BTreeSet::new(alloc);
    ids.insert(event.id()).ok()?;
    OfferTable::of_report(alloc, relay, &ids).ok()
}

/// The board of what two relays have, the first event's relay with the second lane.
fn board<J: Naming>(alloc: Global, lower: &Event, upper: &Event) -> Option<(Board<J>, Vec<Lane>)>
    ensures { IfSome result (λ r. r.1.items ≡ map (placed_at r.0.board) (named 0 r.0.lanes)) }
{
    let table = report(alloc, 0, lower)?
        .merge(report(alloc, 1, upper)?)
        .ok()?;
    let plan = plan(alloc, &table, &Bases::none()).ok()?;
    Board::new(alloc, &plan, &[0, 1]).ok()
}

/// Fetches into an empty store: relay 0 gives the second event, whose id is the lower one, and relay 1 the first.
pub fn fetched<J: Naming + Send + Sync, R: Threads + Wait + Sync>(
    rt: &R,
    alloc: Global,
    desk: &Mutex<Desk<J, &R>>,
    reader: &mut Reader<J>,
) -> Option<Said> {
    let (lower, upper) = (event(alloc, 1)?, event(alloc, 0)?);
    let (board, lanes) = board(alloc, &lower, &upper)?;
    let mut sources = [Giving::new(alloc, lower), Giving::new(alloc, upper)];
    match fetch_all(rt, alloc, board, lanes, &mut sources, desk) {
        Ok(report) => reported(reader, &report),
        Err(FetchFault::Memory) => Said::memory(has(reader, 0) == has(reader, 1)),
        Err(FetchFault::Lanes) => Said::wrong(),
    }
}

/// What a report comes to, whose cells and stops have to agree with what is published.
fn reported<J: Naming>(reader: &mut Reader<J>, report: &FetchReport<J>) -> Option<Said> {
    let (cells, stops) = (report.cells.as_slice(), report.stops.as_slice());
    let ([lower, upper], [first, second]) = (cells, stops) else {
        return Said::wrong();
    };
    let first = worked(reader, 1, *lower, first);
    let second = worked(reader, 0, *upper, second);
    let (Some(first), Some(second)) = (first, second) else {
        return Said::wrong();
    };
    if first && second {
        Said::ample(true)
    } else {
        Said::allowed(true)
    }
}

/// Whether the event at a place in the list is published.
fn has<J: Naming>(reader: &mut Reader<J>, at: usize) -> bool {
    let Ok(all) = reader.all() else {
        return false;
    };
    for place in 0..all.events().len() {
        if event_id(at) == Some(all.events().get(place).id()) {
            return true;
        }
    }
    false
}

/// Whether the worker of an event's cell came through, unless the cell or the store isn't as it has to be.
fn worked<J: Naming>(
    reader: &mut Reader<J>,
    at: usize,
    cell: Cell,
    stop: &Stop<J>,
) -> Option<bool> {
    let is_through = match stop {
        Stop::Through => true,
        Stop::Source(SourceFault::Memory) | Stop::Memory => false,
        _ => return None,
    };
    let is_right = match cell {
        Cell::Done => has(reader, at),
        Cell::Free => !is_through && !has(reader, at),
        _ => false,
    };
    is_right.then_some(is_through)
}
