//! Workers that fetch beside one another.

ghost use Rattle.std.specs.Prelude.{◌≡◌, ◌<◌, ◌^◌, ◌-◌, All, map, IfSome};
ghost use Rattle.claim_board.specs.Rules.{named};
ghost use Rattle.claim_board.specs.Views.{placed_at};

use super::events::event;
use super::rounds::is_set_in_time;
use claim_board::{Board, Cell, Lane};
use event_store::{Blank, Desk, InsertFault, Naming, Reader, open_small, open_store};
use fetch_plan::plan;
use mirror_core::{Fetch, FetchReport, Source, SourceFault, Stop, fetch_all};
use neg_codec::Id;
use nostr_event::Event;
use nostr_filter::Filter;
use offer_table::{Bases, OfferTable};
use std::alloc::{AllocError, Global};
use std::collections::BTreeSet;
use std::marker::Brand;
use std::rt::Clock;
use std::sync::atomic::{AtomicU64, Ordering};
use std::sync::{Arc, Mutex, Wait};
use std::test::*;
use std::thread::Threads;

/// Events of the times from the first on, and then the same again, so many times in all.
fn events(alloc: Global, first: u64, count: u64, times: u64) -> Option<Vec<Arc<Event>>> {
    let mut all = Vec::new(alloc);
    for k in 0..count.saturating_mul(times) {
        let time = first.saturating_add(if k < count { k } else { k - count });
        all.push(event(alloc, time, time)?).ok()?;
    }
    Some(all)
}

/// A relay's report of these events.
fn report(alloc: Global, relay: u16, events: &[Arc<Event>]) -> Option<OfferTable> {
    let mut ids = BTreeSet::new(alloc);
    for event in events {
        ids.insert(event.id()).ok()?;
    }
    OfferTable::of_report(alloc, relay, &ids).ok()
}

/// A source that gives the same events whatever it is asked, once another source was asked, and fails after so many times.
#[derive(Drop)]
struct Giving<'a, C> {
    alloc: Global,
    clock: &'a C,
    mine: &'a AtomicU64,
    theirs: &'a AtomicU64,
    events: &'a [Arc<Event>],
    left: u64,
    log: Vec<Fetch>,
    failures: u64,
}

impl<'a, C> Giving<'a, C> {
    fn new(
        alloc: Global,
        clock: &'a C,
        mine: &'a AtomicU64,
        theirs: &'a AtomicU64,
        events: &'a [Arc<Event>],
        left: u64,
    ) -> Giving<'a, C>
        ensures { result.failures ≡ 0 }
    {
        Giving {
            alloc,
            clock,
            mine,
            theirs,
            events,
            left,
            log: Vec::new(alloc),
            failures: 0,
        }
    }
}

/// The same events once more.
fn again(alloc: Global, events: &[Arc<Event>]) -> Result<Vec<Arc<Event>>, AllocError> {
    let mut all = Vec::new(alloc);
    for event in events {
        all.push(Arc::try_clone(event)?)?;
    }
    Ok(all)
}

impl<C: Clock> Source for Giving<'_, C> {
    ghost log = { λ s. s.log.items };

    ghost faults = { λ s. s.failures };

    ghost becomes = { λ s t. Unit {0} };

    ghost stays = { λ s. tt };

    ghost goes_on = { λ s t u h k. tt };

    fn fetch(&mut self, ids: &[Id]) -> Result<Vec<Arc<Event>>, SourceFault> {
        self.mine.store(1, Ordering::SeqCst);
        if self.left == 0 || !is_set_in_time(self.clock, self.theirs) {
            self.failures += 1;
            return Err(SourceFault::Failed);
        }
        self.left -= 1;
        let given = again(self.alloc, self.events)?;
        self.log.push(Fetch::of(self.alloc, ids, &given)?)?;
        Ok(given)
    }

    fn fetches(&self) -> &[Fetch] {
        self.log.as_slice()
    }

    fn failures(&self) -> u64 {
        self.failures
    }
}

/// A plan's board with a lane for each source, and the lanes.
fn board_of<J: Naming>(
    alloc: Global,
    table: &OfferTable,
    lanes: &[u16],
) -> Option<(Board<J>, Vec<Lane>)>
    ensures { IfSome result (λ r. r.1.items ≡ map (placed_at r.0.board) (named 0 r.0.lanes)) }
{
    let plan = plan(alloc, table, &Bases::none()).ok()?;
    Board::new(alloc, &plan, lanes).ok()
}

/// How many cells ended so.
fn count(cells: &[Cell], end: Cell) -> usize {
    let mut found = 0usize;
    for cell in cells {
        if *cell == end {
            found = found.saturating_add(1);
        }
    }
    found
}

/// How many cells are done, missed and free, whether the first worker's source failed, and how many events the store has then.
type Found = (usize, usize, usize, bool, usize);

fn found<J: Naming>(
    alloc: Global,
    report: Option<FetchReport<J>>,
    reader: &mut Reader<J>,
) -> Option<Found> {
    let report = report?;
    let all = reader.pin(alloc, &Filter::all()).ok()?;
    let cells = report.cells.as_slice();
    Some((
        count(cells, Cell::Done),
        count(cells, Cell::Missed),
        count(cells, Cell::Free),
        matches!(
            report.stops.first(),
            Some(Stop::Source(SourceFault::Failed))
        ),
        all.front(),
    ))
}

/// Fetches what a table offers, by a lane and a source for each of these relays.
fn report_of<
    R: Threads + Wait + Clock + Sync,
    J: Naming + Send + Sync,
    D: Wait + Drop + Send + Sync,
>(
    rt: &R,
    alloc: Global,
    table: &OfferTable,
    relays: &[u16],
    sources: &mut [Giving<'_, R>],
    desk: &Mutex<Desk<J, D>>,
) -> Option<FetchReport<J>>
    requires { All (λ s. s.failures < 2 ^ 64 - 1) sources.old }
{
    let (board, lanes) = board_of(alloc, table, relays)?;
    fetch_all(rt, alloc, board, lanes, sources, desk).ok()
}

/// Fetches from a relay that gives these events and fails after so many times.
fn one_gives<
    R: Threads + Wait + Clock + Sync,
    J: Naming + Send + Sync,
    D: Wait + Drop + Send + Sync,
>(
    rt: &R,
    alloc: Global,
    table: &OfferTable,
    given: &[Arc<Event>],
    times: u64,
    desk: &Mutex<Desk<J, D>>,
) -> Option<FetchReport<J>> {
    let set = AtomicU64::new(1);
    let mut sources = [Giving::new(alloc, rt, &set, &set, given, times)];
    report_of(rt, alloc, table, &[0], &mut sources, desk)
}

/// Fetches from two relays that give these events once both were asked.
fn both_give<
    'x,
    R: Threads + Wait + Clock + Sync,
    J: Naming + Send + Sync,
    D: Wait + Drop + Send + Sync,
>(
    rt: &R,
    alloc: Global,
    table: &OfferTable,
    here: &'x [Arc<Event>],
    there: &'x [Arc<Event>],
    desk: &Mutex<Desk<J, D>>,
) -> Option<FetchReport<J>> {
    let (one, two) = (AtomicU64::new(0), AtomicU64::new(0));
    let mut sources = [
        Giving::new(alloc, rt, &one, &two, here, 1),
        Giving::new(alloc, rt, &two, &one, there, 1),
    ];
    report_of(rt, alloc, table, &[0, 1], &mut sources, desk)
}

/// A relay lists so many events and is asked for them; it gives so many, each twice, the first of which are those, and fails after
/// so many times.
#[derive(Clone, Copy)]
struct Case {
    listed: u64,
    given: u64,
    times: u64,
}

/// What is fetched, into an empty store.
#[derive(Clone, Copy)]
enum Play {
    /// What a relay gives.
    Give(Case),
    /// What two relays with an event each give once both were asked.
    Meet,
}

fn played<R: Threads + Wait + Clock + Sync, J: Naming + Send + Sync, D: Wait + Drop + Send + Sync>(
    rt: &R,
    keep: D,
    alloc: Global,
    blank: Blank,
    play: Play,
) -> Option<Found>
    requires book { blank ≡ J.book }
    requires most { J.most ≡ 1000000 }
{
    let (desk, mut readers) = open_store::<J, D>(keep, alloc, blank, 1).ok()?;
    let mut reader = readers.pop()?;
    let desk = Mutex::new(desk);
    let report = match play {
        Play::Give(case) => gives(rt, alloc, case, &desk),
        Play::Meet => meet(rt, alloc, &desk),
    };
    found(alloc, report, &mut reader)
}

fn gives<R: Threads + Wait + Clock + Sync, J: Naming + Send + Sync, D: Wait + Drop + Send + Sync>(
    rt: &R,
    alloc: Global,
    case: Case,
    desk: &Mutex<Desk<J, D>>,
) -> Option<FetchReport<J>> {
    let table = report(alloc, 0, events(alloc, 0, case.listed, 1)?.as_slice())?;
    let given = events(alloc, 0, case.given, 2)?;
    one_gives(rt, alloc, &table, &given, case.times, desk)
}

fn meet<R: Threads + Wait + Clock + Sync, J: Naming + Send + Sync, D: Wait + Drop + Send + Sync>(
    rt: &R,
    alloc: Global,
    desk: &Mutex<Desk<J, D>>,
) -> Option<FetchReport<J>> {
    let here = events(alloc, 0, 1, 1)?;
    let there = events(alloc, 1, 1, 1)?;
    let table = merged(report(alloc, 0, &here), report(alloc, 1, &there))?;
    both_give(rt, alloc, &table, &here, &there, desk)
}

fn merged(one: Option<OfferTable>, other: Option<OfferTable>) -> Option<OfferTable> {
    one?.merge(other?).ok()
}

static CASES: [(Case, Found); 4] = [
    (
        Case {
            listed: 2,
            given: 1,
            times: 1,
        },
        (1, 1, 0, false, 1),
    ),
    (
        Case {
            listed: 2,
            given: 2,
            times: 0,
        },
        (0, 0, 2, true, 0),
    ),
    (
        Case {
            listed: 2,
            given: 4,
            times: 1,
        },
        (2, 0, 0, false, 2),
    ),
    (
        Case {
            listed: 250,
            given: 250,
            times: 1,
        },
        (100, 0, 150, true, 100),
    ),
];

#[test]
fn two_sources_meet(rt: HostRuntime) -> Result<(), Fail> {
    let found = played::<_, Brand, _>(&rt, &rt, rt.alloc(), Blank::new(), Play::Meet);
    assert_eq!(rt; found, Some((2, 0, 0, false, 2)));
    Ok(())
}

/// Whether the store says that it has the event of that time. Else it says that it is full.
fn told<R: Wait, J: Naming, D: Wait + Drop>(
    rt: &R,
    alloc: Global,
    desk: &Mutex<Desk<J, D>>,
    time: u64,
) -> Option<bool> {
    match desk.lock(rt).insert(rt, event(alloc, time, time)?) {
        Ok(placed) => (!placed.is_fresh()).then_some(true),
        Err((InsertFault::Full(_), _event)) => Some(false),
        Err(_) => None,
    }
}

/// How many of a relay's two events are placed in a store that takes one, and how many cells are free; whether the worker stopped
/// for that; whether the store then has one of them, and is full for the other.
type Filled = (usize, usize, bool, bool);

fn fills_up<
    R: Threads + Wait + Clock + Sync,
    J: Naming + Send + Sync,
    D: Wait + Drop + Send + Sync,
>(rt: &R, keep: D, alloc: Global, blank: Blank) -> Option<Filled>
    requires book { blank ≡ J.book }
    requires most { J.most ≡ 1 }
{
    let (desk, _readers) = open_small::<J, D>(keep, alloc, blank, 1, 1).ok()?;
    let desk = Mutex::new(desk);
    let report = gives_both(rt, alloc, &desk);
    filled(report, told(rt, alloc, &desk, 0), told(rt, alloc, &desk, 1))
}

fn gives_both<
    R: Threads + Wait + Clock + Sync,
    J: Naming + Send + Sync,
    D: Wait + Drop + Send + Sync,
>(rt: &R, alloc: Global, desk: &Mutex<Desk<J, D>>) -> Option<FetchReport<J>> {
    let both = events(alloc, 0, 2, 1)?;
    let table = report(alloc, 0, &both)?;
    one_gives(rt, alloc, &table, &both, 1, desk)
}

fn filled<J: Naming>(
    report: Option<FetchReport<J>>,
    first: Option<bool>,
    second: Option<bool>,
) -> Option<Filled> {
    let report = report?;
    let cells = report.cells.as_slice();
    Some((
        count(cells, Cell::Done),
        count(cells, Cell::Free),
        matches!(report.stops.first(), Some(Stop::Full(_))),
        first? != second?,
    ))
}

// A source that gives less, fails, or gives each event twice and others; and a store that is full for the second event.
#[test]
fn fetch_faults(rt: HostRuntime) -> Result<(), Fail> {
    for (case, found) in CASES {
        let fetched = played::<_, Brand, _>(&rt, &rt, rt.alloc(), Blank::new(), Play::Give(case));
        assert_eq!(rt; fetched, Some(found));
    }
    let filled = fills_up::<_, Brand, _>(&rt, &rt, rt.alloc(), Blank::new());
    assert_eq!(rt; filled, Some((1, 1, true, true)));
    Ok(())
}
