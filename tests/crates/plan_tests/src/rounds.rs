//! Rounds of a few ids.

use Answer::{Finished, Lost, MissedIt, Placed, Refused, Released, Sealed, Taken, Won};
use Step::{Again, Claim, Finish, Insert, Miss, Release, Report, Seal};
use fetch_plan::Cell;
use neg_codec::Id;
use offer_table::Bases;
use round_core::{Answer, Refusal, Round, RoundEvent};
use std::alloc::Global;
use std::collections::BTreeSet;
use std::test::Fail;

const A: Id = Id([10; 32]);

const B: Id = Id([11; 32]);

/// An event of a round, where a plan begins with a load of one relay, or none.
#[derive(Clone, Copy)]
enum Step {
    Report(u16, &'static [Id]),
    Seal(u16, u64),
    Again(u16, u64),
    Claim(u16, usize),
    Finish(u16, usize),
    Miss(u16, usize),
    Release(u16, usize),
    Insert(Id),
}

/// The relays of the lanes, what happens, and what is answered.
type Play = (&'static [u16], &'static [(Step, Answer)]);

/// A cell is finished once, and only once its id was placed.
static FINISHED_ONCE: [(Step, Answer); 9] = [
    (Report(0, &[A]), Taken),
    (Seal(0, 0), Sealed(1)),
    (Claim(0, 0), Won),
    (Claim(1, 0), Lost(Cell::Held(0))),
    (Finish(0, 0), Refused(Refusal::NotPlaced)),
    (Insert(A), Placed(true)),
    (Finish(0, 0), Finished),
    (Claim(1, 0), Lost(Cell::Done)),
    (Miss(0, 0), Refused(Refusal::NotHeld)),
];

static CLAIMED_AGAIN: [(Step, Answer); 9] = [
    (Report(0, &[A]), Taken),
    (Seal(0, 0), Sealed(1)),
    (Claim(0, 0), Won),
    (Claim(1, 0), Lost(Cell::Held(0))),
    (Release(0, 0), Released),
    (Claim(1, 0), Won),
    (Insert(A), Placed(true)),
    (Finish(1, 0), Finished),
    (Claim(0, 0), Lost(Cell::Done)),
];

static REFUSED_IN_ORDER: [(Step, Answer); 14] = [
    (Claim(0, 0), Refused(Refusal::NotSealed)),
    (Again(0, 0), Refused(Refusal::NotSealed)),
    (Report(0, &[A]), Taken),
    (Report(0, &[A]), Refused(Refusal::Double)),
    (Report(256, &[]), Refused(Refusal::Relay)),
    (Seal(255, 5), Sealed(5)),
    (Report(1, &[]), Refused(Refusal::Sealed)),
    (Seal(0, 0), Refused(Refusal::Sealed)),
    (Claim(3, 9), Refused(Refusal::NoLane)),
    (Claim(2, 9), Refused(Refusal::NoCell)),
    (Claim(2, 0), Refused(Refusal::OtherRelay)),
    (Miss(0, 0), Refused(Refusal::NotHeld)),
    (Release(0, 0), Refused(Refusal::NotHeld)),
    (Finish(0, 0), Refused(Refusal::NotHeld)),
];

/// An id goes where the base is less.
static OVER_A_BASE: [(Step, Answer); 5] = [
    (Report(0, &[A]), Taken),
    (Report(1, &[A]), Taken),
    (Seal(0, 2), Sealed(2)),
    (Claim(0, 0), Refused(Refusal::OtherRelay)),
    (Claim(1, 0), Won),
];

/// A missed id goes to another relay.
static MISSED: [(Step, Answer); 9] = [
    (Report(0, &[A]), Taken),
    (Report(1, &[A]), Taken),
    (Seal(1, 1), Sealed(1)),
    (Claim(0, 0), Won),
    (Again(0, 0), Refused(Refusal::Busy(0))),
    (Miss(0, 0), MissedIt),
    (Again(0, 0), Sealed(1)),
    (Claim(1, 0), Refused(Refusal::NoCell)),
    (Claim(1, 1), Won),
];

/// A done id is not planned again.
static DONE: [(Step, Answer); 12] = [
    (Report(0, &[A, B]), Taken),
    (Seal(0, 2), Sealed(4)),
    (Insert(A), Placed(true)),
    (Insert(B), Placed(true)),
    (Claim(0, 0), Won),
    (Finish(0, 0), Finished),
    (Again(0, 3), Sealed(4)),
    (Claim(0, 3), Refused(Refusal::NoCell)),
    (Claim(0, 2), Won),
    (Finish(0, 2), Finished),
    (Again(0, 0), Sealed(0)),
    (Claim(0, 3), Refused(Refusal::NoCell)),
];

fn with_base(relay: u16, load: u64) -> Bases {
    let mut bases = Bases::none();
    let _ = bases.set(relay, load);
    bases
}

fn report(alloc: Global, relay: u16, ids: &[Id]) -> Option<RoundEvent> {
    let mut need = BTreeSet::new(alloc);
    for id in ids {
        need.insert(*id).ok()?;
    }
    Some(RoundEvent::Report(relay, need))
}

fn event(alloc: Global, step: Step) -> Option<RoundEvent> {
    Some(match step {
        Report(relay, ids) => report(alloc, relay, ids)?,
        Seal(relay, load) => RoundEvent::Seal(with_base(relay, load)),
        Again(relay, load) => RoundEvent::Again(with_base(relay, load)),
        Claim(lane, cell) => RoundEvent::Claim(lane, cell),
        Finish(lane, cell) => RoundEvent::Finish(lane, cell),
        Miss(lane, cell) => RoundEvent::Miss(lane, cell),
        Release(lane, cell) => RoundEvent::Release(lane, cell),
        Insert(id) => RoundEvent::Insert(id),
    })
}

/// Whether what happens is answered so.
fn is_answered(alloc: Global, lanes: &[u16], steps: &[(Step, Answer)]) -> Option<bool> {
    let mut events = Vec::new(alloc);
    let mut wanted = Vec::new(alloc);
    for (step, answer) in steps {
        events.push(event(alloc, *step)?).ok()?;
        wanted.push(*answer).ok()?;
    }
    if lanes.len() > 1_024 {
        return None;
    }
    let got = Round::run(alloc, lanes, events.as_slice()).ok()?;
    Some(got.as_slice() == wanted.as_slice())
}

#[test]
fn rounds_are_played(rt: HostRuntime) -> Result<(), Fail> {
    let plays: [Play; 6] = [
        (&[0, 0], &FINISHED_ONCE),
        (&[0, 0], &CLAIMED_AGAIN),
        (&[0, 0, 1], &REFUSED_IN_ORDER),
        (&[0, 1], &OVER_A_BASE),
        (&[0, 1], &MISSED),
        (&[0], &DONE),
    ];
    for (play, (lanes, steps)) in plays.iter().enumerate() {
        assert_eq!(rt;
            (play, is_answered(rt.alloc(), lanes, steps)),
            (play, Some(true))
        );
    }
    Ok(())
}
