//! Rounds with peers in this process.

ghost use Rattle.std.specs.Prelude.{◌≡◌, ℕ, ◌+◌, ◌<◌, ◌^◌, ◌-◌, List, [], ◌∷◌, All, IfOk, IfErr, IfSome};

use super::events::event;
use event_store::{Blank, Naming, open_store};
use item_roll::Roll;
use mirror_core::{End, SyncFault, Synced, sync_plan};
use neg_codec::{Id, Item};
use neg_session::{LocalPeer, Outcome, Pair, Peer, PeerFault, SessionFault, SessionLimits};
use nostr_event::Event;
use nostr_filter::Filter;
use offer_table::Bases;
use sharing::RELAYS;
use std::alloc::Global;
use std::marker::Brand;
use std::rt::Clock;
use std::sync::{Arc, Wait};
use std::sync::atomic::{AtomicU64, Ordering};
use std::test::Fail;
use std::thread;
use std::thread::Threads;
use std::time::Duration;

/// Lists the id 01..01: 37 bytes.
const LISTS_ONE: &[u8] =
    b"\x61\x00\x00\x02\x01\x01\x01\x01\x01\x01\x01\x01\x01\x01\x01\x01\x01\x01\x01\x01\x01\x01\x01\x01\x01\x01\x01\x01\x01\x01\x01\x01\x01\x01\x01\x01\x01";

/// The event whose item is item 1.
fn first_event(alloc: Global) -> Option<Arc<Event>> {
    event(alloc, 1, 1)
}

/// The item of a byte, which is its time. Each item but 1 has it for all bytes of its id too.
fn item_of(alloc: Global, byte: u8) -> Option<Item> {
    if byte == 1 {
        return Some(first_event(alloc)?.item());
    }
    Some(Item {
        time: u64::from(byte),
        id: Id([byte; 32]),
    })
}

/// The roll of an item for each of these bytes, in order.
fn roll_of(alloc: Global, bytes: &[u8]) -> Option<Roll> {
    let mut items = Vec::with_capacity(alloc, bytes.len()).ok()?;
    for byte in bytes {
        items.push(item_of(alloc, *byte)?).ok()?;
    }
    Roll::from_items(alloc, &items).ok()
}

/// Peers of rolls of these bytes.
fn peers_of(alloc: Global, relays: &[&[u8]]) -> Option<Vec<LocalPeer>>
    ensures { IfSome result (λ v. All (λ p. p.faults < 2 ^ 64 - 1) v.items) }
{
    let mut peers = Vec::new(alloc);
    for bytes in relays {
        let roll = roll_of(alloc, bytes)?;
        peers.push(LocalPeer::new(alloc, roll, 4096)).ok()?;
    }
    Some(peers)
}

/// The bases of the relays, the first first.
fn bases_of(loads: &[u64]) -> Option<Bases> {
    let mut bases = Bases::none();
    let mut relay = 0;
    for load in loads {
        bases.set(relay, *load).ok()?;
        relay += 1;
    }
    Some(bases)
}

fn all_finished(ends: &[End]) -> bool {
    for end in ends {
        if !matches!(end, End::Finished(_)) {
            return false;
        }
    }
    true
}

/// Relays with items of these bytes, what their loads begin with, and the plan for a mirror that holds the item 1.
struct Case {
    relays: &'static [&'static [u8]],
    bases: &'static [u64],
    gives: &'static [(u8, u16)],
    least_max: u64,
    group: &'static [u16],
}

const CASES: &[Case] = &[
    Case {
        relays: &[b"\x01\x02", b"\x02\x03"],
        bases: &[],
        gives: &[(2, 0), (3, 1)],
        least_max: 1,
        group: &[0, 1],
    },
    Case {
        relays: &[b"\x02\x03", b"\x02\x03", b""],
        bases: &[5],
        gives: &[(2, 1), (3, 1)],
        least_max: 5,
        group: &[0],
    },
    Case {
        relays: &[b"\x01"],
        bases: &[],
        gives: &[],
        least_max: 0,
        group: &[],
    },
];

/// Whether the round ended as the case says.
fn is_as_told(done: &Synced, case: &Case) -> bool {
    for give in case.gives {
        if done.plan.relay_of(&Id([give.0; 32])) != Some(give.1) {
            return false;
        }
    }
    for relay in 0..RELAYS {
        if done.plan.group().has(relay) != case.group.contains(&relay) {
            return false;
        }
    }
    all_finished(&done.ends)
        && done.ends.len() == case.relays.len()
        && done.plan.len() == case.gives.len()
        && done.plan.least_max() == case.least_max
}

/// Brings a store of these events level with such relays.
fn planned<J: Naming, D: Wait + Drop, R: Threads + Wait + Sync, P: Peer + Send>(
    rt: &R,
    keep: D,
    alloc: Global,
    blank: Blank,
    held: &[Arc<Event>],
    peers: &mut [P],
    bases: &Bases,
) -> Option<Result<Synced, SyncFault>>
    requires book { blank ≡ J.book }
    requires most { J.most ≡ 1000000 }
    requires ready { All (λ p. P.faults p < 2 ^ 64 - 1) peers.old }
{
    let (mut desk, mut readers) = open_store::<J, D>(keep, alloc, blank, 1).ok()?;
    desk.insert_all(rt, held).ok()?;
    let mut reader = readers.pop()?;
    let snapshot = reader.pin(alloc, &Filter::all()).ok()?;
    let limits = SessionLimits::default();
    Some(sync_plan(rt, alloc, peers, &snapshot, bases, &limits))
}

/// The same of an empty store, which is named, and where all loads begin at 0.
fn synced_whole<R: Threads + Wait + Sync, P: Peer + Send>(
    rt: &R,
    alloc: Global,
    peers: &mut [P],
) -> Option<Result<Synced, SyncFault>>
    requires ready { All (λ p. P.faults p < 2 ^ 64 - 1) peers.old }
{
    let (blank, bases) = (Blank::new(), Bases::none());
    planned::<Brand, &R, R, P>(rt, rt, alloc, blank, &[], peers, &bases)
}

/// The same of a store of item 1, where the loads begin as the case says.
fn synced<R: Threads + Wait + Sync>(rt: &R, alloc: Global, case: &Case) -> Option<Synced> {
    let held = [first_event(alloc)?];
    let mut peers = peers_of(alloc, case.relays)?;
    let (blank, bases) = (Blank::new(), bases_of(case.bases)?);
    planned::<Brand, &R, R, LocalPeer>(rt, rt, alloc, blank, &held, &mut peers, &bases)?.ok()
}

#[test]
fn needed_ids_are_shared_out(rt: HostRuntime) -> Result<(), Fail> {
    for case in CASES {
        let done = synced(&rt, rt.alloc(), case);
        assert!(rt; done.is_some_and(|done| is_as_told(&done, case)));
    }
    Ok(())
}

/// More peers than there may be, with the item 1 each.
static MANY: [&[u8]; 257] = [b"\x01"; 257];

/// Whether the sessions with so many relays finished, of which one is to be asked for the item.
fn all_share_out<R: Threads + Wait + Sync>(rt: &R, alloc: Global, relays: &[&[u8]]) -> bool {
    let Some(mut peers) = peers_of(alloc, relays) else {
        return false;
    };
    let done = synced_whole(rt, alloc, &mut peers);
    done.is_some_and(|done| {
        done.is_ok_and(|done| {
            done.ends.len() == relays.len()
                && all_finished(&done.ends)
                && done.plan.least_max() == 1
        })
    })
}

#[test]
fn more_than_64_relays_share_out(rt: HostRuntime) -> Result<(), Fail> {
    let alloc = rt.alloc();
    assert!(rt; all_share_out(&rt, alloc, &MANY[..65]) && all_share_out(&rt, alloc, &MANY[..256]));
    Ok(())
}

/// The fault where so many relays are asked, of which none was.
fn refused<R: Threads + Wait + Sync>(rt: &R, alloc: Global, relays: &[&[u8]]) -> Option<SyncFault> {
    let mut peers = peers_of(alloc, relays)?;
    let done = synced_whole(rt, alloc, &mut peers)?;
    for peer in &peers {
        if !peer.pairs().is_empty() {
            return None;
        }
    }
    done.err()
}

#[test]
fn one_to_256_relays_are_asked(rt: HostRuntime) -> Result<(), Fail> {
    let none = refused(&rt, rt.alloc(), &[]);
    let many = refused(&rt, rt.alloc(), &MANY);
    assert!(rt; none == Some(SyncFault::NoRelay) && many == Some(SyncFault::TooMany));
    Ok(())
}

/// Whether the flag is set within ten thousand turns of a millisecond each.
pub(crate) fn is_set_in_time<C: Clock>(clock: &C, flag: &AtomicU64) -> bool {
    for _turn in 0..10_000u32 {
        if flag.load(Ordering::SeqCst) != 0 {
            return true;
        }
        thread::sleep(clock, Duration::from_millis(1));
    }
    false
}

fn pair_of(alloc: Global, question: &[u8], reply: &[u8]) -> Result<Pair, PeerFault>
    ensures pair { IfOk result (λ p. (p.asked ≡ question.now) × (p.answered ≡ reply.now)) }
    ensures memory { IfErr result (λ e. e ≡ PeerFault.Memory) }
{
    Ok(Pair {
        asked: question.to_vec(alloc)?,
        answered: reply.to_vec(alloc)?,
    })
}

/// What a peer's flag is once it was told that its session finished.
const FINISHED: u64 = 2;

/// What it is once it was told that its session failed.
const FAILED: u64 = 3;

/// A peer that gives one answer, once another one was asked. Without an answer it fails. Its flag tells that it was asked, and then
/// how its session ended.
#[derive(Drop)]
struct Waiting<'a, C> {
    alloc: Global,
    clock: &'a C,
    mine: &'a AtomicU64,
    theirs: &'a AtomicU64,
    answer: Option<&'static [u8]>,
    pairs: Vec<Pair>,
    failures: u64,
}

impl<'a, C> Waiting<'a, C> {
    fn new(
        alloc: Global,
        clock: &'a C,
        mine: &'a AtomicU64,
        theirs: &'a AtomicU64,
        answer: Option<&'static [u8]>,
    ) -> Waiting<'a, C>
        ensures { result.failures ≡ 0 }
    {
        Waiting {
            alloc,
            clock,
            mine,
            theirs,
            answer,
            pairs: Vec::new(alloc),
            failures: 0,
        }
    }
}

impl<C: Clock> Waiting<'_, C> {
    fn answered(&self) -> Option<&'static [u8]> {
        self.mine.store(1, Ordering::SeqCst);
        if is_set_in_time(self.clock, self.theirs) {
            self.answer
        } else {
            None
        }
    }
}

impl<C: Clock> Peer for Waiting<'_, C> {
    ghost log = { λ p. p.pairs.items };

    ghost faults = { λ p. p.failures };

    ghost becomes = { λ p q. Unit {0} };

    ghost fails = { λ q. Unit {0} };

    ghost stays = { λ p. tt };

    ghost goes_on = { λ p q r h k. tt };

    fn ask(&mut self, question: &[u8]) -> Result<Vec<u8>, PeerFault> {
        let Some(answer) = self.answered() else {
            self.failures += 1;
            return Err(PeerFault::Failed);
        };
        let reply = answer.to_vec(self.alloc)?;
        let pair = pair_of(self.alloc, question, reply.as_slice())?;
        self.pairs.push(pair)?;
        Ok(reply)
    }

    fn pairs(&self) -> &[Pair] {
        self.pairs.as_slice()
    }

    fn failures(&self) -> u64 {
        self.failures
    }

    fn ended(&self, end: Result<&Outcome, SessionFault>) {
        let told = if end.is_ok() { FINISHED } else { FAILED };
        self.mine.store(told, Ordering::SeqCst);
    }
}

/// Brings an empty store level with these peers.
fn met<R: Threads + Clock + Wait + Sync>(
    rt: &R,
    alloc: Global,
    peers: &mut [Waiting<'_, R>],
) -> Option<Synced>
    requires { All (λ p. p.failures < 2 ^ 64 - 1) peers.old }
{
    synced_whole(rt, alloc, peers)?.ok()
}

#[test]
fn two_sessions_meet(rt: HostRuntime) -> Result<(), Fail> {
    let alloc = rt.alloc();
    let (one, two) = (AtomicU64::new(0), AtomicU64::new(0));
    let mut peers = [
        Waiting::new(alloc, &rt, &one, &two, Some(b"\x61")),
        Waiting::new(alloc, &rt, &two, &one, Some(b"\x61")),
    ];
    let done = met(&rt, alloc, &mut peers);
    assert!(rt;
        done.is_some_and(|done| {
            done.ends.len() == 2 && all_finished(&done.ends) && done.plan.len() == 0
        })
    );
    Ok(())
}

/// Whether the first relay failed, and the second one finished and is asked for what it has.
fn has_one(done: &Synced) -> bool {
    let [first, second] = done.ends.as_slice() else {
        return false;
    };
    matches!(first, End::Failed(SessionFault::PeerFailed))
        && matches!(second, End::Finished(_))
        && !done.table.reported().has(0)
        && done.table.reported().has(1)
        && done.plan.relay_of(&Id([1; 32])) == Some(1)
}

#[test]
fn one_fails(rt: HostRuntime) -> Result<(), Fail> {
    let alloc = rt.alloc();
    let (one, two) = (AtomicU64::new(1), AtomicU64::new(1));
    let mut peers = [
        Waiting::new(alloc, &rt, &one, &two, None),
        Waiting::new(alloc, &rt, &two, &one, Some(LISTS_ONE)),
    ];
    let done = met(&rt, alloc, &mut peers);
    assert!(rt; done.is_some_and(|done| has_one(&done)));
    assert_eq!(rt;
        (one.load(Ordering::SeqCst), two.load(Ordering::SeqCst)),
        (FAILED, FINISHED)
    );
    Ok(())
}
