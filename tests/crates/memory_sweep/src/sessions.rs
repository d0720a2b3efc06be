//! Answers, asks and whole sessions.

ghost use Rattle.std.specs.Prelude.{◌≡◌, IfSome};

use crate::rolls::{has_items, item, line};
use crate::said::Said;
use item_roll::Roll;
use neg_codec::{Id, Item};
use neg_initiator::{InitFault, Initiator, Next};
use neg_responder::{AnswerFault, answer};
use neg_session::{LocalPeer, Peer, PeerFault, SessionFault, SessionLimits, reconcile_with};
use std::alloc::Global;

/// The names of the calls.
pub const NAMES: &[&str] = &["answer", "start", "take", "ask", "reconcile_with"];

/// What the call of that name came to.
pub fn said_of(alloc: Global, name: &str) -> Option<Said> {
    match name {
        "answer" => answered(alloc),
        "start" => start(alloc),
        "take" => take(alloc),
        "ask" => ask(alloc),
        "reconcile_with" => reconciled(alloc),
        _ => None,
    }
}

/// Asks for all ids, and lists none.
const ASK_ALL: &[u8] = b"\x61\x00\x00\x02\x00";
/// Lists the id 01..01.
const LISTS_ONE: &[u8] =
    b"\x61\x00\x00\x02\x01\x01\x01\x01\x01\x01\x01\x01\x01\x01\x01\x01\x01\x01\x01\x01\x01\x01\x01\x01\x01\x01\x01\x01\x01\x01\x01\x01\x01\x01\x01\x01\x01";
/// Lists the id 01..01 below the time 5, and the fingerprint 77..77 of the rest.
const LISTS_AND_PRINTS: &[u8] =
    b"\x61\x06\x00\x02\x01\x01\x01\x01\x01\x01\x01\x01\x01\x01\x01\x01\x01\x01\x01\x01\x01\x01\x01\x01\x01\x01\x01\x01\x01\x01\x01\x01\x01\x01\x01\x01\x01\x00\x00\x01\x77\x77\x77\x77\x77\x77\x77\x77\x77\x77\x77\x77\x77\x77\x77\x77";
/// Skips what is below the time 5, and lists no id of the rest.
const ASKS_THE_REST: &[u8] = b"\x61\x06\x00\x00\x00\x00\x02\x00";

fn answered(alloc: Global) -> Option<Said> {
    let items = line(alloc, 1, 2)?;
    let roll = Roll::from_items(alloc, &items).ok()?;
    match answer(alloc, &roll, ASK_ALL, 4_096) {
        Ok(bytes) => Said::ample(bytes.as_slice() == LISTS_ONE),
        Err(AnswerFault::Memory) => Said::memory(has_items(&roll, &items)),
        Err(_) => Said::wrong(),
    }
}

fn start(alloc: Global) -> Option<Said> {
    let roll = Roll::from_items(alloc, &[]).ok()?;
    match Initiator::start(alloc, &roll, 4_096, 10) {
        Ok((session, bytes)) => Said::ample(!session.is_done() && bytes.as_slice() == ASK_ALL),
        Err(_) => Said::memory(true),
    }
}

fn take(alloc: Global) -> Option<Said> {
    let roll = Roll::from_items(alloc, &[]).ok()?;
    let (mut session, _) = Initiator::start(alloc, &roll, 4_096, 10).ok()?;
    match session.take(LISTS_AND_PRINTS) {
        Ok(Next::Ask(bytes)) => Said::ample(bytes.as_slice() == ASKS_THE_REST),
        Err(InitFault::Memory) => Said::memory(
            !session.is_done() && matches!(session.take(b"\x61"), Err(InitFault::Spent)),
        ),
        _ => Said::wrong(),
    }
}

/// A peer that has these items.
pub fn local(alloc: Global, items: &[Item]) -> Option<LocalPeer>
    ensures { IfSome result (λ p. p.faults ≡ 0) }
{
    let theirs = Roll::from_items(alloc, items).ok()?;
    Some(LocalPeer::new(alloc, theirs, 4_096))
}

fn ask(alloc: Global) -> Option<Said> {
    let mut peer = local(alloc, &[item(1)])?;
    match peer.ask(ASK_ALL) {
        Ok(bytes) => Said::ample(bytes.as_slice() == LISTS_ONE && peer.pairs().len() == 1),
        Err(PeerFault::Memory) => Said::memory(
            peer.pairs().is_empty() && peer.failures() == 0 && peer.ask(ASK_ALL).is_ok(),
        ),
        Err(PeerFault::Failed) => Said::wrong(),
    }
}

fn reconciled(alloc: Global) -> Option<Said> {
    let mine = Roll::from_items(alloc, &[item(2)]).ok()?;
    let mut peer = local(alloc, &[item(1)])?;
    match reconcile_with(alloc, &mut peer, &mine, &SessionLimits::default()) {
        Ok(found) => Said::ample(
            found.need.len() == 1
                && found.need.contains(&Id([1; 32]))
                && found.have.contains(&Id([2; 32]))
                && found.trusted.is_empty(),
        ),
        Err(SessionFault::Memory) => {
            Said::memory(peer.pairs().len() <= 1 && peer.failures() == 0)
        }
        Err(_) => Said::wrong(),
    }
}
