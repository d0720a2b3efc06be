//! Connections of a relay.

use crate::events::{GIVEN, SENT, event, event_id, event_text, value_text};
use crate::over::Call;
use crate::said::Said;
use crate::stores::publishes;
use event_log::Kept;
use event_store::{Desk, Naming, Reader};
use nostr_wire::{FromRelay, write_relay};
use relay_core::{Conn, ConnFault, RelayLimits};
use std::alloc::Global;
use std::sync::Wait;

/// The names of the calls.
pub const NAMES: &[&str] = &[
    "Conn::serve EVENT",
    "Conn::serve REQ",
    "Conn::serve NEG-OPEN",
    "Conn::serve NEG-MSG",
    "Conn::stored",
    "Conn::catch_up",
];

const REQUEST: &str = r##"["REQ","s",{}]"##;

const EOSE: &str = r##"["EOSE","s"]"##;

const NEG_OPEN: &str = r##"["NEG-OPEN","s",{"kinds":[1]},"6100000200"]"##;

const NEG_MSG: &str = r##"["NEG-MSG","s","6100000200"]"##;

/// Lists the first event.
const LISTS_FIRST: &str =
    r##"["NEG-MSG","s","6100000201c834e78ee1a16342ad8786756ffb00d078df09ccbc0c6d17605aafc6897bc7de"]"##;

/// Tells that the first event is stored already.
const DUPLICATE: &str =
    r##"["OK","c834e78ee1a16342ad8786756ffb00d078df09ccbc0c6d17605aafc6897bc7de",true,"duplicate: already have this event"]"##;

/// What a call on a connection came to, over a store of the first event.
pub fn said_of<J: Naming, R: Wait>(
    rt: &R,
    alloc: Global,
    call: Call,
    desk: &mut Desk<J, &R>,
    reader: &mut Reader<J>,
) -> Option<Said> {
    let conn = &mut Conn::new(alloc, RelayLimits::default());
    match call {
        Call::Event => gives(alloc, conn, reader),
        Call::Request => {
            let first = event_text(alloc, SENT, 0)?;
            says(alloc, conn, reader, REQUEST, &[first.as_str(), EOSE])
        }
        Call::NegOpen => says(alloc, conn, reader, NEG_OPEN, &[LISTS_FIRST]),
        Call::NegMsg => {
            conn.serve(reader, NEG_OPEN).ok()?;
            says(alloc, conn, reader, NEG_MSG, &[LISTS_FIRST])
        }
        Call::Stored => stored(rt, alloc, desk, conn, reader),
        Call::CatchUp => catch_up(rt, alloc, desk, conn, reader),
        _ => None,
    }
}

/// Whether the messages are written so.
fn are(alloc: Global, messages: &[FromRelay], texts: &[&str]) -> Option<bool> {
    for (message, text) in messages.iter().zip(texts) {
        if write_relay(alloc, message).ok()?.as_str() != *text {
            return Some(false);
        }
    }
    Some(messages.len() == texts.len())
}

/// What a fault comes to, over a store of so many events: the connection is closed.
fn refused<J: Naming>(
    alloc: Global,
    conn: &mut Conn,
    reader: &mut Reader<J>,
    fault: ConnFault,
    count: usize,
) -> Option<Said> {
    let is_kept = matches!(conn.serve(reader, REQUEST), Err(ConnFault::Closed))
        && matches!(conn.catch_up(reader), Err(ConnFault::Closed))
        && publishes(alloc, reader, count);
    match fault {
        ConnFault::Memory => Said::memory(is_kept),
        ConnFault::Gone => Said::allowed(is_kept),
        ConnFault::Closed => Said::wrong(),
    }
}

/// The client sends the second event.
fn gives<J: Naming>(alloc: Global, conn: &mut Conn, reader: &mut Reader<J>) -> Option<Said> {
    let text = value_text(alloc, GIVEN, 1)?;
    match conn.serve(reader, text.as_str()) {
        Ok(step) => Said::ample(step.out.is_empty() && event_id(1) == Some(step.store?.id())),
        Err(fault) => refused(alloc, conn, reader, fault, 1),
    }
}

/// The client sends a text that is answered so.
fn says<J: Naming>(
    alloc: Global,
    conn: &mut Conn,
    reader: &mut Reader<J>,
    text: &str,
    answers: &[&str],
) -> Option<Said> {
    match conn.serve(reader, text) {
        Ok(step) => Said::ample(are(alloc, step.out.as_slice(), answers)?),
        Err(fault) => refused(alloc, conn, reader, fault, 1),
    }
}

/// The client is told that the first event, which it gave again, is stored already.
fn stored<J: Naming, R: Wait>(
    rt: &R,
    alloc: Global,
    desk: &mut Desk<J, &R>,
    conn: &mut Conn,
    reader: &mut Reader<J>,
) -> Option<Said> {
    let first = event(alloc, 0)?;
    let placed = desk.insert(rt, first).ok()?;
    let kept = Kept::in_memory(&placed);
    match conn.stored(reader, &placed, &kept) {
        Ok(message) => Said::ample(are(alloc, &[message], &[DUPLICATE])?),
        Err(fault) => refused(alloc, conn, reader, fault, 1),
    }
}

/// The second event is stored for another client, once this one has a subscription.
fn catch_up<J: Naming, R: Wait>(
    rt: &R,
    alloc: Global,
    desk: &mut Desk<J, &R>,
    conn: &mut Conn,
    reader: &mut Reader<J>,
) -> Option<Said> {
    conn.serve(reader, REQUEST).ok()?;
    let placed = desk.insert(rt, event(alloc, 1)?).ok()?;
    reader.learn(&placed);
    let second = event_text(alloc, SENT, 1)?;
    match conn.catch_up(reader) {
        Ok(due) => Said::ample(are(alloc, due.out.as_slice(), &[second.as_str()])?),
        Err(fault) => refused(alloc, conn, reader, fault, 2),
    }
}
