//! What no run of the program shows of connections: a store that is full or gone, and limits that no settings reach.
ghost use Rattle.std.specs.Prelude.{◌≡◌, ◌≤◌};

use super::events::event;
use event_log::Kept;
use event_store::{Blank, Desk, Naming, Reader, open_small, open_store};
use nostr_event::Event;
use nostr_wire::{FromRelay, write_relay};
use relay_core::{Conn, ConnFault, RelayLimits, Step, StoringFault};
use std::alloc::Global;
use std::marker::Brand;
use std::sync::{Arc, Wait};
use std::test::*;

/// What a client says, and what it is answered.
type Script = &'static [(&'static str, &'static str)];

/// One subscription, and one session about one event. The store takes two events.
static FEW: [(&str, &str); 16] = [
    (
        r##"["EVENT",{"id":"dcde1a2a9420ced2833ecdf9a0c3feb9cd9b2d277370b065433fc3dab1ae960a","pubkey":"0101010101010101010101010101010101010101010101010101010101010101","created_at":9,"kind":1,"tags":[],"content":"1","sig":"5a5a5a5a5a5a5a5a5a5a5a5a5a5a5a5a5a5a5a5a5a5a5a5a5a5a5a5a5a5a5a5a5a5a5a5a5a5a5a5a5a5a5a5a5a5a5a5a5a5a5a5a5a5a5a5a5a5a5a5a5a5a5a5a"}]"##,
        r##"["OK","dcde1a2a9420ced2833ecdf9a0c3feb9cd9b2d277370b065433fc3dab1ae960a",true,""]"##,
    ),
    (
        r##"["NEG-OPEN","s",{},"6100000200"]"##,
        r##"["NEG-MSG","s","6100000201dcde1a2a9420ced2833ecdf9a0c3feb9cd9b2d277370b065433fc3dab1ae960a"]"##,
    ),
    (
        r##"["NEG-OPEN","t",{},"61"]"##,
        r##"["NEG-ERR","t","blocked: too many sessions"]"##,
    ),
    (r##"["NEG-MSG","s","61"]"##, r##"["NEG-MSG","s","61"]"##),
    (
        r##"["EVENT",{"id":"ddc79761c55c70341e7c207d769ad686a8b8e3f82408006465aeb8dde0119e79","pubkey":"0101010101010101010101010101010101010101010101010101010101010101","created_at":10,"kind":1,"tags":[],"content":"2","sig":"5a5a5a5a5a5a5a5a5a5a5a5a5a5a5a5a5a5a5a5a5a5a5a5a5a5a5a5a5a5a5a5a5a5a5a5a5a5a5a5a5a5a5a5a5a5a5a5a5a5a5a5a5a5a5a5a5a5a5a5a5a5a5a5a"}]"##,
        r##"["OK","ddc79761c55c70341e7c207d769ad686a8b8e3f82408006465aeb8dde0119e79",true,""]"##,
    ),
    (
        r##"["NEG-OPEN","s",{},"61"]"##,
        r##"["NEG-ERR","s","blocked: this query is too big"]"##,
    ),
    (
        r##"["NEG-MSG","s","61"]"##,
        r##"["NEG-ERR","s","closed: no such session"]"##,
    ),
    (
        r##"["NEG-OPEN","t",{"until":9},"61"]"##,
        r##"["NEG-MSG","t","61"]"##,
    ),
    (
        r##"["NEG-OPEN","t",{},"6105"]"##,
        r##"["NEG-ERR","t","blocked: this query is too big"]"##,
    ),
    (
        r##"["REQ","a",{},{}]"##,
        r##"["CLOSED","a","blocked: too many filters"]"##,
    ),
    (r##"["REQ","a",{"until":8}]"##, r##"["EOSE","a"]"##),
    (
        r##"["REQ","b",{}]"##,
        r##"["CLOSED","b","blocked: too many subscriptions"]"##,
    ),
    (
        r##"["EVENT",{"id":"4f50b36a4f00cbfddb22b5eb6d4208f443fe133b6155f5f1933f4520e0b1f43b","pubkey":"0101010101010101010101010101010101010101010101010101010101010101","created_at":10,"kind":1,"tags":[],"content":"3","sig":"5a5a5a5a5a5a5a5a5a5a5a5a5a5a5a5a5a5a5a5a5a5a5a5a5a5a5a5a5a5a5a5a5a5a5a5a5a5a5a5a5a5a5a5a5a5a5a5a5a5a5a5a5a5a5a5a5a5a5a5a5a5a5a5a"}]"##,
        r##"["OK","4f50b36a4f00cbfddb22b5eb6d4208f443fe133b6155f5f1933f4520e0b1f43b",false,"error: the store is full"]"##,
    ),
    (
        r##"["EVENT",{"id":"dcde1a2a9420ced2833ecdf9a0c3feb9cd9b2d277370b065433fc3dab1ae960a","pubkey":"0101010101010101010101010101010101010101010101010101010101010101","created_at":9,"kind":1,"tags":[],"content":"1","sig":"5a5a5a5a5a5a5a5a5a5a5a5a5a5a5a5a5a5a5a5a5a5a5a5a5a5a5a5a5a5a5a5a5a5a5a5a5a5a5a5a5a5a5a5a5a5a5a5a5a5a5a5a5a5a5a5a5a5a5a5a5a5a5a5a"}]"##,
        r##"["OK","dcde1a2a9420ced2833ecdf9a0c3feb9cd9b2d277370b065433fc3dab1ae960a",true,"duplicate: already have this event"]"##,
    ),
    (
        r##"["REQ","a",{"ids":["4f50b36a4f00cbfddb22b5eb6d4208f443fe133b6155f5f1933f4520e0b1f43b"]}]"##,
        r##"["EOSE","a"]"##,
    ),
    (
        r##"["NEG-OPEN","t",{"until":9},"6100000200"]"##,
        r##"["NEG-MSG","t","6100000201dcde1a2a9420ced2833ecdf9a0c3feb9cd9b2d277370b065433fc3dab1ae960a"]"##,
    ),
];

/// No subscription, and no session.
static NONE: [(&str, &str); 2] = [
    (
        r##"["NEG-OPEN","s",{},"61"]"##,
        r##"["NEG-ERR","s","blocked: too many sessions"]"##,
    ),
    (
        r##"["REQ","a",{}]"##,
        r##"["CLOSED","a","blocked: too many subscriptions"]"##,
    ),
];

fn with(most: usize) -> RelayLimits
    requires { most ≤ 1 }
{
    RelayLimits {
        subs: most,
        filters: 1,
        text: 1_000,
        sessions: most,
        records: most,
        limit: 60_000,
        is_read_only: false,
    }
}

/// What is answered once the event was given to the store.
fn stored<J: Naming, D: Wait + Drop, R: Wait>(
    rt: &R,
    desk: &mut Desk<J, D>,
    reader: &mut Reader<J>,
    conn: &mut Conn,
    event: Arc<Event>,
) -> Option<FromRelay> {
    let id = event.id();
    let told = match desk.insert(rt, event) {
        Ok(placed) => conn.stored(reader, &placed, &Kept::in_memory(&placed)),
        Err((fault, _event)) => conn.unstored(id, &StoringFault::Refused(fault)),
    };
    told.ok()
}

/// The one answer to a text.
fn answer<J: Naming, D: Wait + Drop, R: Wait>(
    rt: &R,
    desk: &mut Desk<J, D>,
    reader: &mut Reader<J>,
    conn: &mut Conn,
    text: &str,
) -> Option<FromRelay> {
    let Step { mut out, store } = conn.serve(reader, text).ok()?;
    match store {
        Some(event) if out.is_empty() => stored(rt, desk, reader, conn, event),
        None if out.len() == 1 => out.pop(),
        _ => None,
    }
}

/// Whether a message is written so.
fn is_written(alloc: Global, message: Option<FromRelay>, wanted: &str) -> Option<bool> {
    Some(write_relay(alloc, &message?).ok()?.as_str() == wanted)
}

/// The first step that doesn't go as the script says, on a fresh connection, or how many steps there are.
fn first_wrong<J: Naming, D: Wait + Drop, R: Wait>(
    rt: &R,
    alloc: Global,
    desk: &mut Desk<J, D>,
    reader: &mut Reader<J>,
    limits: RelayLimits,
    script: Script,
) -> usize {
    let mut conn = Conn::new(alloc, limits);
    for (step, (text, wanted)) in script.iter().enumerate() {
        let message = answer(rt, desk, reader, &mut conn, text);
        if is_written(alloc, message, wanted) != Some(true) {
            return step;
        }
    }
    script.len()
}

fn played<J: Naming, D: Wait + Drop, R: Wait>(
    rt: &R,
    keep: D,
    alloc: Global,
    blank: Blank,
) -> Option<(usize, usize)>
    requires book { blank ≡ J.book }
    requires most { J.most ≡ 2 }
{
    let (mut desk, mut readers) = open_small::<J, D>(keep, alloc, blank, 1, 2).ok()?;
    let mut reader = readers.pop()?;
    Some((
        first_wrong(rt, alloc, &mut desk, &mut reader, with(1), &FEW),
        first_wrong(rt, alloc, &mut desk, &mut reader, with(0), &NONE),
    ))
}

#[test]
fn few_and_none_over_a_store_that_fills_up(rt: HostRuntime) -> Result<(), Fail> {
    let steps = played::<Brand, _, _>(&rt, &rt, rt.alloc(), Blank::new());
    assert_eq!(rt; steps, Some((FEW.len(), NONE.len())));
    Ok(())
}

/// What ends a connection once the store is gone.
static GONE: [(&str, Option<ConnFault>); 6] = [
    (r##"["REQ","a",{}]"##, Some(ConnFault::Gone)),
    (r##"["NEG-OPEN","s",{},"61"]"##, Some(ConnFault::Gone)),
    (r##"["REQ","a",{},{}]"##, None),
    (r##"["CLOSE","a"]"##, None),
    (r##"["NEG-MSG","s","61"]"##, None),
    ("hello", None),
];

/// The first of those texts that doesn't end a connection as it should, or how many there are.
fn first_other<J: Naming>(alloc: Global, reader: &mut Reader<J>) -> usize {
    for (place, (text, fault)) in GONE.iter().enumerate() {
        let mut conn = Conn::new(alloc, with(1));
        if conn.serve(reader, text).err() != *fault {
            return place;
        }
    }
    GONE.len()
}

/// What is answered in place of what is due, and after that.
fn ends<J: Naming>(alloc: Global, reader: &mut Reader<J>) -> [Option<ConnFault>; 2] {
    let mut conn = Conn::new(alloc, with(1));
    [
        conn.catch_up(reader).err(),
        conn.serve(reader, "hello").err(),
    ]
}

/// All that, once the store is gone.
fn gone<J: Naming, D: Wait + Drop>(
    keep: D,
    alloc: Global,
    blank: Blank,
) -> Option<(usize, [Option<ConnFault>; 2])>
    requires book { blank ≡ J.book }
    requires most { J.most ≡ 1000000 }
{
    let (desk, mut readers) = open_store::<J, D>(keep, alloc, blank, 1).ok()?;
    drop(desk);
    let mut reader = readers.pop()?;
    Some((first_other(alloc, &mut reader), ends(alloc, &mut reader)))
}

#[test]
fn a_store_that_is_gone(rt: HostRuntime) -> Result<(), Fail> {
    let ended = gone::<Brand, _>(&rt, rt.alloc(), Blank::new());
    let faults = [Some(ConnFault::Gone), Some(ConnFault::Closed)];
    assert_eq!(rt; ended, Some((GONE.len(), faults)));
    Ok(())
}

/// How many messages the parts have in which so many events come, and to how many events each came.
fn parts<J: Naming, D: Wait + Drop, R: Wait>(
    rt: &R,
    keep: D,
    alloc: Global,
    blank: Blank,
    count: u64,
) -> Option<Vec<(usize, usize)>>
    requires book { blank ≡ J.book }
    requires most { J.most ≡ 1000000 }
{
    let (mut desk, mut readers) = open_store::<J, D>(keep, alloc, blank, 1).ok()?;
    let mut reader = readers.pop()?;
    let mut conn = Conn::new(alloc, with(1));
    conn.serve(&mut reader, r##"["REQ","a",{}]"##).ok()?;
    for number in 0..count {
        let placed = desk.insert(rt, event(alloc, number, 9)?).ok()?;
        reader.learn(&placed);
    }
    let mut parts = Vec::new(alloc);
    for _part in 0..count {
        let caught = conn.catch_up(&mut reader).ok()?;
        parts.push((caught.out.len(), caught.front)).ok()?;
        if caught.is_all {
            return Some(parts);
        }
    }
    None
}

#[test]
fn what_is_much_comes_in_parts(rt: HostRuntime) -> Result<(), Fail> {
    let parts = parts::<Brand, _, _>(&rt, &rt, rt.alloc(), Blank::new(), 600);
    let wanted = [(256, 256), (256, 512), (88, 600)];
    let is_right = parts.is_some_and(|parts| parts.as_slice() == wanted.as_slice());
    assert!(rt; is_right);
    Ok(())
}

static FAULTS: [(ConnFault, &str); 3] = [
    (ConnFault::Gone, "the store is gone"),
    (ConnFault::Memory, "out of memory"),
    (ConnFault::Closed, "the connection is closed"),
];

#[test]
fn texts_of_faults(rt: HostRuntime) -> Result<(), Fail> {
    for (fault, text) in FAULTS {
        let shown = format!(in rt.alloc(); "{fault}")?;
        assert_eq!(rt; shown.as_str(), text);
    }
    Ok(())
}
