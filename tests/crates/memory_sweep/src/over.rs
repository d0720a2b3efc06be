//! The calls that are made over a store.

ghost use Rattle.std.specs.Prelude.{◌≡◌};

use crate::said::Said;
use crate::{conns, jobs, links, mirrors, stores};
use event_store::{Blank, Naming};
use std::alloc::Global;
use std::sync::{Mutex, Wait};
use std::thread::Threads;

/// A call over a store.
#[derive(Clone, Copy)]
pub enum Call {
    Insert,
    InsertAll,
    InsertEach,
    Pin,
    PinAll,
    PinFew,
    Choose,
    Event,
    Request,
    NegOpen,
    NegMsg,
    Stored,
    CatchUp,
    Plan,
    Fetch,
    Serve,
    InsertLines,
    WriteLines,
}

/// The call of that name.
pub fn call_of(name: &str) -> Option<Call> {
    match name {
        "Desk::insert" => Some(Call::Insert),
        "Desk::insert_all" => Some(Call::InsertAll),
        "Desk::insert_each" => Some(Call::InsertEach),
        "Reader::pin" => Some(Call::Pin),
        "Reader::pin all" => Some(Call::PinAll),
        "Reader::pin_few" => Some(Call::PinFew),
        "AllEvents::choose" => Some(Call::Choose),
        "Conn::serve EVENT" => Some(Call::Event),
        "Conn::serve REQ" => Some(Call::Request),
        "Conn::serve NEG-OPEN" => Some(Call::NegOpen),
        "Conn::serve NEG-MSG" => Some(Call::NegMsg),
        "Conn::stored" => Some(Call::Stored),
        "Conn::catch_up" => Some(Call::CatchUp),
        "sync_plan" => Some(Call::Plan),
        "fetch_all" => Some(Call::Fetch),
        "serve_conn" => Some(Call::Serve),
        "insert_lines" => Some(Call::InsertLines),
        "write_lines" => Some(Call::WriteLines),
        _ => None,
    }
}

/// How many events the store has over which a call is made.
fn held(call: Call) -> usize {
    match call {
        Call::Fetch | Call::InsertLines => 0,
        Call::Insert
        | Call::InsertAll
        | Call::InsertEach
        | Call::Pin
        | Call::PinAll
        | Call::PinFew
        | Call::Choose
        | Call::WriteLines => 2,
        _ => 1,
    }
}

/// What a call came to.
pub fn over_store<J: Naming + Send + Sync, R: Threads + Wait + Sync>(
    rt: &R,
    alloc: Global,
    blank: Blank,
    call: Call,
) -> Option<Said>
    requires book { blank ≡ J.book }
    requires most { J.most ≡ 1000000 }
{
    let (mut desk, mut reader) = stores::store::<J, R>(rt, alloc, blank, held(call))?;
    match call {
        Call::Plan => mirrors::synced(rt, alloc, &mut reader),
        Call::Fetch => mirrors::fetched(rt, alloc, &Mutex::new(desk), &mut reader),
        Call::Serve => links::served(rt, alloc, &Mutex::new(desk), &mut reader),
        Call::InsertLines => jobs::insert(rt, alloc, &mut desk, &mut reader),
        Call::WriteLines => jobs::write(alloc, &mut reader),
        Call::Insert => stores::insert(rt, alloc, &mut desk, &mut reader),
        Call::InsertAll => stores::insert_all(rt, alloc, &mut desk, &mut reader),
        Call::InsertEach => stores::insert_each(rt, alloc, &mut desk, &mut reader),
        Call::Pin => stores::pin(alloc, &mut reader, r##"{"kinds":[7]}"##, 1),
        Call::PinAll => stores::pin(alloc, &mut reader, "{}", 2),
        Call::PinFew => stores::pin_few(alloc, &mut reader),
        Call::Choose => stores::chosen(alloc, &mut reader),
        _ => conns::said_of(rt, alloc, call, &mut desk, &mut reader),
    }
}
