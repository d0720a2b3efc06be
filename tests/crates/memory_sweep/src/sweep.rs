//! Calls that can answer want of memory, each by itself, for runs in which one allocation is refused.

use crate::over::{call_of, over_store};
use crate::said::Said;
use crate::{boards, conns, events, jobs, links, plans, rolls, sessions, stores};
use event_store::Blank;
use std::alloc::Global;
use std::io;
use std::io::Write;
use std::marker::Brand;
use std::sync::Wait;
use std::thread::Threads;

/// What makes a call.
#[derive(Clone, Copy)]
enum Maker {
    Rolls,
    Sessions,
    Events,
    Plans,
    Boards,
    Links,
    /// A store, or a job.
    Stores,
}

/// The names of the calls, in the order in which they are made.
const ALL: [(Maker, &[&str]); 12] = [
    (Maker::Rolls, rolls::NAMES),
    (Maker::Sessions, sessions::NAMES),
    (Maker::Events, events::NAMES),
    (Maker::Plans, plans::NAMES),
    (Maker::Stores, &["open_store", "open_small"]),
    (Maker::Stores, stores::NAMES),
    (Maker::Stores, conns::NAMES),
    (Maker::Boards, boards::NAMES),
    (Maker::Stores, &["sync_plan", "fetch_all"]),
    (Maker::Links, links::NAMES),
    (Maker::Stores, &["serve_conn"]),
    (Maker::Stores, jobs::NAMES),
];

/// Makes the call of that name, or with no name all of them, and prints what each came to. Whether all are right.
pub fn sweep<R: Print + Threads + Wait + Sync>(
    rt: &R,
    alloc: Global,
    only: Option<&str>,
) -> io::Result<bool> {
    let mut is_right = true;
    for (maker, names) in ALL {
        for name in names {
            if matches!(only, Some(only) if only != *name) {
                continue;
            }
            let said = said_of(rt, alloc, maker, name);
            println!(rt; "{name}: {}", told(said))?;
            is_right = is_right && !matches!(said, Some(Said::Wrong(_)));
        }
    }
    Ok(is_right)
}

/// The word for what a call came to.
fn told(said: Option<Said>) -> &'static str {
    match said {
        Some(Said::Ample) => "ample",
        Some(Said::Memory) => "memory",
        Some(Said::Allowed) => "allowed",
        Some(Said::Wrong(what)) => what,
        None => "outside",
    }
}

/// What the call of that name came to; none where the refusal fell outside it.
fn said_of<R: Threads + Wait + Sync>(
    rt: &R,
    alloc: Global,
    maker: Maker,
    name: &str,
) -> Option<Said> {
    match maker {
        Maker::Rolls => rolls::said_of(alloc, name),
        Maker::Sessions => sessions::said_of(alloc, name),
        Maker::Events => events::said_of(alloc, name),
        Maker::Plans => plans::said_of(alloc, name),
        Maker::Boards => boards::said_of(alloc, name),
        Maker::Links => links::said_of(alloc, name),
        Maker::Stores => of_stores(rt, alloc, name),
    }
}

/// The same of a call over a store, and of a job.
fn of_stores<R: Threads + Wait + Sync>(rt: &R, alloc: Global, name: &str) -> Option<Said> {
    match name {
        "read_settings" => jobs::read(alloc),
        "open_store" => stores::open::<Brand, R>(rt, alloc, Blank::new()),
        "open_small" => stores::open_for_three::<Brand, R>(rt, alloc, Blank::new()),
        _ => over_store::<Brand, R>(rt, alloc, Blank::new(), call_of(name)?),
    }
}
