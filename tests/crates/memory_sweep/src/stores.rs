//! Stores: their desks, their readers, and what is pinned.

ghost use Rattle.std.specs.Prelude.{◌≡◌};

use crate::events::{event, event_id, filter};
use crate::said::Said;
use event_list::EventList;
use event_store::{
    Blank, Desk, InsertFault, Naming, PinFault, Placed, Reader, StoreFault, open_small,
    open_store,
};
use std::alloc::Global;
use std::sync::Wait;

/// The names of the calls over a store of two events.
pub const NAMES: &[&str] = &[
    "Desk::insert",
    "Desk::insert_all",
    "Desk::insert_each",
    "Reader::pin",
    "Reader::pin all",
    "Reader::pin_few",
    "AllEvents::choose",
];

/// Opens a store with two readers.
pub fn open<J: Naming, R: Wait>(rt: &R, alloc: Global, blank: Blank) -> Option<Said>
    requires book { blank ≡ J.book }
    requires most { J.most ≡ 1000000 }
{
    opening(alloc, open_store::<J, &R>(rt, alloc, blank, 2))
}

/// Opens a store of at most three events with two readers.
pub fn open_for_three<J: Naming, R: Wait>(rt: &R, alloc: Global, blank: Blank) -> Option<Said>
    requires book { blank ≡ J.book }
    requires most { J.most ≡ 3 }
{
    opening(alloc, open_small::<J, &R>(rt, alloc, blank, 2, 3))
}

/// What the opening of a store with two readers came to.
fn opening<J: Naming, R: Wait>(
    alloc: Global,
    opened: Result<(Desk<J, &R>, Vec<Reader<J>>), StoreFault>,
) -> Option<Said> {
    match opened {
        Ok((_desk, mut readers)) => {
            let has_two = readers.len() == 2;
            Said::ample(has_two && publishes(alloc, &mut readers.pop()?, 0))
        }
        Err(StoreFault::Memory) => Said::memory(true),
        Err(StoreFault::Place) => Said::allowed(true),
        Err(StoreFault::Readers) => Said::wrong(),
    }
}

/// A store of the first events, so many of them, and its reader.
pub fn store<'a, J: Naming, R: Wait>(
    rt: &'a R,
    alloc: Global,
    blank: Blank,
    count: usize,
) -> Option<(Desk<J, &'a R>, Reader<J>)>
    requires book { blank ≡ J.book }
    requires most { J.most ≡ 1000000 }
{
    let (mut desk, mut readers) = open_store::<J, &R>(rt, alloc, blank, 1).ok()?;
    for at in 0..count {
        desk.insert(rt, event(alloc, at)?).ok()?;
    }
    Some((desk, readers.pop()?))
}

/// Whether these are the first events, so many of them.
fn are_first(events: &EventList, count: usize) -> bool {
    for at in 0..events.len() {
        if event_id(at) != Some(events.get(at).id()) {
            return false;
        }
    }
    events.len() == count
}

/// Whether the first events are published, so many of them, and no others.
pub fn publishes<J: Naming>(alloc: Global, reader: &mut Reader<J>, count: usize) -> bool {
    let Ok(all) = reader.all() else {
        return false;
    };
    all.front() == count && are_first(all.events(), count)
}

/// Inserts the third event, while the two before it are pinned.
pub fn insert<J: Naming, R: Wait>(
    rt: &R,
    alloc: Global,
    desk: &mut Desk<J, &R>,
    reader: &mut Reader<J>,
) -> Option<Said> {
    let third = event(alloc, 2)?;
    let before = reader.all().ok()?;
    let placed = desk.insert(rt, third);
    let is_pin_kept = are_first(before.events(), 2);
    match placed {
        Ok(placed) => Said::ample(
            is_pin_kept && placed.is_fresh() && placed.front() == 3 && publishes(alloc, reader, 3),
        ),
        Err((InsertFault::Memory, third)) => Said::memory(
            is_pin_kept
                && event_id(2) == Some(third.id())
                && publishes(alloc, reader, 2)
                && desk.insert(rt, third).is_ok()
                && publishes(alloc, reader, 3),
        ),
        Err((InsertFault::Full(_), _third)) => Said::wrong(),
    }
}

/// Inserts a published event, the third event and that once more, at once, while the two before it are pinned.
pub fn insert_all<J: Naming, R: Wait>(
    rt: &R,
    alloc: Global,
    desk: &mut Desk<J, &R>,
    reader: &mut Reader<J>,
) -> Option<Said> {
    let mut events = Vec::new(alloc);
    for at in [0, 2, 2] {
        events.push(event(alloc, at)?).ok()?;
    }
    let before = reader.all().ok()?;
    let taken = desk.insert_all(rt, &events);
    let is_pin_kept = are_first(before.events(), 2);
    match taken {
        Ok(taken) => Said::ample(is_pin_kept && taken == 3 && publishes(alloc, reader, 3)),
        Err(_) => Said::memory(
            is_pin_kept
                && publishes(alloc, reader, 2)
                && desk.insert_all(rt, &events).is_ok()
                && publishes(alloc, reader, 3),
        ),
    }
}

/// Whether of three events that were placed the second alone was new.
fn is_second_fresh<J: Naming>(placed: &[Placed<J>]) -> bool {
    match placed {
        [first, second, third] => !first.is_fresh() && second.is_fresh() && !third.is_fresh(),
        _ => false,
    }
}

/// Inserts the same as `insert_all` does, and is told of each.
pub fn insert_each<J: Naming, R: Wait>(
    rt: &R,
    alloc: Global,
    desk: &mut Desk<J, &R>,
    reader: &mut Reader<J>,
) -> Option<Said> {
    let mut events = Vec::new(alloc);
    for at in [0, 2, 2] {
        events.push(event(alloc, at)?).ok()?;
    }
    match desk.insert_each(rt, &events) {
        Ok(placed) => Said::ample(is_second_fresh(&placed) && publishes(alloc, reader, 3)),
        Err(_) => Said::memory(
            publishes(alloc, reader, 2)
                && desk.insert_each(rt, &events).is_ok()
                && publishes(alloc, reader, 3),
        ),
    }
}

/// Pins as many of the two events as the filter matches.
pub fn pin<J: Naming>(
    alloc: Global,
    reader: &mut Reader<J>,
    asked: &str,
    count: usize,
) -> Option<Said> {
    let filter = filter(alloc, asked)?;
    match reader.pin(alloc, &filter) {
        Ok(pinned) => Said::ample(
            pinned.front() == 2 && pinned.events().len() == count && pinned.roll().len() == count,
        ),
        Err(fault) => unpinned(alloc, reader, fault),
    }
}

/// Pins the event that a filter matches, where it may be one, and where it may be none.
pub fn pin_few<J: Naming>(alloc: Global, reader: &mut Reader<J>) -> Option<Said> {
    let filter = filter(alloc, r##"{"kinds":[7]}"##)?;
    let most = match reader.pin_few(alloc, &filter, 0) {
        Ok(None) => 1,
        Ok(Some(_)) => return Said::wrong(),
        Err(fault) => return unpinned(alloc, reader, fault),
    };
    match reader.pin_few(alloc, &filter, most) {
        Ok(Some(pinned)) => Said::ample(pinned.front() == 2 && pinned.events().len() == 1),
        Ok(None) => Said::wrong(),
        Err(fault) => unpinned(alloc, reader, fault),
    }
}

/// What a fault comes to of a store of two events.
fn unpinned<J: Naming>(alloc: Global, reader: &mut Reader<J>, fault: PinFault) -> Option<Said> {
    match fault {
        PinFault::Memory => Said::memory(publishes(alloc, reader, 2)),
        PinFault::Gone => Said::allowed(publishes(alloc, reader, 2)),
    }
}

/// Chooses by filters that match one event each.
pub fn chosen<J: Naming>(alloc: Global, reader: &mut Reader<J>) -> Option<Said> {
    let filters = [
        filter(alloc, r##"{"limit":1}"##)?,
        filter(alloc, r##"{"until":9}"##)?,
    ];
    let all = reader.all().ok()?;
    match all.choose(alloc, &filters) {
        Ok(places) => Said::ample(places.as_slice() == [1, 0].as_slice()),
        Err(_) => Said::memory(are_first(all.events(), 2)),
    }
}
