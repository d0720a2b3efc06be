//! Stores of events that are made here.
ghost use Rattle.std.specs.Prelude.{◌≡◌, true, IfSome};
ghost use Rattle.std.specs.Arc.{arc_value};
ghost use mathlib.Core.List.{IsPrefix};
ghost use Rattle.event_table.specs.Events.{has_id};

use super::events::event;
use event_list::EventList;
use event_store::{
    AllEvents, Blank, Desk, InsertFault, Naming, Placed, Reader, Snapshot, StoreFault,
    open_small, open_store,
};
use nostr_event::Event;
use nostr_filter::Filter;
use serde_json::Value;
use std::alloc::{AllocError, Global};
use std::marker::Brand;
use std::sync::atomic::{AtomicU64, Ordering};
use std::sync::{Arc, Mutex, Wait};
use std::test::*;
use std::thread::{Threads, join};

// Inserts so many events from a number on, each at a time of its own that doesn't rise with its number, and answers the last.
fn insert_all<J: Naming, D: Wait + Drop, R: Wait>(
    rt: &R,
    alloc: Global,
    desk: &mut Desk<J, D>,
    first: u64,
    count: u64,
) -> Option<Placed<J>> {
    let mut last = None;
    for number in first..first.saturating_add(count) {
        last = insert(rt, alloc, desk, number);
    }
    last
}

fn insert<J: Naming, D: Wait + Drop, R: Wait>(
    rt: &R,
    alloc: Global,
    desk: &mut Desk<J, D>,
    number: u64,
) -> Option<Placed<J>> {
    desk.insert(rt, event(alloc, number, time_of(number))?).ok()
}

// The events of these numbers.
fn events_of(alloc: Global, numbers: &[u64]) -> Option<Vec<Arc<Event>>> {
    let mut events = Vec::new(alloc);
    for number in numbers {
        let event = event(alloc, *number, time_of(*number))?;
        events.push(event).ok()?;
    }
    Some(events)
}

// Inserts the events of these numbers at once, and says how many of them were taken.
fn taken_at_once<J: Naming, D: Wait + Drop, R: Wait>(
    rt: &R,
    alloc: Global,
    desk: &mut Desk<J, D>,
    numbers: &[u64],
) -> Option<usize> {
    desk.insert_all(rt, &events_of(alloc, numbers)?).ok()
}

// Inserts the events of these numbers at once, and says of each that was taken whether it was new.
fn told_at_once<J: Naming, D: Wait + Drop, R: Wait>(
    rt: &R,
    alloc: Global,
    desk: &mut Desk<J, D>,
    numbers: &[u64],
) -> Option<Vec<bool>> {
    let placed = desk.insert_each(rt, &events_of(alloc, numbers)?).ok()?;
    let mut told = Vec::new(alloc);
    for (one, number) in placed.iter().zip(numbers) {
        let is_named = one.id() == event(alloc, *number, time_of(*number))?.id();
        told.push(is_named && one.is_fresh()).ok()?;
    }
    Some(told)
}

// The numbers from 0 to 99 have the times from 0 to 99.
fn time_of(number: u64) -> u64 {
    (number.wrapping_mul(37) % 100).wrapping_add(number / 100 * 100)
}

fn times_of(alloc: Global, events: &EventList) -> Option<Vec<u64>> {
    let mut times = Vec::new(alloc);
    for place in 0..events.len() {
        times.push(events.get(place).created_at()).ok()?;
    }
    Some(times)
}

fn filter(alloc: Global, text: &str) -> Option<Filter> {
    Filter::from_json(alloc, &Value::from_str(alloc, text).ok()?).ok()
}

#[test]
fn readers_are_none_or_too_many(rt: HostRuntime) -> Result<(), Fail> {
    assert!(rt; refuses::<Brand, _>(&rt, rt.alloc(), Blank::new(), 0));
    assert!(rt; refuses::<Brand, _>(&rt, rt.alloc(), Blank::new(), 1025));
    Ok(())
}

fn refuses<J: Naming, R: Wait + Drop>(rt: R, alloc: Global, blank: Blank, readers: usize) -> bool
    requires book { blank ≡ J.book }
    requires most { J.most ≡ 1000000 }
{
    match open_store::<J, R>(rt, alloc, blank, readers) {
        Ok(_) => false,
        Err(fault) => fault == StoreFault::Readers,
    }
}

// What is done with an empty store that one reader reads.
#[derive(Clone, Copy)]
enum Play {
    Pin,
    Pick,
    Find,
}

// Whether that goes as it should.
fn played<J: Naming, D: Wait + Drop, R: Wait>(
    rt: &R,
    keep: D,
    alloc: Global,
    blank: Blank,
    play: Play,
) -> Option<bool>
    requires book { blank ≡ J.book }
    requires most { J.most ≡ 1000000 }
{
    let (mut desk, mut readers) = open_store::<J, D>(keep, alloc, blank, 1).ok()?;
    let mut reader = readers.pop()?;
    match play {
        Play::Pin => pins(rt, alloc, &mut desk, &mut reader),
        Play::Pick => picks(rt, alloc, &mut desk, &mut reader),
        Play::Find => finds(rt, alloc, &mut desk, &mut reader),
    }
}

#[test]
fn a_snapshot_stays(rt: HostRuntime) -> Result<(), Fail> {
    let stays = played::<Brand, _, _>(&rt, &rt, rt.alloc(), Blank::new(), Play::Pin);
    assert_eq!(rt; stays, Some(true));
    Ok(())
}

// A pin of three events, then 1,100 inserts: whether the pin and its roll have three then, and the next pin has all and begins
// with those.
fn pins<J: Naming, D: Wait + Drop, R: Wait>(
    rt: &R,
    alloc: Global,
    desk: &mut Desk<J, D>,
    reader: &mut Reader<J>,
) -> Option<bool> {
    insert_all(rt, alloc, desk, 0, 3)?;
    let before = reader.pin(alloc, &Filter::all()).ok()?;
    let placed = insert_all(rt, alloc, desk, 3, 1100);
    stays(alloc, reader, &before, placed)
}

fn stays<J: Naming>(
    alloc: Global,
    reader: &mut Reader<J>,
    before: &Snapshot,
    placed: Option<Placed<J>>,
) -> Option<bool> {
    reader.learn(&placed?);
    let after = reader.pin(alloc, &Filter::all()).ok()?;
    Some(
        before.front() == 3
            && before.roll().len() == 3
            && after.events().len() == 1103
            && begins(before.events(), after.events()),
    )
}

// The ids of the events at 70, 3 and 70 again, made by Python's hashlib, and one that no event has.
const IDS: &str =
    r##"{"ids":["bdee468f352c94883e15efcc984f748c94c8161abeb794925bee7b1b1759288c","04604e63ee572a12a165d5d8fedf54db2e395ded314102a691f8ea7a3570fa58","bdee468f352c94883e15efcc984f748c94c8161abeb794925bee7b1b1759288c","0909090909090909090909090909090909090909090909090909090909090909"]}"##;

// Filters, and the times of the events that they match, in the order of publishing.
static PICKS: [(&str, &[u64]); 8] = [
    (r##"{"since":10,"until":14}"##, &[11, 14, 10, 13, 12]),
    (r##"{"since":97}"##, &[99, 98, 97]),
    (r##"{"until":2,"limit":1}"##, &[0, 2, 1]),
    (r##"{"since":14,"until":10}"##, &[]),
    (r##"{"since":18446744073709551615}"##, &[]),
    (r##"{"until":18446744073709551615,"since":99}"##, &[99]),
    (r##"{"kinds":[2]}"##, &[]),
    (IDS, &[11, 90]),
];

// Filters, and the places of the events that they choose of a hundred.
static CHOICES: [(&str, &[usize]); 5] = [
    (r##"{"limit":3}"##, &[27, 54, 81]),
    (r##"{"until":50,"limit":2}"##, &[50, 77]),
    (r##"{"since":98}"##, &[27, 54]),
    (r##"{"kinds":[2]}"##, &[]),
    (IDS, &[70, 3]),
];

#[test]
fn filters_pick_and_choose(rt: HostRuntime) -> Result<(), Fail> {
    let picked = played::<Brand, _, _>(&rt, &rt, rt.alloc(), Blank::new(), Play::Pick);
    assert_eq!(rt; picked, Some(true));
    Ok(())
}

// Whether a hundred events are picked and chosen as they should be, by times and by ids.
fn picks<J: Naming, D: Wait + Drop, R: Wait>(
    rt: &R,
    alloc: Global,
    desk: &mut Desk<J, D>,
    reader: &mut Reader<J>,
) -> Option<bool> {
    insert_all(rt, alloc, desk, 0, 100)?;
    let all = reader.all().ok()?;
    Some(all_picked(alloc, reader) == Some(true) && all_chosen(alloc, &all) == Some(true))
}

fn all_picked<J: Naming>(alloc: Global, reader: &mut Reader<J>) -> Option<bool> {
    let mut right = true;
    for (text, want) in PICKS {
        right &= has_times(alloc, reader, &filter(alloc, text)?, want)?;
    }
    Some(right)
}

// Whether the events that a filter matches have these times.
fn has_times<J: Naming>(
    alloc: Global,
    reader: &mut Reader<J>,
    filter: &Filter,
    want: &[u64],
) -> Option<bool> {
    let pinned = reader.pin(alloc, filter).ok()?;
    let times = times_of(alloc, pinned.events())?;
    Some(times.as_slice() == want && pinned.roll().len() == want.len())
}

fn all_chosen(alloc: Global, all: &AllEvents) -> Option<bool> {
    let mut right = true;
    for (text, want) in CHOICES {
        let asked = filter(alloc, text)?;
        right &= chooses(alloc, all, asked, want)?;
    }
    Some(right)
}

// Whether a filter chooses the events at these places.
fn chooses(alloc: Global, all: &AllEvents, filter: Filter, want: &[usize]) -> Option<bool> {
    let places = all.choose(alloc, &[filter]).ok()?;
    Some(places.as_slice() == want)
}

// Filters on tags, the times of the events of six hundred that they pick, in the order of publishing, and the places of those that
// they choose. All but the last ten stand in the index.
static MARKED: [(&str, &[u64], &[usize]); 5] = [
    (
        r##"{"#t":["88"]}"##,
        &[56, 156, 256, 356, 456, 556],
        &[588, 488, 388, 288, 188, 88],
    ),
    (
        r##"{"#t":["7","88"],"kinds":[1,2],"limit":3}"##,
        &[59, 56, 159, 156, 259, 256, 359, 356, 459, 456, 559, 556],
        &[507, 588, 407],
    ),
    (
        r##"{"authors":["0101010101010101010101010101010101010101010101010101010101010101"],"#t":["88"],"since":400}"##,
        &[456, 556],
        &[588, 488],
    ),
    (r##"{"#t":["100"]}"##, &[], &[]),
    (r##"{"#e":["88"]}"##, &[], &[]),
];

// The same of two conditions, each of which many of the events meet: both are looked up before the events are read.
static MANY: &str = r##"{"#t":["0","1","2","3","4","5","6","7","8","9","10","11","12","13","14","15","16","17","18","19","20","21","22","23","24","25","26","27","28","29","30","31","32","33","34","35","36","37","38","39"],"kinds":[1,2],"limit":3}"##;

#[test]
fn marked_events_are_found(rt: HostRuntime) -> Result<(), Fail> {
    let found = played::<Brand, _, _>(&rt, &rt, rt.alloc(), Blank::new(), Play::Find);
    assert_eq!(rt; found, Some(true));
    Ok(())
}

// Whether six hundred events are picked and chosen as they should be, by their tags. Most are inserted at once.
fn finds<J: Naming, D: Wait + Drop, R: Wait>(
    rt: &R,
    alloc: Global,
    desk: &mut Desk<J, D>,
    reader: &mut Reader<J>,
) -> Option<bool> {
    insert_all(rt, alloc, desk, 0, 50)?;
    let mut numbers = Vec::new(alloc);
    for number in 0..590u64 {
        numbers.push(number).ok()?;
    }
    taken_at_once(rt, alloc, desk, numbers.as_slice())?;
    insert_all(rt, alloc, desk, 590, 10)?;
    let all = reader.all().ok()?;
    let mut right = true;
    for (text, times, places) in MARKED {
        right &= is_found(alloc, reader, &all, filter(alloc, text)?, (times, places))?;
    }
    right &= chooses(alloc, &all, filter(alloc, MANY)?, &[527, 508, 535])?;
    Some(right)
}

fn is_found<J: Naming>(
    alloc: Global,
    reader: &mut Reader<J>,
    all: &AllEvents,
    filter: Filter,
    want: (&[u64], &[usize]),
) -> Option<bool> {
    let picked = has_times(alloc, reader, &filter, want.0);
    let chosen = chooses(alloc, all, filter, want.1);
    Some(picked? && chosen?)
}

#[test]
fn a_full_store(rt: HostRuntime) -> Result<(), Fail> {
    assert_eq!(rt;
        fills_up::<Brand, _, _>(&rt, &rt, rt.alloc(), Blank::new()),
        Some((2, false, 2))
    );
    Ok(())
}

// A store that takes two events: the front that it is full at, and what a repeat answers.
fn fills_up<J: Naming, D: Wait + Drop, R: Wait>(
    rt: &R,
    keep: D,
    alloc: Global,
    blank: Blank,
) -> Option<(u64, bool, u64)>
    requires book { blank ≡ J.book }
    requires most { J.most ≡ 2 }
{
    let (mut desk, _readers) = open_small::<J, D>(keep, alloc, blank, 1, 2).ok()?;
    fills(rt, alloc, &mut desk)
}

fn fills<J: Naming, D: Wait + Drop, R: Wait>(
    rt: &R,
    alloc: Global,
    desk: &mut Desk<J, D>,
) -> Option<(u64, bool, u64)> {
    insert_all(rt, alloc, desk, 0, 2)?;
    let filled = full_at(rt, desk, event(alloc, 2, 2)?)?;
    let repeat = insert(rt, alloc, desk, 1)?;
    Some((filled, repeat.is_fresh(), repeat.front()))
}

#[test]
fn many_at_once(rt: HostRuntime) -> Result<(), Fail> {
    assert_eq!(rt;
        fills_at_once::<Brand, _, _>(&rt, &rt, rt.alloc(), Blank::new()),
        Some((true, 2, true))
    );
    Ok(())
}

// A store that takes four events: whether it tells which of a list with repeats are new, and takes no more once it is full; how
// many it takes of a list that is too long for it, and whether it has the first of the new ones then.
fn fills_at_once<J: Naming, D: Wait + Drop, R: Wait>(
    rt: &R,
    keep: D,
    alloc: Global,
    blank: Blank,
) -> Option<(bool, usize, bool)>
    requires book { blank ≡ J.book }
    requires most { J.most ≡ 4 }
{
    let (mut desk, mut readers) = open_small::<J, D>(keep, alloc, blank, 1, 4).ok()?;
    insert(rt, alloc, &mut desk, 0)?;
    let repeats = told_at_once(rt, alloc, &mut desk, &[0, 1, 1, 2, 0])?;
    let more = taken_at_once(rt, alloc, &mut desk, &[3, 2, 4, 5])?;
    let full = told_at_once(rt, alloc, &mut desk, &[1, 6, 2])?;
    let all = readers.pop()?.all().ok()?;
    let times = times_of(alloc, all.events())?;
    Some((
        repeats.as_slice() == [false, true, false, true, false].as_slice()
            && full.as_slice() == [false].as_slice(),
        more,
        times.as_slice() == [0, 37, 74, 11].as_slice(),
    ))
}

// How many events the store has that is full for this one.
fn full_at<J: Naming, D: Wait + Drop, R: Wait>(
    rt: &R,
    desk: &mut Desk<J, D>,
    event: Arc<Event>,
) -> Option<u64> {
    let (fault, _event) = desk.insert(rt, event).err()?;
    match fault {
        InsertFault::Full(filled) => Some(filled.front()),
        InsertFault::Memory => None,
    }
}

#[test]
fn a_desk_behind_a_lock(rt: HostRuntime) -> Result<(), Fail> {
    assert_eq!(rt;
        locks::<Brand, _, _>(&rt, &rt, rt.alloc(), Blank::new()),
        Some(1)
    );
    Ok(())
}

fn locks<J: Naming, D: Wait + Drop, R: Wait>(
    rt: &R,
    keep: D,
    alloc: Global,
    blank: Blank,
) -> Option<usize>
    requires book { blank ≡ J.book }
    requires most { J.most ≡ 1000000 }
{
    let (desk, mut readers) = open_store::<J, D>(keep, alloc, blank, 1).ok()?;
    let mut reader = readers.pop()?;
    let desk = Mutex::new(desk);
    pinned(rt, alloc, &desk, &mut reader)
}

// How many events are pinned once one was inserted.
fn pinned<J: Naming, D: Wait + Drop, R: Wait>(
    rt: &R,
    alloc: Global,
    desk: &Mutex<Desk<J, D>>,
    reader: &mut Reader<J>,
) -> Option<usize> {
    let pinned = insert_and_pin(rt, alloc, desk, reader, event(alloc, 7, 9)?)?;
    Some(pinned.front())
}

// Inserts under the lock, tells the reader, and pins. The snapshot has the event's id.
fn insert_and_pin<J: Naming, D: Wait + Drop, R: Wait>(
    rt: &R,
    alloc: Global,
    desk: &Mutex<Desk<J, D>>,
    reader: &mut Reader<J>,
    event: Arc<Event>,
) -> Option<Snapshot>
    ensures kept { IsPrefix reader.old reader.new }
    ensures there { IfSome result (λ s. has_id (arc_value event).id s.all ≡ true) }
{
    let mut held = desk.lock(rt);
    let older = held.replaced();
    let placed = held.insert(rt, event);
    drop(held);
    drop(older);
    let Ok(placed) = placed else {
        return None;
    };
    placed.id();
    reader.learn(&placed);
    reader.pin(alloc, &Filter::all()).ok()
}

#[test]
fn told_reader(rt: HostRuntime) -> Result<(), Fail> {
    let told = tells::<Brand, _, _>(&rt, &rt, rt.alloc(), Blank::new());
    assert_eq!(rt; told, Some((0, 100)));
    Ok(())
}

// What one thread does beside another.
trait Part<T> {
    fn go<R: Wait>(&mut self, rt: &R, alloc: Global, stop: &AtomicU64) -> T;
}

// Pins until it is told to stop, and counts the pins that aren't a beginning of the next, or none where a pin failed.
impl<J: Naming> Part<Option<u64>> for Reader<J> {
    fn go<R: Wait>(&mut self, _rt: &R, alloc: Global, stop: &AtomicU64) -> Option<u64> {
        let mut back = 0u64;
        let mut last = self.pin(alloc, &Filter::all()).ok()?;
        for _ in 0..u64::MAX {
            let done = stop.load(Ordering::SeqCst) == 1;
            let next = self.pin(alloc, &Filter::all()).ok()?;
            if !begins(last.events(), next.events()) {
                back = back.wrapping_add(1);
            }
            last = next;
            if done {
                break;
            }
        }
        Some(back)
    }
}

// Inserts a hundred events, tells the other thread to stop, and answers the last.
impl<J: Naming, D: Wait + Drop> Part<Option<Placed<J>>> for Desk<J, D> {
    fn go<R: Wait>(&mut self, rt: &R, alloc: Global, stop: &AtomicU64) -> Option<Placed<J>> {
        let last = insert_all(rt, alloc, self, 0, 100);
        stop.store(1, Ordering::SeqCst);
        last
    }
}

fn at_once<R: Threads + Wait + Sync, X: Send, Y: Send, A: Part<X> + Send, B: Part<Y> + Send>(
    rt: &R,
    alloc: Global,
    one: &mut A,
    other: &mut B,
) -> (X, Y) {
    let stop = AtomicU64::new(0);
    join(
        rt,
        || one.go(rt, alloc, &stop),
        || other.go(rt, alloc, &stop),
    )
}

// While one thread inserts a hundred events, another pins until it is told to stop: how many of its pins aren't a beginning of
// the next, and how many events a reader then has that learns the last.
fn tells<J: Naming + Send + Sync, D: Wait + Drop + Send, R: Threads + Wait + Sync>(
    rt: &R,
    keep: D,
    alloc: Global,
    blank: Blank,
) -> Option<(u64, usize)>
    requires book { blank ≡ J.book }
    requires most { J.most ≡ 1000000 }
{
    let (mut desk, mut readers) = open_store::<J, D>(keep, alloc, blank, 2).ok()?;
    let mut told = readers.pop()?;
    let mut watcher = readers.pop()?;
    let (back, last) = at_once::<R, Option<u64>, Option<Placed<J>>, Reader<J>, Desk<J, D>>(
        rt,
        alloc,
        &mut watcher,
        &mut desk,
    );
    told_of(alloc, &mut told, back, last)
}

fn told_of<J: Naming>(
    alloc: Global,
    reader: &mut Reader<J>,
    back: Option<u64>,
    last: Option<Placed<J>>,
) -> Option<(u64, usize)> {
    reader.learn(&last?);
    let all = reader.pin(alloc, &Filter::all()).ok()?;
    Some((back?, all.events().len()))
}

fn begins(first: &EventList, next: &EventList) -> bool {
    let mut same = true;
    for place in 0..first.len() {
        same &= is_same(first, next, place);
    }
    same
}

// Whether both have the same event at a place.
fn is_same(first: &EventList, next: &EventList, place: usize) -> bool {
    place < first.len() && place < next.len() && first.get(place).id() == next.get(place).id()
}
