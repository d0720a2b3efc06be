//! Tests of the order, beside the choice that reads every event.
use newest::{Newest, choose};
use nostr_event::Event;
use nostr_filter::Filter;
use serde_json::Value;
use std::alloc::Global;
use std::process::Abort;
use std::sync::Arc;
use std::test::Fail;

// Three events at the times 9, 10 and 10; the second has a lower id than the third. Python's json and hashlib made them.
static EVENTS: [&str; 3] = [
    r##"{"pubkey":"2bd806c97f0e00af1a1fc3328fa763a9269723c8db8fac4f93af71db186d6e90","created_at":9,"kind":1,"tags":[["t","x"],["t","y"]],"content":"first","id":"c834e78ee1a16342ad8786756ffb00d078df09ccbc0c6d17605aafc6897bc7de","sig":"5a5a5a5a5a5a5a5a5a5a5a5a5a5a5a5a5a5a5a5a5a5a5a5a5a5a5a5a5a5a5a5a5a5a5a5a5a5a5a5a5a5a5a5a5a5a5a5a5a5a5a5a5a5a5a5a5a5a5a5a5a5a5a5a"}"##,
    r##"{"pubkey":"81b637d8fcd2c6da6359e6963113a1170de795e4b725b84d1e0b4cfd9ec58ce9","created_at":10,"kind":7,"tags":[["e"],["t","z","x"],[]],"content":"second","id":"4494e0cd2ca6f5a18a838a302c242faf521850657c61d3583d75e195e1b2692f","sig":"5a5a5a5a5a5a5a5a5a5a5a5a5a5a5a5a5a5a5a5a5a5a5a5a5a5a5a5a5a5a5a5a5a5a5a5a5a5a5a5a5a5a5a5a5a5a5a5a5a5a5a5a5a5a5a5a5a5a5a5a5a5a5a5a"}"##,
    r##"{"pubkey":"2bd806c97f0e00af1a1fc3328fa763a9269723c8db8fac4f93af71db186d6e90","created_at":10,"kind":30023,"tags":[],"content":"third","id":"b5feb4c9c8dc073f982789a9ef1d37de92dee17a5464728203d367c7fc742c45","sig":"5a5a5a5a5a5a5a5a5a5a5a5a5a5a5a5a5a5a5a5a5a5a5a5a5a5a5a5a5a5a5a5a5a5a5a5a5a5a5a5a5a5a5a5a5a5a5a5a5a5a5a5a5a5a5a5a5a5a5a5a5a5a5a5a"}"##,
];

// Lists of filters, and the places that they choose.
static CHOICES: [(&str, &[usize]); 6] = [
    (r##"[{"limit":2}]"##, &[1, 2]),
    (r##"[{"limit":1}]"##, &[1]),
    (r##"[{"limit":0}]"##, &[]),
    (r##"[{"limit":1},{"until":9}]"##, &[1, 0]),
    (r##"[{"kinds":[]}]"##, &[]),
    (r##"[{},{"limit":1}]"##, &[1, 2, 0]),
];

// Lists of filters over these three events, each many times.
static FILTERS: [&str; 8] = [
    r##"[{}]"##,
    r##"[{"limit":900}]"##,
    r##"[{"until":9,"limit":70}]"##,
    r##"[{"since":10}]"##,
    r##"[{"since":9,"until":9}]"##,
    r##"[{"until":8},{"since":11},{"since":10,"until":9}]"##,
    r##"[{"kinds":[7],"limit":20},{"kinds":[1,30023],"since":10}]"##,
    r##"[{"kinds":[2]},{"until":9,"limit":2},{"limit":450}]"##,
];

fn parsed(alloc: Global, text: &str) -> Result<Value, Fail> {
    Ok(Value::from_str(alloc, text).ok().ok_or("no JSON")?)
}

fn filters(alloc: Global, text: &str) -> Result<Vec<Filter>, Fail> {
    let value = parsed(alloc, text)?;
    let mut list = Vec::new(alloc);
    for item in value.as_array().ok_or("no array")? {
        list.push(Filter::from_json(alloc, item).ok().ok_or("no filter")?)?;
    }
    Ok(list)
}

fn event(alloc: Global, text: &str) -> Result<Arc<Event>, Fail> {
    let value = parsed(alloc, text)?;
    let event = Event::from_json(alloc, &value).ok().ok_or("no event")?;
    Ok(Arc::new(alloc, event)?)
}

// The events in runs, put in one by one.
fn arranged(alloc: Global, events: &[Arc<Event>]) -> Result<Newest, Fail> {
    let mut newest = Newest::new(alloc)?;
    for place in 0..events.len() {
        newest = newest.insert(alloc, place, Arc::try_clone(&events[place])?)?;
    }
    Ok(newest)
}

fn three(alloc: Global) -> Result<Vec<Arc<Event>>, Fail> {
    let mut list = Vec::new(alloc);
    for text in &EVENTS {
        list.push(event(alloc, *text)?)?;
    }
    Ok(list)
}

#[test]
fn what_is_chosen(rt: HostRuntime) -> Result<(), Fail> {
    let alloc = rt.alloc();
    let newest = arranged(alloc, &three(alloc)?)?;
    for (text, want) in &CHOICES {
        let places = choose(alloc, &filters(alloc, *text)?, &newest)?;
        assert!(rt; places.as_slice() == *want, "{text}");
    }
    Ok(())
}

// Whether the order chooses for each list of filters what is chosen where every event is read.
fn chooses_as_all(alloc: Global, newest: &Newest, events: &[Arc<Event>]) -> Result<bool, Fail> {
    for text in &FILTERS {
        let filters = filters(alloc, *text)?;
        if choose(alloc, &filters, newest)? != nostr_filter::choose(alloc, &filters, events)? {
            return Ok(false);
        }
    }
    Ok(true)
}

// 1,200 events make runs of three sizes. The three come again and again, and what ties goes by its place.
#[test]
fn many_events_and_an_older_order(rt: HostRuntime) -> Result<(), Fail> {
    let alloc = rt.alloc();
    let three = three(alloc)?;
    let mut events = Vec::new(alloc);
    for _round in 0..400 {
        for event in &three {
            events.push(Arc::try_clone(event)?)?;
        }
    }
    let half = events.len() / 2;
    let old = arranged(alloc, &events[..half])?;
    let shared = old.share()?;
    drop(old);
    let newest = arranged(alloc, &events)?;
    assert!(rt; chooses_as_all(alloc, &newest, &events)?);
    assert!(rt; chooses_as_all(alloc, &shared, &events[..half])?);
    Ok(())
}
