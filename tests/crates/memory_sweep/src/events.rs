//! Bytes in hex, events, filters, and the texts that clients and relays send each other.

use crate::said::Said;
use event_text::EventScratch;
use id_text::parse_bytes;
use neg_codec::Id;
use nostr_event::{Draft, Event, EventFault, Spelling, bytes32_of, id_of, id_text};
use nostr_filter::{Filter, FilterFault, TagOrder, choose};
use nostr_wire::{WireFault, read_client, read_client_few, read_relay, write_client, write_relay};
use serde_json::Value;
use std::alloc::Global;
use std::sync::Arc;

/// The names of the calls.
pub const NAMES: &[&str] = &[
    "parse_bytes",
    "id_text plain",
    "id_text escaped",
    "id_of",
    "Event::from_json",
    "Event::to_json",
    "Event::content",
    "Event::to_draft",
    "Filter::from_json",
    "Filter::to_json",
    "choose",
    "TagOrder::new",
    "read_client EVENT",
    "read_client EVENT, tokens",
    "read_client REQ",
    "read_client NEG-OPEN",
    "read_client_few",
    "read_client_few long",
    "write_client EVENT",
    "write_client NEG-OPEN",
    "read_relay EVENT",
    "read_relay EVENT, tokens",
    "read_relay OK",
    "read_relay NEG-MSG",
    "write_relay EVENT",
    "write_relay OK",
];

/// What the call of that name came to.
pub fn said_of(alloc: Global, name: &str) -> Option<Said> {
    match name {
        "parse_bytes" => bytes_of_text(alloc),
        "id_text plain" => text_of_id(alloc, Spelling::Plain),
        "id_text escaped" => text_of_id(alloc, Spelling::Escaped),
        "id_of" => digest(alloc),
        "Event::from_json" => read_event(alloc),
        "Event::to_json" => write_event(alloc),
        "Event::content" => content_of_event(alloc),
        "Event::to_draft" => draft_of_event(alloc),
        "Filter::from_json" => read_filter(alloc),
        "Filter::to_json" => write_filter(alloc),
        "choose" => chosen(alloc),
        "TagOrder::new" => tags_in_order(alloc),
        "read_client EVENT" => read_as_client(alloc, value_text(alloc, GIVEN, 0)?.as_str()),
        "read_client EVENT, tokens" => read_as_client(alloc, event_text(alloc, GIVEN, 0)?.as_str()),
        "read_client REQ" => read_as_client(alloc, REQUEST),
        "read_client NEG-OPEN" => read_as_client(alloc, NEG_OPEN),
        "read_client_few" => read_few(alloc, REQUEST),
        "read_client_few long" => read_few(alloc, long_request(alloc)?.as_str()),
        "write_client EVENT" => write_as_client(alloc, event_text(alloc, GIVEN, 0)?.as_str()),
        "write_client NEG-OPEN" => write_as_client(alloc, NEG_OPEN),
        "read_relay EVENT" => read_as_relay(alloc, value_text(alloc, SENT, 0)?.as_str()),
        "read_relay EVENT, tokens" => read_as_relay(alloc, event_text(alloc, SENT, 0)?.as_str()),
        "read_relay OK" => read_as_relay(alloc, OKAY),
        "read_relay NEG-MSG" => read_as_relay(alloc, NEG_MSG),
        "write_relay EVENT" => write_as_relay(alloc, event_text(alloc, SENT, 0)?.as_str()),
        "write_relay OK" => write_as_relay(alloc, OKAY),
        _ => None,
    }
}

/// Three events at the times 9, 10 and 10, made by another program.
const EVENTS: [&str; 3] = [
    r##"{"content":"first","created_at":9,"id":"c834e78ee1a16342ad8786756ffb00d078df09ccbc0c6d17605aafc6897bc7de","kind":1,"pubkey":"2bd806c97f0e00af1a1fc3328fa763a9269723c8db8fac4f93af71db186d6e90","sig":"5a5a5a5a5a5a5a5a5a5a5a5a5a5a5a5a5a5a5a5a5a5a5a5a5a5a5a5a5a5a5a5a5a5a5a5a5a5a5a5a5a5a5a5a5a5a5a5a5a5a5a5a5a5a5a5a5a5a5a5a5a5a5a5a","tags":[["t","x"],["t","y"]]}"##,
    r##"{"content":"second","created_at":10,"id":"4494e0cd2ca6f5a18a838a302c242faf521850657c61d3583d75e195e1b2692f","kind":7,"pubkey":"81b637d8fcd2c6da6359e6963113a1170de795e4b725b84d1e0b4cfd9ec58ce9","sig":"5a5a5a5a5a5a5a5a5a5a5a5a5a5a5a5a5a5a5a5a5a5a5a5a5a5a5a5a5a5a5a5a5a5a5a5a5a5a5a5a5a5a5a5a5a5a5a5a5a5a5a5a5a5a5a5a5a5a5a5a5a5a5a5a","tags":[["e"],["t","z","x"],[]]}"##,
    r##"{"content":"third","created_at":10,"id":"b5feb4c9c8dc073f982789a9ef1d37de92dee17a5464728203d367c7fc742c45","kind":30023,"pubkey":"2bd806c97f0e00af1a1fc3328fa763a9269723c8db8fac4f93af71db186d6e90","sig":"5a5a5a5a5a5a5a5a5a5a5a5a5a5a5a5a5a5a5a5a5a5a5a5a5a5a5a5a5a5a5a5a5a5a5a5a5a5a5a5a5a5a5a5a5a5a5a5a5a5a5a5a5a5a5a5a5a5a5a5a5a5a5a5a","tags":[]}"##,
];

/// An event of 64 tags, made by another program.
const TAGGED: &str =
    r##"{"content":"many","created_at":11,"id":"9289f1717600f4aaf7e33580fab47bab5c433e4a915b35d1c639cf6d2d6e2f1c","kind":1,"pubkey":"2bd806c97f0e00af1a1fc3328fa763a9269723c8db8fac4f93af71db186d6e90","sig":"5a5a5a5a5a5a5a5a5a5a5a5a5a5a5a5a5a5a5a5a5a5a5a5a5a5a5a5a5a5a5a5a5a5a5a5a5a5a5a5a5a5a5a5a5a5a5a5a5a5a5a5a5a5a5a5a5a5a5a5a5a5a5a5a","tags":[["t","0"],["t","1"],["t","2"],["t","3"],["t","4"],["t","5"],["t","6"],["t","7"],["t","8"],["t","9"],["t","10"],["t","11"],["t","12"],["t","13"],["t","14"],["t","15"],["t","16"],["t","17"],["t","18"],["t","19"],["t","20"],["t","21"],["t","22"],["t","23"],["t","24"],["t","25"],["t","26"],["t","27"],["t","28"],["t","29"],["t","30"],["t","31"],["t","32"],["t","33"],["t","34"],["t","35"],["t","36"],["t","37"],["t","38"],["t","39"],["t","40"],["t","41"],["t","42"],["t","43"],["t","44"],["t","45"],["t","46"],["t","47"],["t","48"],["t","49"],["t","50"],["t","51"],["t","52"],["t","53"],["t","54"],["t","55"],["t","56"],["t","57"],["t","58"],["t","59"],["t","60"],["t","61"],["t","62"],["t","63"]]}"##;

/// The text whose digest is the first event's id.
const ID_TEXT: &str =
    r##"[0,"2bd806c97f0e00af1a1fc3328fa763a9269723c8db8fac4f93af71db186d6e90",9,1,[["t","x"],["t","y"]],"first"]"##;

/// Their ids.
const IDS: [&str; 3] = [
    "c834e78ee1a16342ad8786756ffb00d078df09ccbc0c6d17605aafc6897bc7de",
    "4494e0cd2ca6f5a18a838a302c242faf521850657c61d3583d75e195e1b2692f",
    "b5feb4c9c8dc073f982789a9ef1d37de92dee17a5464728203d367c7fc742c45",
];

/// A filter with each kind of condition.
const FILTER: &str =
    r##"{"#t":["x"],"authors":["2bd806c97f0e00af1a1fc3328fa763a9269723c8db8fac4f93af71db186d6e90"],"ids":["c834e78ee1a16342ad8786756ffb00d078df09ccbc0c6d17605aafc6897bc7de"],"kinds":[1,7],"limit":2,"since":9,"until":10}"##;

/// How the message of an event begins, from a client and from a relay.
pub const GIVEN: &str = r##""EVENT""##;

pub const SENT: &str = r##""EVENT","s""##;

const REQUEST: &str = r##"["REQ","s",{"kinds":[1]},{"limit":2}]"##;

const NEG_OPEN: &str = r##"["NEG-OPEN","s",{"kinds":[1]},"6100000200"]"##;

const NEG_MSG: &str = r##"["NEG-MSG","s","6100000200"]"##;

const OKAY: &str =
    r##"["OK","c834e78ee1a16342ad8786756ffb00d078df09ccbc0c6d17605aafc6897bc7de",true,""]"##;

/// What is sent of an event in the list, behind these elements.
pub fn event_text(alloc: Global, front: &str, at: usize) -> Option<String> {
    format!(in alloc; "[{front},{}]", EVENTS.get(at)?).ok()
}

/// The same behind a space, so that it is read by way of a value. The text of tokens is so read where memory was refused.
pub fn value_text(alloc: Global, front: &str, at: usize) -> Option<String> {
    format!(in alloc; " [{front},{}]", EVENTS.get(at)?).ok()
}

/// The id of the event at a place in the list.
pub fn event_id(at: usize) -> Option<Id> {
    Some(Id(bytes32_of(IDS.get(at)?)?))
}

fn parsed(alloc: Global, text: &str) -> Option<Value> {
    Value::from_str(alloc, text).ok()
}

/// The event of a text.
pub fn read(alloc: Global, text: &str) -> Option<Event> {
    Event::from_json(alloc, &parsed(alloc, text)?).ok()
}

/// The event of a text, for a store.
pub fn read_shared(alloc: Global, text: &str) -> Option<Arc<Event>> {
    Arc::new(alloc, read(alloc, text)?).ok()
}

/// The event at a place in the list.
pub fn event(alloc: Global, at: usize) -> Option<Arc<Event>> {
    read_shared(alloc, EVENTS.get(at)?)
}

/// The line of the event at a place in the list.
pub fn event_line(alloc: Global, at: usize) -> Option<String> {
    format!(in alloc; "{}\n", EVENTS.get(at)?).ok()
}

/// The filter of a text.
pub fn filter(alloc: Global, text: &str) -> Option<Filter> {
    Filter::from_json(alloc, &parsed(alloc, text)?).ok()
}

fn bytes_of_text(alloc: Global) -> Option<Said> {
    match parse_bytes(alloc, b"0010ff") {
        Ok(bytes) => Said::ample(bytes?.as_slice() == [0, 16, 255].as_slice()),
        Err(_) => Said::memory(true),
    }
}

/// What the first event says.
fn draft(alloc: Global) -> Option<Draft> {
    event(alloc, 0)?.to_draft(alloc).ok()
}

fn text_of_id(alloc: Global, spelling: Spelling) -> Option<Said> {
    let draft = draft(alloc)?;
    match id_text(alloc, &draft, spelling) {
        Ok(text) => Said::ample(text.as_str() == ID_TEXT),
        Err(_) => Said::memory(true),
    }
}

fn digest(alloc: Global) -> Option<Said> {
    let draft = draft(alloc)?;
    match id_of(alloc, &draft, Spelling::Escaped) {
        Ok(id) => Said::ample(event_id(0) == Some(id)),
        Err(_) => Said::memory(true),
    }
}

fn read_event(alloc: Global) -> Option<Said> {
    let value = parsed(alloc, EVENTS[0])?;
    match Event::from_json(alloc, &value) {
        Ok(event) => Said::ample(
            event_id(0) == Some(event.id()) && event.tags().len() == 2,
        ),
        Err(EventFault::Memory) => Said::memory(true),
        Err(_) => Said::wrong(),
    }
}

fn content_of_event(alloc: Global) -> Option<Said> {
    let event = event(alloc, 0)?;
    match event.content(alloc) {
        Ok(content) => Said::ample(content.as_str() == "first"),
        Err(_) => Said::memory(true),
    }
}

fn draft_of_event(alloc: Global) -> Option<Said> {
    let event = event(alloc, 0)?;
    match event.to_draft(alloc) {
        Ok(draft) => Said::ample(draft.kind == 1 && draft.tags.len() == 2),
        Err(_) => Said::memory(true),
    }
}

fn write_event(alloc: Global) -> Option<Said> {
    let event = event(alloc, 0)?;
    match event.to_json(alloc) {
        Ok(value) => Said::ample(Event::from_json(alloc, &value).ok()?.id() == event.id()),
        Err(_) => Said::memory(true),
    }
}

fn text_of_filter(alloc: Global, filter: &Filter) -> Option<String> {
    filter.to_json(alloc).ok()?.to_string(alloc).ok()
}

fn read_filter(alloc: Global) -> Option<Said> {
    let value = parsed(alloc, FILTER)?;
    match Filter::from_json(alloc, &value) {
        Ok(filter) => Said::ample(text_of_filter(alloc, &filter)?.as_str() == FILTER),
        Err(FilterFault::Memory) => Said::memory(true),
        Err(_) => Said::wrong(),
    }
}

fn write_filter(alloc: Global) -> Option<Said> {
    let filter = filter(alloc, FILTER)?;
    match filter.to_json(alloc) {
        Ok(value) => Said::ample(value.to_string(alloc).ok()?.as_str() == FILTER),
        Err(_) => Said::memory(true),
    }
}

fn chosen(alloc: Global) -> Option<Said> {
    let filters = [
        filter(alloc, r##"{"limit":1}"##)?,
        filter(alloc, r##"{"until":9}"##)?,
    ];
    let events = [event(alloc, 0)?, event(alloc, 1)?, event(alloc, 2)?];
    match choose(alloc, &filters, &events) {
        Ok(places) => Said::ample(places.as_slice() == [1, 0].as_slice()),
        Err(_) => Said::memory(true),
    }
}

/// Looks for one of the event's tags, and for one that it hasn't.
fn tags_in_order(alloc: Global) -> Option<Said> {
    let event = read(alloc, TAGGED)?;
    let (there, missing) = (
        filter(alloc, r##"{"#t":["63"]}"##)?,
        filter(alloc, r##"{"#t":["64"]}"##)?,
    );
    match TagOrder::new(alloc, &event) {
        Ok(order) => {
            Said::ample(there.matches_by(&event, &order) && !missing.matches_by(&event, &order))
        }
        Err(_) => Said::memory(true),
    }
}

/// A request of a filter more, in a text that is long by spaces.
fn long_request(alloc: Global) -> Option<String> {
    let mut text = String::from_str(alloc, r##"["REQ","s",{"kinds":[1]},{"limit":2},"##).ok()?;
    for _space in 0..20_000 {
        text.push_str(" ").ok()?;
    }
    text.push_str(r##"{"limit":3}]"##).ok()?;
    Some(text)
}

/// Reads a request of which two filters are kept.
fn read_few(alloc: Global, text: &str) -> Option<Said> {
    match read_client_few(alloc, &mut EventScratch::new(), text, 1) {
        Ok(message) => Said::ample(write_client(alloc, &message).ok()?.as_str() == REQUEST),
        Err(WireFault::Memory) => Said::memory(true),
        Err(_) => Said::wrong(),
    }
}

fn read_as_client(alloc: Global, text: &str) -> Option<Said> {
    match read_client(alloc, text) {
        Ok(message) => Said::ample(write_client(alloc, &message).ok()?.as_str() == text.trim_start()),
        Err(WireFault::Memory) => Said::memory(true),
        Err(_) => Said::wrong(),
    }
}

fn write_as_client(alloc: Global, text: &str) -> Option<Said> {
    let message = read_client(alloc, text).ok()?;
    match write_client(alloc, &message) {
        Ok(written) => Said::ample(written.as_str() == text),
        Err(_) => Said::memory(true),
    }
}

fn read_as_relay(alloc: Global, text: &str) -> Option<Said> {
    match read_relay(alloc, text) {
        Ok(message) => Said::ample(write_relay(alloc, &message).ok()?.as_str() == text.trim_start()),
        Err(WireFault::Memory) => Said::memory(true),
        Err(_) => Said::wrong(),
    }
}

fn write_as_relay(alloc: Global, text: &str) -> Option<Said> {
    let message = read_relay(alloc, text).ok()?;
    match write_relay(alloc, &message) {
        Ok(written) => Said::ample(written.as_str() == text),
        Err(_) => Said::memory(true),
    }
}
