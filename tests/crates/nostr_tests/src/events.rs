// Tests against values from outside: Python's json and hashlib.
mod vectors;

use super::events::vectors::{VECTORS, Vector};
use event_text::{EventScratch, event_of_bytes};
use neg_codec::{Id, Item};
use nostr_event::{
    Draft, Event, EventFault, EventField, Spelling, Tag, Tags, Text, bytes32_of, id_of, id_text,
};
use serde_json::Value;
use sha2::{Digest, Sha256};
use std::alloc::Global;
use std::test::Fail;

const SIG: &str =
    "5a5a5a5a5a5a5a5a5a5a5a5a5a5a5a5a5a5a5a5a5a5a5a5a5a5a5a5a5a5a5a5a5a5a5a5a5a5a5a5a5a5a5a5a5a5a5a5a5a5a5a5a5a5a5a5a5a5a5a5a5a5a5a5a";

// A draft of 64 digits 1, time 1, kind 1, no tags and the content U+0001.
const CONTROL: &str =
    r#"{"id":"b605b1b0cf3fe0d2fae20e93f2d1793d353a69b4b7200eb8335f9d39ec0e07fe","pubkey":"1111111111111111111111111111111111111111111111111111111111111111","created_at":1,"kind":1,"tags":[],"content":"\u0001","sig":"5a5a5a5a5a5a5a5a5a5a5a5a5a5a5a5a5a5a5a5a5a5a5a5a5a5a5a5a5a5a5a5a5a5a5a5a5a5a5a5a5a5a5a5a5a5a5a5a5a5a5a5a5a5a5a5a5a5a5a5a5a5a5a5a"}"#;

const CONTROL_PLAIN: &str = "b605b1b0cf3fe0d2fae20e93f2d1793d353a69b4b7200eb8335f9d39ec0e07fe";

const CONTROL_ESCAPED: &str = "a8a0f9c47f7408e0300857ef761bfebc607877f2eb0b7b91eb85e7d7ca514fa7";

// What stands in place of the first match in CONTROL, and the fault that the event then has.
static FAULTS: [(&str, &str, EventFault); 28] = [
    (CONTROL, "[]", EventFault::Shape(EventField::Object)),
    (CONTROL, "{}", EventFault::Shape(EventField::Id)),
    (
        "\"id\":\"b",
        "\"ID\":\"b",
        EventFault::Shape(EventField::Id),
    ),
    (
        "\"pubkey\":\"",
        "\"pubkey\":1,\"x\":\"",
        EventFault::Shape(EventField::Pubkey),
    ),
    (
        "\"created_at\":1",
        "\"created_at\":\"1\"",
        EventFault::Shape(EventField::CreatedAt),
    ),
    (
        "\"kind\":1",
        "\"kind\":null",
        EventFault::Shape(EventField::Kind),
    ),
    ("[]", "[[\"a\",1]]", EventFault::Shape(EventField::Tags)),
    ("[]", "[\"a\"]", EventFault::Shape(EventField::Tags)),
    (
        "\"\\u0001\"",
        "true",
        EventFault::Shape(EventField::Content),
    ),
    (
        ",\"sig\":\"",
        ",\"x\":\"",
        EventFault::Shape(EventField::Sig),
    ),
    (
        "\"id\":\"b605",
        "\"id\":\"B605",
        EventFault::Hex(EventField::Id),
    ),
    (
        "\"id\":\"b605",
        "\"id\":\"605",
        EventFault::Hex(EventField::Id),
    ),
    (
        "\"pubkey\":\"1",
        "\"pubkey\":\"g",
        EventFault::Hex(EventField::Pubkey),
    ),
    (
        "\"sig\":\"5a",
        "\"sig\":\"5a5a",
        EventFault::Hex(EventField::Sig),
    ),
    (
        "\"sig\":\"5a",
        "\"sig\":\"5A",
        EventFault::Hex(EventField::Sig),
    ),
    (
        "\"created_at\":1",
        "\"created_at\":18446744073709551615",
        EventFault::Range(EventField::CreatedAt),
    ),
    (
        "\"created_at\":1",
        "\"created_at\":18446744073709551616",
        EventFault::Range(EventField::CreatedAt),
    ),
    (
        "\"created_at\":1",
        "\"created_at\":-1",
        EventFault::Range(EventField::CreatedAt),
    ),
    (
        "\"created_at\":1",
        "\"created_at\":1.0",
        EventFault::Range(EventField::CreatedAt),
    ),
    (
        "\"created_at\":1",
        "\"created_at\":1e0",
        EventFault::Range(EventField::CreatedAt),
    ),
    (
        "\"kind\":1",
        "\"kind\":65536",
        EventFault::Range(EventField::Kind),
    ),
    (
        "\"kind\":1",
        "\"kind\":-0",
        EventFault::Range(EventField::Kind),
    ),
    ("\"kind\":1", "\"kind\":2", EventFault::WrongId),
    ("\\u0001", "", EventFault::WrongId),
    ("\"tags\":[]", "\"tags\":[[]]", EventFault::WrongId),
    // all shapes come before all digits, and these before all ranges
    (
        CONTROL,
        r#"{"id":"B605b1b0cf3fe0d2fae20e93f2d1793d353a69b4b7200eb8335f9d39ec0e07fe","pubkey":"1111111111111111111111111111111111111111111111111111111111111111","created_at":1,"kind":65536,"tags":[],"content":"\u0001","sig":"5a5a5a5a5a5a5a5a5a5a5a5a5a5a5a5a5a5a5a5a5a5a5a5a5a5a5a5a5a5a5a5a5a5a5a5a5a5a5a5a5a5a5a5a5a5a5a5a5a5a5a5a5a5a5a5a5a5a5a5a5a5a5a5a"}"#,
        EventFault::Hex(EventField::Id),
    ),
    (
        CONTROL,
        r#"{"id":"B605b1b0cf3fe0d2fae20e93f2d1793d353a69b4b7200eb8335f9d39ec0e07fe","pubkey":"1111111111111111111111111111111111111111111111111111111111111111","created_at":1,"kind":65536,"tags":[],"content":"\u0001","gis":"5a5a5a5a5a5a5a5a5a5a5a5a5a5a5a5a5a5a5a5a5a5a5a5a5a5a5a5a5a5a5a5a5a5a5a5a5a5a5a5a5a5a5a5a5a5a5a5a5a5a5a5a5a5a5a5a5a5a5a5a5a5a5a5a"}"#,
        EventFault::Shape(EventField::Sig),
    ),
    // of a key that comes twice the last value stays
    ("\"kind\":1", "\"kind\":1,\"kind\":2", EventFault::WrongId),
];

// What stands in place of the first match in CONTROL, so that the same event is read: unknown fields are passed over, of a key
// that comes twice the last value stays, and an escape spells its character.
static SAME: [(&str, &str); 2] = [
    (
        "\"kind\":1",
        "\"kind\":{\"a\":[1.5,-3]},\"ok\":null,\"kind\":1",
    ),
    ("\"id\"", "\"\\u0069d\""),
];

// What stands in place of the first match in CONTROL, and whether that is JSON.
static TEXTS: [(&str, &str, bool); 16] = [
    // lone surrogates
    ("\\u0001", "\\ud83e", false),
    ("\\u0001", "\\udd80", false),
    ("\\u0001", "\\ud83ex", false),
    ("\\u0001", "\\ud83e\\udd80", true),
    // raw control characters, unknown escapes
    ("\\u0001", "\u{1}", false),
    ("\\u0001", "\\x01", false),
    ("\\u0001", "\u{7f}", true),
    // numbers
    ("\"kind\":1", "\"kind\":01", false),
    ("\"kind\":1", "\"kind\":+1", false),
    ("\"kind\":1", "\"kind\":.5", false),
    ("\"kind\":1", "\"kind\":1e400", false),
    ("\"kind\":1", "\"kind\":1e300", true),
    (
        "\"kind\":1",
        "\"kind\":123456789012345678901234567890",
        true,
    ),
    // what follows the object
    ("}", "}}", false),
    ("}", "} \n", true),
    ("}", ",}", false),
];

fn parsed(alloc: Global, text: &str) -> Result<Value, Fail> {
    Ok(Value::from_str(alloc, text).ok().ok_or("no JSON")?)
}

// The event of the text's value, which is that of its tokens where these tell one.
fn read(alloc: Global, text: &str) -> Result<Event, Fail> {
    let value = parsed(alloc, text)?;
    let event = Event::from_json(alloc, &value).ok().ok_or("no event")?;
    match event_of_bytes(alloc, &mut EventScratch::new(), text.as_bytes()) {
        Some(Ok(other)) if other.text() == event.text() => Ok(event),
        None => Ok(event),
        _ => Err(Fail::new("its tokens tell another event")),
    }
}

// The fault of the text's value; its tokens tell of a wrong id at most.
fn fault_of(alloc: Global, text: &str) -> Result<Option<EventFault>, Fail> {
    let value = parsed(alloc, text)?;
    let fault = Event::from_json(alloc, &value).err();
    match event_of_bytes(alloc, &mut EventScratch::new(), text.as_bytes()) {
        Some(Ok(_)) if fault.is_none() => Ok(fault),
        Some(Err(_)) if fault == Some(EventFault::WrongId) => Ok(fault),
        None => Ok(fault),
        _ => Err(Fail::new("its tokens tell something else")),
    }
}

// The text of what is written of the event, which is the text that it keeps.
fn written(alloc: Global, event: &Event) -> Result<String, Fail> {
    let text = event.to_json(alloc)?.to_string(alloc)?;
    if text.as_str() == event.text() {
        Ok(text)
    } else {
        Err(Fail::new("it keeps another text"))
    }
}

fn whole(alloc: Global, members: &str, id: &str) -> Result<String, Fail> {
    Ok(format!(in alloc; "{{{members},\"id\":\"{id}\",\"sig\":\"{SIG}\"}}")?)
}

// Whether these are the draft's id and the length of its text.
fn is_id(
    alloc: Global,
    draft: &Draft,
    hex: &str,
    spelling: Spelling,
    len: usize,
) -> Result<bool, Fail> {
    let id = id_of(alloc, draft, spelling)?;
    let text = id_text(alloc, draft, spelling)?;
    Ok(bytes32_of(hex) == Some(id.0) && text.len() == len)
}

// The event of these members with that id.
fn event_of(alloc: Global, members: &str, hex: &str) -> Result<Event, Fail> {
    let text = whole(alloc, members, hex)?;
    read(alloc, text.as_str())
}

// Whether what is written of the event reads as one of its time and id.
fn is_again(alloc: Global, event: &Event) -> Result<bool, Fail> {
    let text = written(alloc, event)?;
    let again = read(alloc, text.as_str())?;
    Ok(again.item() == event.item())
}

// Whether an event with that id of its draft is read, its id's text has that length, and what is written of it reads as an
// event of its time and id.
fn is_read(
    alloc: Global,
    members: &str,
    hex: &str,
    spelling: Spelling,
    len: usize,
) -> Result<bool, Fail> {
    let event = event_of(alloc, members, hex)?;
    let is_right = is_id(alloc, &event.to_draft(alloc)?, hex, spelling, len)?;
    let is_same = is_again(alloc, &event)?;
    Ok(is_right && is_same)
}

// Whether the id is wrong with another last digit.
fn is_wrong(alloc: Global, members: &str, hex: &str) -> Result<bool, Fail> {
    let last = if hex.as_bytes().ends_with(b"0") {
        "1"
    } else {
        "0"
    };
    let front = hex.get(..63).ok_or("too short")?;
    let wrong = format!(in alloc; "{front}{last}")?;
    let text = whole(alloc, members, wrong.as_str())?;
    Ok(fault_of(alloc, text.as_str())? == Some(EventFault::WrongId))
}

fn is_event(
    alloc: Global,
    members: &str,
    plain: &str,
    escaped: &str,
    lengths: (usize, usize),
) -> Result<bool, Fail> {
    let is_plain = is_read(alloc, members, plain, Spelling::Plain, lengths.0)?;
    let is_escaped = is_read(alloc, members, escaped, Spelling::Escaped, lengths.1)?;
    let is_refused = is_wrong(alloc, members, plain)?;
    Ok(is_plain && is_escaped && is_refused)
}

// Whether the event is written as Python writes it.
fn is_written(alloc: Global, vector: &Vector) -> Result<bool, Fail> {
    let event = event_of(alloc, vector.draft, vector.plain)?;
    let text = written(alloc, &event)?;
    let digest = Sha256::digest(text.as_bytes());
    Ok(bytes32_of(vector.written) == Some(digest))
}

#[test]
fn events_from_outside(rt: HostRuntime) -> Result<(), Fail> {
    let alloc = rt.alloc();
    for vector in &VECTORS {
        let is_good = is_event(
            alloc,
            vector.draft,
            vector.plain,
            vector.escaped,
            vector.lengths,
        )?;
        let is_same = is_written(alloc, vector)?;
        assert!(rt; is_good && is_same);
    }
    Ok(())
}

#[test]
fn events_of_tokens(rt: HostRuntime) -> Result<(), Fail> {
    let alloc = rt.alloc();
    // One for all, long and short.
    let mut scratch = EventScratch::new();
    for vector in &VECTORS {
        let text = whole(alloc, vector.draft, vector.plain)?;
        assert!(rt; matches!(event_of_bytes(alloc, &mut scratch, text.as_bytes()), Some(Ok(_))));
    }
    let twice = CONTROL.replacen(alloc, "\"kind\":1", "\"kind\":2,\"kind\":1", 1)?;
    assert!(rt; matches!(event_of_bytes(alloc, &mut scratch, twice.as_bytes()), Some(Ok(_))));
    let wrong = CONTROL.replacen(alloc, "\"kind\":1", "\"kind\":2", 1)?;
    let stated = bytes32_of(CONTROL_PLAIN);
    assert!(rt; matches!(event_of_bytes(alloc, &mut scratch, wrong.as_bytes()), Some(Err(id)) if Some(id.0) == stated));
    // What has another member, or more behind it, is left to others.
    let more = CONTROL.replacen(alloc, "{", "{\"x\":1,", 1)?;
    assert!(rt; event_of_bytes(alloc, &mut scratch, more.as_bytes()).is_none());
    let behind = format!(in alloc; "{CONTROL}1")?;
    assert!(rt; event_of_bytes(alloc, &mut scratch, behind.as_bytes()).is_none());
    assert!(rt; event_of_bytes(alloc, &mut scratch, b"\xff").is_none());
    Ok(())
}

#[test]
fn a_large_event(rt: HostRuntime) -> Result<(), Fail> {
    let alloc = rt.alloc();
    let content = "All work and no play \\u2014 \\\"quoted\\\"\\n\\u0007".repeat(alloc, 4000)?;
    let members = format!(in alloc;
        "\"pubkey\":\"2bd806c97f0e00af1a1fc3328fa763a9269723c8db8fac4f93af71db186d6e90\",\"created_at\":1700000009,\"kind\":1,\"tags\":[[\"e\",\"d35c416a85b807e9b5384915d6ebb4a9f7352713efd89857b45a242f473728a9\"]],\"content\":\"{}\"",
        content.as_str()
    )?;
    let is_good = is_event(
        alloc,
        members.as_str(),
        "e7b3c7c09a576379cbb80ad3f04511a06956591403841821df25f1b2c250f6f0",
        "66c3221996b1c1b2e314380aa1870e98c848a637b5f64780d08c0ebf1131ad89",
        (152161, 172161),
    )?;
    assert!(rt; is_good);
    Ok(())
}

// The worked draft: 64 digits 1, time 1, kind 1, no tags, the content U+0001.
fn control_draft(alloc: Global, tags: Tags) -> Result<Draft, Fail> {
    Ok(Draft {
        pubkey: [0x11; 32],
        created_at: 1,
        kind: 1,
        tags,
        content: Text::new(String::from_str(alloc, "\u{1}")?),
    })
}

// Whether the text of the draft's id ends so.
fn ends_so(alloc: Global, draft: &Draft, spelling: Spelling, end: &str) -> Result<bool, Fail> {
    let text = id_text(alloc, draft, spelling)?;
    Ok(text.as_str().ends_with(end))
}

#[test]
fn a_control_character(rt: HostRuntime) -> Result<(), Fail> {
    let alloc = rt.alloc();
    let draft = control_draft(alloc, Tags::new(alloc))?;
    for (spelling, hex, len, end) in [
        (Spelling::Plain, CONTROL_PLAIN, 81, "1\",1,1,[],\"\u{1}\"]"),
        (
            Spelling::Escaped,
            CONTROL_ESCAPED,
            86,
            "1\",1,1,[],\"\\u0001\"]",
        ),
    ] {
        let is_good = is_id(alloc, &draft, hex, spelling, len)?;
        let is_spelled = ends_so(alloc, &draft, spelling, end)?;
        assert!(rt; is_good && is_spelled, "{len}");
    }
    Ok(())
}

// Tags with no text, with an empty one, and with texts of several bytes a character.
const TAGGED: &[&[&str]] = &[&["t"], &[], &[""], &["e", "", "caf\u{e9}", "\u{1f980}"], &["", "x"]];

// Whether the tag has just these texts, in their order.
fn has_texts(tag: Tag<'_>, wanted: &[&str]) -> bool {
    let mut left = wanted;
    for text in tag.texts() {
        match left.split_first() {
            Some((first, others)) if *first == text => left = others,
            _ => return false,
        }
    }
    left.is_empty()
}

// Whether the tags are those of TAGGED, walked over and looked up.
fn are_tagged(tags: &Tags) -> bool {
    let mut place = 0;
    for tag in tags.iter() {
        let Some(wanted) = TAGGED.get(place) else {
            return false;
        };
        let Some(same) = tags.get(place) else {
            return false;
        };
        if !has_texts(tag, wanted) || !has_texts(same, wanted) {
            return false;
        }
        place += 1;
    }
    place == TAGGED.len() && tags.len() == place && tags.get(place).is_none()
}

#[test]
fn tags_of_a_draft(rt: HostRuntime) -> Result<(), Fail> {
    let alloc = rt.alloc();
    let mut tags = Tags::new(alloc);
    assert!(rt; tags.is_empty() && tags.get(0).is_none());
    for texts in TAGGED {
        tags = tags.with(texts)?;
    }
    assert!(rt; are_tagged(&tags));
    let draft = control_draft(alloc, tags.fitted())?;
    let end = ",[[\"t\"],[],[\"\"],[\"e\",\"\",\"caf\u{e9}\",\"\u{1f980}\"],[\"\",\"x\"]],\"\u{1}\"]";
    let is_spelled = ends_so(alloc, &draft, Spelling::Plain, end)?;
    assert!(rt; is_spelled && are_tagged(&draft.tags));
    Ok(())
}

// Whether the event is that of CONTROL.
fn is_control(alloc: Global, event: &Event, id: Id) -> Result<bool, Fail> {
    let content = event.content(alloc)?;
    let sig = format!(in alloc; "\"sig\":\"{SIG}\"")?;
    Ok(event.id() == id
        && event.item() == Item { time: 1, id }
        && event.text().contains(sig.as_str())
        && *event.pubkey() == [0x11; 32]
        && event.created_at() == 1
        && event.kind() == 1
        && event.tags().is_empty()
        && content.as_str() == "\u{1}")
}

#[test]
fn the_same_event(rt: HostRuntime) -> Result<(), Fail> {
    let alloc = rt.alloc();
    let id = Id(bytes32_of(CONTROL_PLAIN).ok_or("no id")?);
    for (from, to) in &SAME {
        let text = CONTROL.replacen(alloc, *from, *to, 1)?;
        let event = read(alloc, text.as_str())?;
        let is_same = is_control(alloc, &event, id)?;
        assert!(rt; is_same, "{to}");
    }
    Ok(())
}

// The fault of CONTROL with `to` in place of the first `from`.
fn fault_after(alloc: Global, from: &str, to: &str) -> Result<Option<EventFault>, Fail> {
    let text = CONTROL.replacen(alloc, from, to, 1)?;
    fault_of(alloc, text.as_str())
}

#[test]
fn the_first_fault(rt: HostRuntime) -> Result<(), Fail> {
    for (from, to, fault) in &FAULTS {
        let found = fault_after(rt.alloc(), *from, *to)?;
        assert!(rt; found == Some(*fault), "{from} {to}");
    }
    Ok(())
}

#[test]
fn what_is_json(rt: HostRuntime) -> Result<(), Fail> {
    let alloc = rt.alloc();
    for (from, to, good) in &TEXTS {
        let text = CONTROL.replacen(alloc, *from, *to, 1)?;
        let is_json = Value::from_str(alloc, text.as_str()).is_ok();
        assert_eq!(rt; is_json, *good, "{from} {to}");
    }
    Ok(())
}
