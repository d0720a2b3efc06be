// Tests of messages.
use neg_codec::Id;
use nostr_event::{EventFault, EventField, Text};
use nostr_filter::Filter;
use nostr_wire::{
    Bytes, Filters, FromRelay, Heading, Name, Sub, WireFault, read_client, read_relay,
    write_client, write_relay, write_relay_in,
};
use std::alloc::Global;
use std::sync::Arc;
use std::test::*;

// Texts of clients, and what is written of their messages. Python's json and hashlib made the event.
static CLIENT: [(&str, &str); 8] = [
    (
        r##"["EVENT", {"pubkey": "8174099687a26621f4e2cdd7cc03b3dacedb3fb962255b1aafd033cabe831530", "created_at": 1700000000, "kind": 1, "tags": [["e", "x"], []], "content": "caf\u00e9 \ud83e\udd80", "id": "eff881484840c15401a2bdf12d0cf4ea1670c35116fe36fac50909cf1bf8c8e7", "sig": "5a5a5a5a5a5a5a5a5a5a5a5a5a5a5a5a5a5a5a5a5a5a5a5a5a5a5a5a5a5a5a5a5a5a5a5a5a5a5a5a5a5a5a5a5a5a5a5a5a5a5a5a5a5a5a5a5a5a5a5a5a5a5a5a"}, 5]"##,
        r##"["EVENT",{"content":"café 🦀","created_at":1700000000,"id":"eff881484840c15401a2bdf12d0cf4ea1670c35116fe36fac50909cf1bf8c8e7","kind":1,"pubkey":"8174099687a26621f4e2cdd7cc03b3dacedb3fb962255b1aafd033cabe831530","sig":"5a5a5a5a5a5a5a5a5a5a5a5a5a5a5a5a5a5a5a5a5a5a5a5a5a5a5a5a5a5a5a5a5a5a5a5a5a5a5a5a5a5a5a5a5a5a5a5a5a5a5a5a5a5a5a5a5a5a5a5a5a5a5a5a","tags":[["e","x"],[]]}]"##,
    ),
    (
        r##"["REQ","éééééééééééééééééééééééééééééééééééééééééééééééééééééééééééééééé",{},{"limit":2,"kinds":[1]}]"##,
        r##"["REQ","éééééééééééééééééééééééééééééééééééééééééééééééééééééééééééééééé",{},{"kinds":[1],"limit":2}]"##,
    ),
    (
        r##"["REQ","\u0061\n",{"ids":["eff881484840c15401a2bdf12d0cf4ea1670c35116fe36fac50909cf1bf8c8e7"],"z":[]}]"##,
        r##"["REQ","a\n",{"ids":["eff881484840c15401a2bdf12d0cf4ea1670c35116fe36fac50909cf1bf8c8e7"]}]"##,
    ),
    (r##" [ "CLOSE" , "s" , 5 ] "##, r##"["CLOSE","s"]"##),
    (
        r##"["NEG-OPEN","s",{"kinds":[1]},"6100000200"]"##,
        r##"["NEG-OPEN","s",{"kinds":[1]},"6100000200"]"##,
    ),
    (
        r##"["NEG-MSG","s","6A",null]"##,
        r##"["NEG-MSG","s","6a"]"##,
    ),
    (r##"["NEG-MSG","s",""]"##, r##"["NEG-MSG","s",""]"##),
    (r##"["NEG-CLOSE","s"]"##, r##"["NEG-CLOSE","s"]"##),
];

// Texts of relays, and what is written of their messages.
static RELAY: [(&str, &str); 8] = [
    (
        r##"["EVENT","s",{"pubkey": "8174099687a26621f4e2cdd7cc03b3dacedb3fb962255b1aafd033cabe831530", "created_at": 1700000000, "kind": 1, "tags": [["e", "x"], []], "content": "caf\u00e9 \ud83e\udd80", "id": "eff881484840c15401a2bdf12d0cf4ea1670c35116fe36fac50909cf1bf8c8e7", "sig": "5a5a5a5a5a5a5a5a5a5a5a5a5a5a5a5a5a5a5a5a5a5a5a5a5a5a5a5a5a5a5a5a5a5a5a5a5a5a5a5a5a5a5a5a5a5a5a5a5a5a5a5a5a5a5a5a5a5a5a5a5a5a5a5a"},{}]"##,
        r##"["EVENT","s",{"content":"café 🦀","created_at":1700000000,"id":"eff881484840c15401a2bdf12d0cf4ea1670c35116fe36fac50909cf1bf8c8e7","kind":1,"pubkey":"8174099687a26621f4e2cdd7cc03b3dacedb3fb962255b1aafd033cabe831530","sig":"5a5a5a5a5a5a5a5a5a5a5a5a5a5a5a5a5a5a5a5a5a5a5a5a5a5a5a5a5a5a5a5a5a5a5a5a5a5a5a5a5a5a5a5a5a5a5a5a5a5a5a5a5a5a5a5a5a5a5a5a5a5a5a5a","tags":[["e","x"],[]]}]"##,
    ),
    (
        r##"["OK","eff881484840c15401a2bdf12d0cf4ea1670c35116fe36fac50909cf1bf8c8e7",true,""]"##,
        r##"["OK","eff881484840c15401a2bdf12d0cf4ea1670c35116fe36fac50909cf1bf8c8e7",true,""]"##,
    ),
    (
        r##"["OK","eff881484840c15401a2bdf12d0cf4ea1670c35116fe36fac50909cf1bf8c8e7",false,"invalid: \u0022bad\u0022",1]"##,
        r##"["OK","eff881484840c15401a2bdf12d0cf4ea1670c35116fe36fac50909cf1bf8c8e7",false,"invalid: \"bad\""]"##,
    ),
    (r##"["EOSE","s",0]"##, r##"["EOSE","s"]"##),
    (
        r##"["CLOSED","s","error: \/\t"]"##,
        r##"["CLOSED","s","error: /\t"]"##,
    ),
    (r##"["NOTICE",""]"##, r##"["NOTICE",""]"##),
    (r##"["NEG-MSG","s","fF00"]"##, r##"["NEG-MSG","s","ff00"]"##),
    (
        r##"["NEG-ERR","s","closed: no such session"]"##,
        r##"["NEG-ERR","s","closed: no such session"]"##,
    ),
];

// Texts that no client sends.
static CLIENT_FAULTS: [(&str, WireFault); 40] = [
    (r##""##, WireFault::Json),
    (r##"hello"##, WireFault::Json),
    (r##"["CLOSE","s""##, WireFault::Json),
    (r##"["CLOSE","\ud800"]"##, WireFault::Json),
    (r##"{}"##, WireFault::Kind),
    (r##"[]"##, WireFault::Kind),
    (r##"[1,"CLOSE"]"##, WireFault::Kind),
    (r##""CLOSE""##, WireFault::Kind),
    (r##"["EOSE","s"]"##, WireFault::Kind),
    (r##"["close","s"]"##, WireFault::Kind),
    (r##"["CLOSE ","s"]"##, WireFault::Kind),
    (r##"[["CLOSE"],"s"]"##, WireFault::Kind),
    (r##"["EVENT"]"##, WireFault::Arity),
    (r##"["EVENT","x"]"##, WireFault::Arity),
    (r##"["EVENT",[]]"##, WireFault::Arity),
    (r##"["REQ"]"##, WireFault::Arity),
    (r##"["REQ","s"]"##, WireFault::Arity),
    (r##"["REQ",{},{}]"##, WireFault::Arity),
    (r##"["REQ","",{},5]"##, WireFault::Arity),
    (r##"["REQ","s",{"ids":["zz"]},[]]"##, WireFault::Arity),
    (r##"["CLOSE"]"##, WireFault::Arity),
    (r##"["CLOSE",5]"##, WireFault::Arity),
    (r##"["NEG-OPEN","",{}]"##, WireFault::Arity),
    (r##"["NEG-OPEN","s","{}","61"]"##, WireFault::Arity),
    (r##"["NEG-OPEN","",{},61]"##, WireFault::Arity),
    (r##"["NEG-MSG","s",61]"##, WireFault::Arity),
    (r##"["NEG-CLOSE",null]"##, WireFault::Arity),
    (r##"["REQ","",{"ids":5}]"##, WireFault::Sub),
    (r##"["CLOSE",""]"##, WireFault::Sub),
    (
        r##"["CLOSE","ééééééééééééééééééééééééééééééééééééééééééééééééééééééééééééééééx"]"##,
        WireFault::Sub,
    ),
    (r##"["NEG-OPEN","",{"ids":5},"6"]"##, WireFault::Sub),
    (r##"["NEG-MSG","","6"]"##, WireFault::Sub),
    (r##"["NEG-CLOSE",""]"##, WireFault::Sub),
    (r##"["REQ","s",{},{"kinds":[65536]}]"##, WireFault::Filter),
    (r##"["REQ","s",{"ids":["zz"]},{}]"##, WireFault::Filter),
    (r##"["NEG-OPEN","s",{"since":-1},"6"]"##, WireFault::Filter),
    (r##"["NEG-OPEN","s",{},"6"]"##, WireFault::HexText),
    (r##"["NEG-OPEN","s",{},"6g"]"##, WireFault::HexText),
    (r##"["NEG-MSG","s","610"]"##, WireFault::HexText),
    (r##"["NEG-MSG","s"," 61"]"##, WireFault::HexText),
];

// Texts that no relay sends.
static RELAY_FAULTS: [(&str, WireFault); 23] = [
    (r##"["AUTH","x"]"##, WireFault::Kind),
    (r##"["REQ","s",{}]"##, WireFault::Kind),
    (r##"["NEG-OPEN","s",{},"61"]"##, WireFault::Kind),
    (r##"["EOSE"]"##, WireFault::Arity),
    (r##"["EVENT","s"]"##, WireFault::Arity),
    (r##"["EVENT",{},"s"]"##, WireFault::Arity),
    (
        r##"["OK","eff881484840c15401a2bdf12d0cf4ea1670c35116fe36fac50909cf1bf8c8e7",true]"##,
        WireFault::Arity,
    ),
    (
        r##"["OK","eff881484840c15401a2bdf12d0cf4ea1670c35116fe36fac50909cf1bf8c8e7","true",""]"##,
        WireFault::Arity,
    ),
    (r##"["OK","x",1,""]"##, WireFault::Arity),
    (r##"["CLOSED","s"]"##, WireFault::Arity),
    (r##"["NOTICE"]"##, WireFault::Arity),
    (r##"["NOTICE",5]"##, WireFault::Arity),
    (r##"["NEG-MSG","s"]"##, WireFault::Arity),
    (r##"["NEG-ERR","",{}]"##, WireFault::Arity),
    (r##"["EOSE",""]"##, WireFault::Sub),
    (r##"["EVENT","",{}]"##, WireFault::Sub),
    (r##"["CLOSED","",""]"##, WireFault::Sub),
    (r##"["NEG-MSG","","6"]"##, WireFault::Sub),
    (r##"["NEG-ERR","",""]"##, WireFault::Sub),
    (r##"["NEG-MSG","s","6"]"##, WireFault::HexText),
    (
        r##"["OK","eff881484840c15401a2bdf12d0cf4ea1670c35116fe36fac50909cf1bf8c8e",true,""]"##,
        WireFault::HexText,
    ),
    (
        r##"["OK","ABABABABABABABABABABABABABABABABABABABABABABABABABABABABABABABAB",true,""]"##,
        WireFault::HexText,
    ),
    (
        r##"["OK","eff881484840c15401a2bdf12d0cf4ea1670c35116fe36fac50909cf1bf8c8e70",true,""]"##,
        WireFault::HexText,
    ),
];

// Objects that are no events, their faults and the ids that they state.
static EVENT_FAULTS: [(&str, EventFault, Option<Id>); 8] = [
    (r##"{}"##, EventFault::Shape(EventField::Id), None),
    (
        r##"{"id":"abababababababababababababababababababababababababababababababab"}"##,
        EventFault::Shape(EventField::Pubkey),
        Some(Id([0xab; 32])),
    ),
    (r##"{"id":5}"##, EventFault::Shape(EventField::Id), None),
    (
        r##"{"id":"ababababababababababababababababababababababababababababababab"}"##,
        EventFault::Shape(EventField::Pubkey),
        None,
    ),
    (
        r##"{"content":"café 🦀","created_at":1700000000,"id":"ABABABABABABABABABABABABABABABABABABABABABABABABABABABABABABABAB","kind":1,"pubkey":"8174099687a26621f4e2cdd7cc03b3dacedb3fb962255b1aafd033cabe831530","sig":"5a5a5a5a5a5a5a5a5a5a5a5a5a5a5a5a5a5a5a5a5a5a5a5a5a5a5a5a5a5a5a5a5a5a5a5a5a5a5a5a5a5a5a5a5a5a5a5a5a5a5a5a5a5a5a5a5a5a5a5a5a5a5a5a","tags":[["e","x"],[]]}"##,
        EventFault::Hex(EventField::Id),
        None,
    ),
    (
        r##"{"content":"café 🦀","created_at":1700000000,"id":"abababababababababababababababababababababababababababababababab","kind":1,"pubkey":"8174099687a26621f4e2cdd7cc03b3dacedb3fb962255b1aafd033cabe831530","sig":"5a5a5a5a5a5a5a5a5a5a5a5a5a5a5a5a5a5a5a5a5a5a5a5a5a5a5a5a5a5a5a5a5a5a5a5a5a5a5a5a5a5a5a5a5a5a5a5a5a5a5a5a5a5a5a5a5a5a5a5a5a5a5a5a","tags":[["e","x"],[]]}"##,
        EventFault::WrongId,
        Some(Id([0xab; 32])),
    ),
    (
        r##"{"content":"café 🦀","created_at":-1,"id":"abababababababababababababababababababababababababababababababab","kind":1,"pubkey":"8174099687a26621f4e2cdd7cc03b3dacedb3fb962255b1aafd033cabe831530","sig":"5a5a5a5a5a5a5a5a5a5a5a5a5a5a5a5a5a5a5a5a5a5a5a5a5a5a5a5a5a5a5a5a5a5a5a5a5a5a5a5a5a5a5a5a5a5a5a5a5a5a5a5a5a5a5a5a5a5a5a5a5a5a5a5a","tags":[["e","x"],[]]}"##,
        EventFault::Range(EventField::CreatedAt),
        Some(Id([0xab; 32])),
    ),
    (
        r##"{"content":"café 🦀","created_at":1700000000,"id":"abababababababababababababababababababababababababababababababab","kind":1,"pubkey":"8174099687a26621f4e2cdd7cc03b3dacedb3fb962255b1aafd033cabe831530","sig":"00","tags":[["e","x"],[]]}"##,
        EventFault::Hex(EventField::Sig),
        Some(Id([0xab; 32])),
    ),
];
// What is written of the client's message that the text is read as.
fn client_again(alloc: Global, text: &str) -> Result<String, WireFault> {
    let message = read_client(alloc, text)?;
    Ok(write_client(alloc, &message)?)
}

// What is written of the relay's message that the text is read as.
fn relay_again(alloc: Global, text: &str) -> Result<String, WireFault> {
    let message = read_relay(alloc, text)?;
    Ok(write_relay(alloc, &message)?)
}

// The relay's message, of which an event's name is shared.
fn with_shared_name(alloc: Global, message: FromRelay) -> Result<FromRelay, WireFault> {
    let FromRelay::Event { sub: name, event } = message else {
        return Ok(message);
    };
    let text = Text::new(String::from_str(alloc, name.as_str())?);
    let Ok(sub) = Sub::new(text) else {
        return Err(WireFault::Sub);
    };
    let heading = Arc::new(alloc, Heading::new(alloc, sub)?)?;
    Ok(FromRelay::Event {
        sub: Name::shared(&heading)?,
        event,
    })
}

// The same as `relay_again`, with a name that is shared, and where another text stood.
fn shared_again(alloc: Global, text: &str) -> Result<String, WireFault> {
    let message = with_shared_name(alloc, read_relay(alloc, text)?)?;
    let room = String::from_str(alloc, "another text")?;
    Ok(write_relay_in(alloc, room, &message)?)
}

// Whether the text was written.
fn is_text(written: &Result<String, WireFault>, want: &str) -> bool {
    match written {
        Ok(text) => text.as_str() == want,
        Err(_) => false,
    }
}

// Whether the text was refused by this fault.
fn is_fault(written: &Result<String, WireFault>, want: &WireFault) -> bool {
    match written {
        Ok(_) => false,
        Err(fault) => fault == want,
    }
}

#[test]
fn messages_are_read_and_written(rt: HostRuntime) -> Result<(), Fail> {
    let alloc = rt.alloc();
    let mut good = true;
    for (text, want) in &CLIENT {
        good = good
            && is_text(&client_again(alloc, text), want)
            && is_text(&client_again(alloc, want), want);
    }
    assert!(rt; good);
    for (text, want) in &RELAY {
        good = good
            && is_text(&relay_again(alloc, text), want)
            && is_text(&relay_again(alloc, want), want)
            && is_text(&shared_again(alloc, want), want);
    }
    assert!(rt; good);
    Ok(())
}

#[test]
fn other_texts_are_refused(rt: HostRuntime) -> Result<(), Fail> {
    let alloc = rt.alloc();
    let mut good = true;
    for (text, want) in &CLIENT_FAULTS {
        good = good && is_fault(&client_again(alloc, text), want);
    }
    assert!(rt; good);
    for (text, want) in &RELAY_FAULTS {
        good = good && is_fault(&relay_again(alloc, text), want);
    }
    assert!(rt; good);
    Ok(())
}

#[test]
fn bad_events_tell_their_ids(rt: HostRuntime) -> Result<(), Fail> {
    let alloc = rt.alloc();
    let mut good = true;
    for (object, fault, id) in &EVENT_FAULTS {
        let want = WireFault::Event(*fault, *id);
        let sent = format!(in alloc; "[\"EVENT\",{object}]")?;
        let given = format!(in alloc; "[\"EVENT\",\"s\",{object}]")?;
        good = good
            && is_fault(&client_again(alloc, &sent), &want)
            && is_fault(&relay_again(alloc, &given), &want);
    }
    assert!(rt; good);
    Ok(())
}

fn sub(alloc: Global, text: &str) -> Result<Sub, Fail> {
    Ok(
        Sub::new(Text::new(String::from_str(alloc, text)?))
            .ok()
            .ok_or("no name")?,
    )
}

// A list of one filter.
fn filters(alloc: Global) -> Result<Vec<Filter>, Fail> {
    let mut list = Vec::new(alloc);
    list.push(Filter::all())?;
    Ok(list)
}

// Whether a name is given back as it was given.
fn is_name_kept(alloc: Global) -> Result<bool, Fail> {
    let name = sub(alloc, "é")?;
    let is_seen = name.as_str() == "é";
    Ok(is_seen && name.into_text().as_str() == "é")
}

// Whether the name of an event's message is seen as it is, its own and shared.
fn is_name_shared(alloc: Global) -> Result<bool, Fail> {
    let own = Name::own(sub(alloc, "é")?);
    let heading = Arc::new(alloc, Heading::new(alloc, sub(alloc, "é")?)?)?;
    let shared = Name::shared(&heading)?;
    Ok(own.as_str() == "é" && shared.as_str() == "é" && heading.as_str() == "é")
}

// Whether bytes are given back as they were given.
fn are_bytes_kept(alloc: Global) -> Result<bool, Fail> {
    let bytes = Bytes::new(Vec::from_slice(alloc, b"\x61\x00")?);
    let is_seen = bytes.as_slice() == b"\x61\x00".as_slice();
    Ok(is_seen && bytes.into_vec().as_slice() == b"\x61\x00".as_slice())
}

// Whether filters are given back as they were given.
fn are_filters_kept(alloc: Global) -> Result<bool, Fail> {
    let filters = Filters::new(filters(alloc)?).ok().ok_or("no filters")?;
    let is_seen = filters.as_slice().len() == 1;
    Ok(is_seen && filters.into_vec().len() == 1)
}

#[test]
fn parts_are_given_back(rt: HostRuntime) -> Result<(), Fail> {
    let alloc = rt.alloc();
    let is_name = is_name_kept(alloc)? && is_name_shared(alloc)?;
    let are_bytes = are_bytes_kept(alloc)?;
    let are_filters = are_filters_kept(alloc)?;
    assert!(rt; is_name && are_bytes && are_filters);
    assert!(rt; Sub::new(Text::new(String::new(alloc))).is_err());
    assert!(rt; Filters::new(Vec::new(alloc)).is_err());
    Ok(())
}
