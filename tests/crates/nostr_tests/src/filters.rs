// Tests of filters: their JSON, what they match, and what is chosen.
use nostr_event::{Event, Text};
use nostr_filter::{
    Bytes32List, Filter, FilterFault, FilterField, Kinds, TagCondition, TagConditions, Texts,
    choose,
};
use serde_json::Value;
use std::alloc::Global;
use std::sync::Arc;
use std::test::Fail;

// Three events at the times 9, 10 and 10; the second has a lower id than the third. Python's json and hashlib made them.
static EVENTS: [&str; 3] = [
    r##"{"pubkey":"2bd806c97f0e00af1a1fc3328fa763a9269723c8db8fac4f93af71db186d6e90","created_at":9,"kind":1,"tags":[["t","x"],["t","y"]],"content":"first","id":"c834e78ee1a16342ad8786756ffb00d078df09ccbc0c6d17605aafc6897bc7de","sig":"5a5a5a5a5a5a5a5a5a5a5a5a5a5a5a5a5a5a5a5a5a5a5a5a5a5a5a5a5a5a5a5a5a5a5a5a5a5a5a5a5a5a5a5a5a5a5a5a5a5a5a5a5a5a5a5a5a5a5a5a5a5a5a5a"}"##,
    r##"{"pubkey":"81b637d8fcd2c6da6359e6963113a1170de795e4b725b84d1e0b4cfd9ec58ce9","created_at":10,"kind":7,"tags":[["e"],["t","z","x"],[]],"content":"second","id":"4494e0cd2ca6f5a18a838a302c242faf521850657c61d3583d75e195e1b2692f","sig":"5a5a5a5a5a5a5a5a5a5a5a5a5a5a5a5a5a5a5a5a5a5a5a5a5a5a5a5a5a5a5a5a5a5a5a5a5a5a5a5a5a5a5a5a5a5a5a5a5a5a5a5a5a5a5a5a5a5a5a5a5a5a5a5a"}"##,
    r##"{"pubkey":"2bd806c97f0e00af1a1fc3328fa763a9269723c8db8fac4f93af71db186d6e90","created_at":10,"kind":30023,"tags":[],"content":"third","id":"b5feb4c9c8dc073f982789a9ef1d37de92dee17a5464728203d367c7fc742c45","sig":"5a5a5a5a5a5a5a5a5a5a5a5a5a5a5a5a5a5a5a5a5a5a5a5a5a5a5a5a5a5a5a5a5a5a5a5a5a5a5a5a5a5a5a5a5a5a5a5a5a5a5a5a5a5a5a5a5a5a5a5a5a5a5a5a"}"##,
];

// Filters, and which of the events they match.
static MATCHES: [(&str, [bool; 3]); 23] = [
    (r##"{}"##, [true, true, true]),
    (r##"{"limit":0}"##, [true, true, true]),
    (r##"{"ids":[]}"##, [false, false, false]),
    (
        r##"{"ids":["b5feb4c9c8dc073f982789a9ef1d37de92dee17a5464728203d367c7fc742c45","c834e78ee1a16342ad8786756ffb00d078df09ccbc0c6d17605aafc6897bc7de"]}"##,
        [true, false, true],
    ),
    (
        r##"{"authors":["2bd806c97f0e00af1a1fc3328fa763a9269723c8db8fac4f93af71db186d6e90"]}"##,
        [true, false, true],
    ),
    (
        r##"{"authors":["81b637d8fcd2c6da6359e6963113a1170de795e4b725b84d1e0b4cfd9ec58ce9"]}"##,
        [false, true, false],
    ),
    (r##"{"authors":[]}"##, [false, false, false]),
    (r##"{"kinds":[1,7]}"##, [true, true, false]),
    (r##"{"kinds":[30023]}"##, [false, false, true]),
    (r##"{"kinds":[]}"##, [false, false, false]),
    (r##"{"#t":["x"]}"##, [true, false, false]),
    (r##"{"#t":["y"]}"##, [true, false, false]),
    (r##"{"#t":["q","z"]}"##, [false, true, false]),
    (r##"{"#t":[]}"##, [false, false, false]),
    (r##"{"#T":["x"]}"##, [false, false, false]),
    (r##"{"#e":[""]}"##, [false, false, false]),
    (r##"{"#e":["x"],"#t":["x"]}"##, [false, false, false]),
    (r##"{"since":10}"##, [false, true, true]),
    (r##"{"until":9}"##, [true, false, false]),
    (r##"{"since":9,"until":9}"##, [true, false, false]),
    (r##"{"since":10,"until":9}"##, [false, false, false]),
    (
        r##"{"kinds":[1],"authors":["2bd806c97f0e00af1a1fc3328fa763a9269723c8db8fac4f93af71db186d6e90"],"#t":["x"],"since":9}"##,
        [true, false, false],
    ),
    (
        r##"{"search":"q","#tt":["no"],"#1":3}"##,
        [true, true, true],
    ),
];

// Lists of filters, and the places that they choose.
static CHOICES: [(&str, &[usize]); 11] = [
    (r##"[{"limit":2}]"##, &[1, 2]),
    (r##"[{"limit":1}]"##, &[1]),
    (r##"[{"limit":0}]"##, &[]),
    (r##"[{"limit":1},{"until":9}]"##, &[1, 0]),
    (r##"[{"kinds":[]}]"##, &[]),
    (r##"[]"##, &[]),
    (r##"[{}]"##, &[1, 2, 0]),
    (r##"[{},{"limit":1}]"##, &[1, 2, 0]),
    (r##"[{"until":9},{"kinds":[30023]}]"##, &[2, 0]),
    (
        r##"[{"ids":["c834e78ee1a16342ad8786756ffb00d078df09ccbc0c6d17605aafc6897bc7de"]},{"limit":1,"kinds":[1,30023]}]"##,
        &[2, 0],
    ),
    (r##"[{"limit":18446744073709551615}]"##, &[1, 2, 0]),
];

// What is no filter, and its first fault.
static FAULTS: [(&str, FilterFault); 24] = [
    (r##"[]"##, FilterFault::Shape(FilterField::Object)),
    (r##"null"##, FilterFault::Shape(FilterField::Object)),
    (r##"{"ids":"x"}"##, FilterFault::Shape(FilterField::Ids)),
    (r##"{"ids":[1]}"##, FilterFault::Shape(FilterField::Ids)),
    (r##"{"ids":null}"##, FilterFault::Shape(FilterField::Ids)),
    (
        r##"{"authors":{}}"##,
        FilterFault::Shape(FilterField::Authors),
    ),
    (
        r##"{"ids":["C834E78EE1A16342AD8786756FFB00D078DF09CCBC0C6D17605AAFC6897BC7DE"]}"##,
        FilterFault::Hex(FilterField::Ids),
    ),
    (
        r##"{"ids":["c834e78ee1a16342ad8786756ffb00d078df09ccbc0c6d17605aafc6897bc7de","4494e0cd2ca6f5a18a838a302c242faf521850657c61d3583d75e195e1b269"]}"##,
        FilterFault::Hex(FilterField::Ids),
    ),
    (
        r##"{"authors":[""]}"##,
        FilterFault::Hex(FilterField::Authors),
    ),
    (
        r##"{"authors":["2bd806c97f0e00af1a1fc3328fa763a9269723c8db8fac4f93af71db186d6e9g"],"ids":["x"]}"##,
        FilterFault::Hex(FilterField::Authors),
    ),
    (
        r##"{"kinds":[65536]}"##,
        FilterFault::Shape(FilterField::Kinds),
    ),
    (
        r##"{"kinds":[-1]}"##,
        FilterFault::Shape(FilterField::Kinds),
    ),
    (
        r##"{"kinds":[1.0]}"##,
        FilterFault::Shape(FilterField::Kinds),
    ),
    (r##"{"kinds":1}"##, FilterFault::Shape(FilterField::Kinds)),
    (r##"{"limit":-1}"##, FilterFault::Shape(FilterField::Limit)),
    (r##"{"limit":1.5}"##, FilterFault::Shape(FilterField::Limit)),
    (
        r##"{"limit":18446744073709551616}"##,
        FilterFault::Shape(FilterField::Limit),
    ),
    (r##"{"since":"1"}"##, FilterFault::Shape(FilterField::Since)),
    (
        r##"{"until":null}"##,
        FilterFault::Shape(FilterField::Until),
    ),
    (
        r##"{"#e":["a",1]}"##,
        FilterFault::Shape(FilterField::Tag(b'e')),
    ),
    (
        r##"{"#e":1,"#E":1}"##,
        FilterFault::Shape(FilterField::Tag(b'E')),
    ),
    (
        r##"{"authors":1,"#z":{}}"##,
        FilterFault::Shape(FilterField::Tag(b'z')),
    ),
    (
        r##"{"until":"x","limit":"x"}"##,
        FilterFault::Shape(FilterField::Limit),
    ),
    (
        r##"{"ids":["zz"],"until":"x"}"##,
        FilterFault::Shape(FilterField::Until),
    ),
];

// Filters, and their texts as Python writes the known members with sorted keys.
static WRITTEN: [(&str, &str); 5] = [
    (r##"{}"##, r##"{}"##),
    (
        r##"{"ids":[],"authors":[],"kinds":[],"#a":[]}"##,
        r##"{"#a":[],"authors":[],"ids":[],"kinds":[]}"##,
    ),
    (
        r##"{"until":5,"kinds":[1,0,65535],"#e":["x",""],"ids":["4494e0cd2ca6f5a18a838a302c242faf521850657c61d3583d75e195e1b2692f"],"#A":[],"limit":0}"##,
        r##"{"#A":[],"#e":["x",""],"ids":["4494e0cd2ca6f5a18a838a302c242faf521850657c61d3583d75e195e1b2692f"],"kinds":[1,0,65535],"limit":0,"until":5}"##,
    ),
    (
        r##"{"#z":["\u00e9\n\u0001"],"#Z":["\ud83e\udd80"],"#a":["a"],"since":18446744073709551615}"##,
        r##"{"#Z":["🦀"],"#a":["a"],"#z":["é\n\u0001"],"since":18446744073709551615}"##,
    ),
    (
        r##"{"zz":1,"#aa":2,"#":3,"#1":[],"limit":7}"##,
        r##"{"limit":7}"##,
    ),
];

fn parsed(alloc: Global, text: &str) -> Result<Value, Fail> {
    Ok(Value::from_str(alloc, text).ok().ok_or("no JSON")?)
}

fn filter_of(alloc: Global, value: &Value) -> Result<Filter, Fail> {
    Ok(Filter::from_json(alloc, value).ok().ok_or("no filter")?)
}

fn filter(alloc: Global, text: &str) -> Result<Filter, Fail> {
    let value = parsed(alloc, text)?;
    filter_of(alloc, &value)
}

fn event(alloc: Global, text: &str) -> Result<Event, Fail> {
    let value = parsed(alloc, text)?;
    Ok(Event::from_json(alloc, &value).ok().ok_or("no event")?)
}

// Whether the filter matches just the wanted events, and the filter of all matches each.
fn matches_these(filter: &Filter, events: &[Arc<Event>], want: &[bool]) -> bool {
    let all = Filter::all();
    events.iter().zip(want).all(|(event, wanted)| filter.matches(event) == *wanted
        && all.matches(event))
}

#[test]
fn what_filters_match(rt: HostRuntime) -> Result<(), Fail> {
    let alloc = rt.alloc();
    let events = events(alloc)?;
    for (text, want) in &MATCHES {
        let filter = filter(alloc, *text)?;
        assert!(rt;
            matches_these(&filter, events.as_slice(), want.as_slice()),
            "{text}"
        );
    }
    Ok(())
}

fn events(alloc: Global) -> Result<Vec<Arc<Event>>, Fail> {
    let mut list = Vec::new(alloc);
    for text in &EVENTS {
        let event = event(alloc, *text)?;
        list.push(Arc::new(alloc, event)?)?;
    }
    Ok(list)
}

fn filters(alloc: Global, text: &str) -> Result<Vec<Filter>, Fail> {
    let value = parsed(alloc, text)?;
    let mut list = Vec::new(alloc);
    for item in value.as_array().ok_or("no array")? {
        list.push(filter_of(alloc, item)?)?;
    }
    Ok(list)
}

#[test]
fn what_is_chosen(rt: HostRuntime) -> Result<(), Fail> {
    let alloc = rt.alloc();
    let events = events(alloc)?;
    for (text, want) in &CHOICES {
        let filters = filters(alloc, *text)?;
        let places = choose(alloc, &filters, &events)?;
        assert!(rt; places.as_slice() == *want, "{text}");
    }
    Ok(())
}

#[test]
fn faults(rt: HostRuntime) -> Result<(), Fail> {
    let alloc = rt.alloc();
    for (text, want) in &FAULTS {
        let value = parsed(alloc, *text)?;
        let found = Filter::from_json(alloc, &value).err();
        assert!(rt; found == Some(*want), "{text}");
    }
    Ok(())
}

fn written(alloc: Global, filter: &Filter) -> Result<String, Fail> {
    Ok(filter.to_json(alloc)?.to_string(alloc)?)
}

// What is written of the filter of the text.
fn again(alloc: Global, text: &str) -> Result<String, Fail> {
    let filter = filter(alloc, text)?;
    written(alloc, &filter)
}

#[test]
fn texts_as_python_writes_them(rt: HostRuntime) -> Result<(), Fail> {
    let alloc = rt.alloc();
    for (text, want) in &WRITTEN {
        let first = again(alloc, *text)?;
        let second = again(alloc, *want)?;
        assert!(rt; first.as_str() == *want && second.as_str() == *want);
    }
    Ok(())
}

// A field, the first event's value of it, and how other values begin and end.
static LISTS: [(&str, &str, &str, &str); 4] = [
    (
        "ids",
        "\"c834e78ee1a16342ad8786756ffb00d078df09ccbc0c6d17605aafc6897bc7de\"",
        "\"00000000000000000000000000000000000000000000000000000000000000",
        "\"",
    ),
    (
        "authors",
        "\"2bd806c97f0e00af1a1fc3328fa763a9269723c8db8fac4f93af71db186d6e90\"",
        "\"ffffffffffffffffffffffffffffffffffffffffffffffffffffffffffffff",
        "\"",
    ),
    ("kinds", "1", "1", ""),
    ("#t", "\"y\"", "\"y", "\""),
];

// A filter's text: a list of so many values, with the event's at the places.
fn list_text(
    alloc: Global,
    list: &(&str, &str, &str, &str),
    count: usize,
    places: &[usize],
) -> Result<String, Fail> {
    let mut text = format!(in alloc; "{{\"{}\":[", list.0)?;
    for i in 0..count {
        let comma = if i == 0 { "" } else { "," };
        let value = if places.contains(&i) {
            String::from_str(alloc, list.1)?
        } else {
            format!(in alloc; "{}{}{}", list.2, i.saturating_add(10), list.3)?
        };
        text.push_str(comma)?;
        text.push_str(value.as_str())?;
    }
    text.push_str("]}")?;
    Ok(text)
}

// Whether the filter of the text matches the event or not, as is wanted, and is written as the text again.
fn answers(alloc: Global, text: &str, event: &Event, wanted: bool) -> Result<bool, Fail> {
    let filter = filter(alloc, text)?;
    let again = written(alloc, &filter)?;
    Ok(filter.matches(event) == wanted && again.as_str() == text)
}

#[test]
fn short_and_long_lists(rt: HostRuntime) -> Result<(), Fail> {
    let alloc = rt.alloc();
    let event = event(alloc, EVENTS[0])?;
    for list in &LISTS {
        for count in [3_usize, 15, 16, 20] {
            let last = count.saturating_sub(1);
            for places in [[0, 0], [last, last], [1, 2], [count, count]] {
                let text = list_text(alloc, list, count, places.as_slice())?;
                let wanted = places[0] < count;
                let right = answers(alloc, text.as_str(), &event, wanted)?;
                assert!(rt; right, "{text}");
            }
        }
    }
    Ok(())
}

fn condition(alloc: Global, letter: u8) -> Result<TagCondition, Fail> {
    let mut texts = Vec::new(alloc);
    texts.push(Text::new(String::from_str(alloc, "v")?))?;
    Ok(TagCondition {
        letter,
        values: Texts::new(texts),
    })
}

// The number of conditions, if these letters are taken.
fn taken(alloc: Global, letters: &[u8]) -> Result<Option<usize>, Fail> {
    let mut list = Vec::new(alloc);
    for letter in letters {
        list.push(condition(alloc, *letter)?)?;
    }
    match TagConditions::new(list) {
        Ok(conditions) => Ok(conditions.into_vec().map(|v| v.len())),
        Err(_list) => Ok(None),
    }
}

#[test]
fn letters_of_conditions(rt: HostRuntime) -> Result<(), Fail> {
    for (letters, wanted) in [
        ("", Some(0)),
        ("AZaz", Some(4)),
        ("aA", None),
        ("aa", None),
        ("1", None),
        ("[", None),
    ] {
        let found = taken(rt.alloc(), letters.as_bytes())?;
        assert_eq!(rt; found, wanted, "{letters}");
    }
    Ok(())
}
