//! Plan texts that are read and written. What is told of others is tried by runs of the program (`tests/texts.py`).

use plan_check::{PlanFault, parse_plan, read_plan, scan_plan, write_plan};
use std::alloc::{AllocError, Global};
use std::test::Fail;

/// The text of a pattern, in which each of the letters A to E stands for the id that repeats the byte 0a to 0e.
fn text_of(alloc: Global, pattern: &str) -> Result<String, AllocError> {
    let mut text = String::new(alloc);
    for letter in pattern.chars() {
        let byte = match letter {
            'A' => "0a",
            'B' => "0b",
            'C' => "0c",
            'D' => "0d",
            'E' => "0e",
            _ => "",
        };
        if byte.is_empty() {
            text.push(letter)?;
        } else {
            for _ in 0..32 {
                text.push_str(byte)?;
            }
        }
    }
    Ok(text)
}

const EMPTY: &str = "nostr-plan 1\ngroup\n";

const ONE_ID: &str = "nostr-plan 1\noffer A 0 1 2\ngive A 0\ngroup 0 1 2\n";

const FIXED: &str = "nostr-plan 1\noffer A 0\noffer B 0\noffer C 0\noffer D 0 1\n\
    give A 0\ngive B 0\ngive C 0\ngive D 1\ngroup 0\n";

const CHAIN: &str = "nostr-plan 1\noffer A 0\noffer B 0 1\noffer C 1 2\n\
    give A 0\ngive B 1\ngive C 2\ngroup 0 1 2\n";

const BASES: &str = "nostr-plan 2\nbase 0 2\noffer A 0 1\ngive A 1\ngroup 0\n";

const LARGEST: &str = "nostr-plan 2\nbase 9 10\nbase 255 1000000000000\noffer A 0 9 10 99 100 255\n\
    offer E 1\ngive C 255\ngroup 255\n";

/// Whether a text is read, scanned, and written as it was, and its bytes are read alike.
fn is_written(alloc: Global, pattern: &str) -> Option<bool> {
    let text = text_of(alloc, pattern).ok()?;
    let file = read_plan(alloc, text.as_str()).ok()?;
    let written = write_plan(alloc, &file).ok()?;
    let parsed = write_plan(alloc, &parse_plan(alloc, text.as_bytes()).ok()?).ok()?;
    let is_same = written.as_str() == text.as_str() && parsed.as_str() == text.as_str();
    Some(is_same && scan_plan(text.as_str()) == Ok(file.offers().len()))
}

/// What is told of a text whose one offer has this behind its id.
fn scan_offer(alloc: Global, relays: &str) -> Option<Result<usize, PlanFault>> {
    let pattern = format!(in alloc; "nostr-plan 1\noffer A{relays}\ngroup\n").ok()?;
    let text = text_of(alloc, pattern.as_str()).ok()?;
    Some(scan_plan(text.as_str()))
}

#[test]
fn texts_are_written_as_they_were(rt: HostRuntime) -> Result<(), Fail> {
    for pattern in [EMPTY, ONE_ID, FIXED, CHAIN, BASES, LARGEST] {
        assert_eq!(rt;
            (pattern, is_written(rt.alloc(), pattern)),
            (pattern, Some(true))
        );
    }
    Ok(())
}

#[test]
fn relays_of_one_digit_to_three(rt: HostRuntime) -> Result<(), Fail> {
    for relays in [" 0", " 9", " 10", " 99", " 100", " 255", " 0 10 200"] {
        assert_eq!(rt;
            (relays, scan_offer(rt.alloc(), relays)),
            (relays, Some(Ok(1)))
        );
    }
    Ok(())
}

#[test]
fn words_that_are_no_relays(rt: HostRuntime) -> Result<(), Fail> {
    for relays in [
        "", " ", "0", "  0", " 00", " 01", " 256", " 260", " 300", " 999", " 1000", " 0 ", " -1",
        " 1x", " 12x", " 123x", " x",
    ] {
        assert_eq!(rt;
            (relays, scan_offer(rt.alloc(), relays)),
            (relays, Some(Err(PlanFault::Line(2))))
        );
    }
    Ok(())
}

#[test]
fn bytes_that_are_no_text(rt: HostRuntime) -> Result<(), Fail> {
    let read = parse_plan(rt.alloc(), b"nostr-plan 1\n\xff\n");
    assert_eq!(rt; read.err(), Some(PlanFault::Line(2)));
    Ok(())
}
