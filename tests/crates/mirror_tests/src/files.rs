//! Files of events whose ids were made by Python's hashlib.
ghost use Rattle.std.specs.Prelude.{◌≡◌};

use event_file::{FileFault, insert_lines, write_lines};
use event_store::{Blank, Desk, Naming, Reader, open_small};
use nostr_filter::Filter;
use std::alloc::Global;
use std::marker::Brand;
use std::sync::Wait;
use std::test::*;

/// Two events.
const TWO: &str =
    r##"{"content":"a","created_at":7,"id":"ed87942b4e65ca302391b81053ee0a06cf3d9ea1ab786b9be56a1928ee4daaa7","kind":1,"pubkey":"1111111111111111111111111111111111111111111111111111111111111111","sig":"22222222222222222222222222222222222222222222222222222222222222222222222222222222222222222222222222222222222222222222222222222222","tags":[["t","test"]]}
{"content":"é","created_at":5,"id":"72a94ee229d78217186ca26e268d59f81f315ae14c6bf2576f7d778a94160056","kind":1,"pubkey":"1111111111111111111111111111111111111111111111111111111111111111","sig":"22222222222222222222222222222222222222222222222222222222222222222222222222222222222222222222222222222222222222222222222222222222","tags":[["t","test"]]}
"##;

/// Files, and which line is at fault, 0 for none. The store takes two events.
static FILES: [(&str, usize); 5] = [
    ("\n", 0),
    (TWO, 0),
    (
        r##"
{"content":"é","created_at":5,"id":"72a94ee229d78217186ca26e268d59f81f315ae14c6bf2576f7d778a94160056","kind":1,"pubkey":"1111111111111111111111111111111111111111111111111111111111111111","sig":"22222222222222222222222222222222222222222222222222222222222222222222222222222222222222222222222222222222222222222222222222222222","tags":[["t","test"]]}

{"content":"a","created_at":7,"id":"ed87942b4e65ca302391b81053ee0a06cf3d9ea1ab786b9be56a1928ee4daaa7","kind":1,"pubkey":"1111111111111111111111111111111111111111111111111111111111111111","sig":"22222222222222222222222222222222222222222222222222222222222222222222222222222222222222222222222222222222222222222222222222222222","tags":[["t","test"]]}
{"content":"b","created_at":6,"id":"819b29473c1ffae2d9b3e33f1e39f5e83c87758665a85deec207663036cb12c4","kind":1,"pubkey":"1111111111111111111111111111111111111111111111111111111111111111","sig":"22222222222222222222222222222222222222222222222222222222222222222222222222222222222222222222222222222222222222222222222222222222","tags":[["t","test"]]}"##,
        5,
    ),
    ("{}", 1),
    (" ", 1),
];

/// A file, and which line is at fault. No clause says which, so that no proof carries the texts.
fn file(at: usize) -> (&'static str, usize) {
    FILES[at % 5]
}

/// The line of a file that is at fault, 0 for none.
fn fault_in<J: Naming, D: Wait + Drop, R: Wait>(
    rt: &R,
    alloc: Global,
    desk: &mut Desk<J, D>,
    text: &[u8],
) -> Option<usize> {
    match insert_lines(rt, alloc, desk, text) {
        Ok(()) => Some(0),
        Err(FileFault::Line(number)) => Some(number),
        Err(FileFault::Memory) => None,
    }
}

/// Whether the files are at fault where they should be.
fn are_at_fault<J: Naming, D: Wait + Drop, R: Wait>(
    rt: &R,
    alloc: Global,
    desk: &mut Desk<J, D>,
) -> bool {
    let mut right = fault_in(rt, alloc, desk, b"\n\xff") == Some(2);
    for at in 0..5usize {
        let (text, line) = file(at);
        right &= fault_in(rt, alloc, desk, text.as_bytes()) == Some(line);
    }
    right
}

/// Whether the two events are written as they were read.
fn are_written<J: Naming>(alloc: Global, reader: &mut Reader<J>) -> Option<bool> {
    let pinned = reader.pin(alloc, &Filter::all()).ok()?;
    let mut text = Vec::new(alloc);
    write_lines(alloc, &mut text, pinned.events()).ok()?;
    Some(text.as_slice() == file(1).0.as_bytes())
}

fn fills<J: Naming, D: Wait + Drop, R: Wait>(
    rt: &R,
    keep: D,
    alloc: Global,
    blank: Blank,
) -> Option<(bool, Option<bool>)>
    requires book { blank ≡ J.book }
    requires most { J.most ≡ 2 }
{
    let (mut desk, mut readers) = open_small::<J, D>(keep, alloc, blank, 1, 2).ok()?;
    let mut reader = readers.pop()?;
    Some((
        are_at_fault(rt, alloc, &mut desk),
        are_written(alloc, &mut reader),
    ))
}

#[test]
fn lines_are_events(rt: HostRuntime) -> Result<(), Fail> {
    let told = fills::<Brand, _, _>(&rt, &rt, rt.alloc(), Blank::new());
    assert_eq!(rt; told, Some((true, Some(true))));
    Ok(())
}
