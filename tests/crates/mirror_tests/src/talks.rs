//! Connections that are served turn by turn, over streams that drip and would block.
ghost use Rattle.std.specs.Prelude.{◌≡◌};

use super::links::{HEARD, SAID, put_frame, small_limits};
use super::wires::Dripping;
use event_log::Unfiled;
use event_store::{Blank, Naming, open_store};
use event_text::EventScratch;
use std::alloc::Global;
use std::marker::Brand;
use std::sync::{Mutex, Wait};
use std::test::Fail;
use ws_serve::{Talk, Turned, Turns};

/// The frames, each with its first byte. Where that is 0 there is none.
fn frames_of(alloc: Global, list: &[(u8, &str)], masked: bool) -> Option<Vec<u8>> {
    let mut frames = Vec::new(alloc);
    for (first, text) in list {
        if *first != 0 {
            put_frame(&mut frames, *first, masked, text.as_bytes())?;
        }
    }
    Some(frames)
}

/// Serves a client over an empty store until it has closed and all was sent, and gives the number of texts. While the stream would
/// block no more than so many bytes may wait.
fn served<J: Naming, R: Wait>(
    rt: &R,
    alloc: Global,
    blank: Blank,
    stream: Dripping<'_>,
    most_waiting: usize,
) -> Option<u64>
    requires book { blank ≡ J.book }
    requires most { J.most ≡ 1000000 }
{
    let (desk, mut readers) = open_store::<J, &R>(rt, alloc, blank, 1).ok()?;
    let mut reader = readers.pop()?;
    let desk = Mutex::new(desk);
    let mut talk = Talk::new(alloc, stream, small_limits(), most_waiting).ok()?;
    let lock = Mutex::new(());
    let mut turns = Turns {
        lock: &lock,
        reads_long: true,
        scratch: &mut EventScratch::new(),
    };
    for _turn in 0..100_000 {
        let turned = talk
            .turn(rt, alloc, &mut reader, &desk, &Unfiled, &mut turns)
            .ok()?;
        if turned == Turned::Over && !talk.has_waiting() {
            return Some(talk.texts());
        }
    }
    None
}

/// The number of texts that are served, and whether the client is sent what it should be, and nothing else.
fn dripped<R: Wait>(rt: &R, alloc: Global, takes: usize, most: usize) -> Option<(u64, bool)> {
    let said = frames_of(alloc, &SAID, true)?;
    let heard = frames_of(alloc, &HEARD, false)?;
    let mut sent = Vec::new(alloc);
    let stream = Dripping {
        left: said.as_slice(),
        sent: &mut sent,
        takes,
        calls: 0,
    };
    let texts = served::<Brand, R>(rt, alloc, Blank::new(), stream, most)?;
    Some((texts, sent.as_slice() == heard.as_slice()))
}

// However a stream drips and would block, and however much may wait, each answer goes out once, whole and in its order.
#[test]
fn dripping_clients(rt: HostRuntime) -> Result<(), Fail> {
    let alloc = rt.alloc();
    for (takes, most) in [(1, 0), (5, 10), (1_000, 0), (3, 1_000_000)] {
        let served = dripped(&rt, alloc, takes, most);
        assert_eq!(rt; (takes, most, served), (takes, most, Some((4, true))));
    }
    Ok(())
}

/// In so many pieces a text comes that is long together.
const PIECES: usize = 5;

/// A short text, and a long one.
fn long_frames(alloc: Global) -> Option<Vec<u8>> {
    let piece = vec![in alloc; b' '; 60_000].ok()?;
    let mut frames = Vec::new(alloc);
    put_frame(&mut frames, 0x81, true, b"hello")?;
    for place in 0..PIECES {
        let first = match place {
            0 => 0x01,
            4 => 0x80,
            _ => 0x00,
        };
        put_frame(&mut frames, first, true, piece.as_slice())?;
    }
    Some(frames)
}

/// How many texts are served when turns that read long texts or don't end before one, or have served two.
fn served_by<J: Naming, R: Wait>(
    rt: &R,
    alloc: Global,
    blank: Blank,
    stream: Dripping<'_>,
    kinds: [bool; 3],
) -> Option<Vec<u64>>
    requires book { blank ≡ J.book }
    requires most { J.most ≡ 1000000 }
{
    let (desk, mut readers) = open_store::<J, &R>(rt, alloc, blank, 1).ok()?;
    let mut reader = readers.pop()?;
    let desk = Mutex::new(desk);
    let mut talk = Talk::new(alloc, stream, small_limits(), 0).ok()?;
    let lock = Mutex::new(());
    let mut served = Vec::new(alloc);
    let mut scratch = EventScratch::new();
    for reads_long in kinds {
        let mut turns = Turns {
            lock: &lock,
            reads_long,
            scratch: &mut scratch,
        };
        for _turn in 0..1_000_000 {
            let turned = talk
                .turn(rt, alloc, &mut reader, &desk, &Unfiled, &mut turns)
                .ok()?;
            if turned == Turned::Later || talk.texts() == 2 {
                break;
            }
        }
        served.push(talk.texts()).ok()?;
    }
    Some(served)
}

// A long text waits for a turn that reads such texts, and what came before it is answered.
#[test]
fn long_texts_wait(rt: HostRuntime) -> Result<(), Fail> {
    let alloc = rt.alloc();
    let said = long_frames(alloc).unwrap_or(Vec::new(alloc));
    let mut sent = Vec::new(alloc);
    let stream = Dripping {
        left: said.as_slice(),
        sent: &mut sent,
        takes: 1_000,
        calls: 0,
    };
    let served = served_by::<Brand, HostRuntime>(
        &rt,
        alloc,
        Blank::new(),
        stream,
        [false, false, true],
    );
    let texts = served.unwrap_or(Vec::new(alloc));
    assert_eq!(rt; texts.as_slice() == [1, 1, 2].as_slice(), true);
    Ok(())
}
