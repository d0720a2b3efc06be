//! Links over streams in memory.

ghost use Rattle.std.specs.Prelude.{◌≡◌, IfOk};

use crate::events::{GIVEN, event_id, event_text};
use crate::said::Said;
use crate::stores::publishes;
use event_store::{Desk, Naming, Reader};
use mirror_core::{Source, SourceFault};
use neg_session::{Peer, PeerFault};
use nostr_filter::Filter;
use relay_core::RelayLimits;
use std::alloc::Global;
use std::io;
use std::io::{ErrorKind, Read, Write};
use std::random::RandomSource;
use std::sync::{Mutex, Wait};
use tungstenite::MaskKeys;
use ws_link::{LinkFault, WsPeer, WsSource};
use ws_serve::serve_conn;

/// The names of the calls.
pub const NAMES: &[&str] = &[
    "WsPeer::start",
    "WsPeer::ask",
    "WsPeer::finish",
    "WsSource::start",
    "WsSource::fetch",
    "WsSource::finish",
];

/// What the call of that name came to, of those that ask.
pub fn said_of(alloc: Global, name: &str) -> Option<Said> {
    let mut sent = Vec::with_capacity(alloc, MOST_SENT).ok()?;
    let parts = parts_of(alloc, ACCEPTS, frames_for(alloc, name)?)?;
    let stream = Played {
        parts: &parts,
        sent: &mut sent,
    };
    if name.starts_with("WsPeer") {
        let peer = WsPeer::start(alloc, Sample, stream, "relay", &Filter::all());
        of_peer(name, peer)
    } else {
        of_source(name, WsSource::start(alloc, Sample, stream, "relay"))
    }
}

/// The frames that a relay sends in the call of that name.
fn frames_for(alloc: Global, name: &str) -> Option<Vec<u8>> {
    let mut frames = Vec::new(alloc);
    match name {
        "WsPeer::ask" => put_frame(&mut frames, false, ANSWER)?,
        "WsSource::fetch" => {
            let first = event_text(alloc, r##""EVENT","fetch""##, 0)?;
            put_frame(&mut frames, false, first.as_str())?;
            put_frame(&mut frames, false, END)?;
        }
        _ => {}
    }
    Some(frames)
}

/// For how many bytes that are written there is room.
const MOST_SENT: usize = 4_096;

/// The request and the answer of RFC 6455 section 1.3.
const ASKS: &[u8] =
    b"GET /chat HTTP/1.1\r\nHost: server.example.com\r\nUpgrade: websocket\r\nConnection: Upgrade\r\nSec-WebSocket-Key: dGhlIHNhbXBsZSBub25jZQ==\r\nSec-WebSocket-Version: 13\r\n\r\n";

const ACCEPTS: &[u8] =
    b"HTTP/1.1 101 Switching Protocols\r\nUpgrade: websocket\r\nConnection: Upgrade\r\nSec-WebSocket-Accept: s3pPLMBiTxaQ9kYGzzhZRbK+xOo=\r\n\r\n";

const ANSWER: &str = r##"["NEG-MSG","mirror","6100"]"##;

/// A client's frame that closes.
const CLOSE: &[u8] = b"\x88\x80\x00\x00\x00\x00";

const END: &str = r##"["EOSE","fetch"]"##;

/// Tells that the second event is stored.
const OKAY: &str =
    r##"["OK","4494e0cd2ca6f5a18a838a302c242faf521850657c61d3583d75e195e1b2692f",true,""]"##;

/// Tells that it isn't, as its insert was refused.
const REFUSED: &str =
    r##"["OK","4494e0cd2ca6f5a18a838a302c242faf521850657c61d3583d75e195e1b2692f",false,"error: out of memory"]"##;

/// Its nonce is that of RFC 6455 section 1.3.
#[derive(Clone, Copy)]
struct Sample;

impl RandomSource for Sample {
    fn fill_bytes(&self, buf: &mut [u8]) -> io::Result<()> {
        for (byte, sample) in buf.iter_mut().zip(b"the sample nonce") {
            *byte = *sample;
        }
        Ok(())
    }
}

/// A stream that gives a part at each read, and then its end. It keeps what is written, for which there is room.
#[derive(Drop)]
struct Played<'a> {
    parts: &'a [Vec<u8>],
    sent: &'a mut Vec<u8>,
}

impl Read for Played<'_> {
    fn read(&mut self, buf: &mut [u8]) -> io::Result<usize> {
        let [part, rest @ ..] = self.parts else {
            return Ok(0);
        };
        self.parts = rest;
        let n = part.len().min(buf.len());
        buf[..n].copy_from_slice(&part[..n]);
        Ok(n)
    }
}

impl Write for Played<'_> {
    fn write(&mut self, buf: &[u8]) -> io::Result<usize> {
        match self.sent.extend_from_slice(buf) {
            Ok(()) => Ok(buf.len()),
            Err(_) => Err(io::Error::from(ErrorKind::OutOfMemory)),
        }
    }

    fn flush(&mut self) -> io::Result<()> {
        Ok(())
    }
}

/// What is read of a stream: the other side's part of the handshake, and then its frames.
fn parts_of(alloc: Global, handshake: &[u8], frames: Vec<u8>) -> Option<Vec<Vec<u8>>> {
    let mut parts = Vec::new(alloc);
    parts.push(handshake.to_vec(alloc).ok()?).ok()?;
    parts.push(frames).ok()?;
    Some(parts)
}

/// Puts the frame of a text behind the others: the mask's bit and the length, a mask that changes nothing, the text.
fn put_frame(frames: &mut Vec<u8>, is_masked: bool, text: &str) -> Option<()> {
    let bit = if is_masked { 0x80 } else { 0 };
    frames.push(0x81).ok()?;
    if text.len() < 126 {
        frames.push(bit | u8::try_from(text.len()).ok()?).ok()?;
    } else {
        frames.push(bit | 126).ok()?;
        let len = u16::try_from(text.len()).ok()?;
        frames.extend_from_slice(&len.to_be_bytes()).ok()?;
    }
    if is_masked {
        frames.extend_from_slice(&[0; 4]).ok()?;
    }
    frames.extend_from_slice(text.as_bytes()).ok()
}

/// What a start that was refused came to.
fn unstarted(fault: &LinkFault) -> Option<Said> {
    match fault {
        LinkFault::Memory => Said::memory(true),
        LinkFault::Link | LinkFault::Wire => Said::allowed(true),
        _ => Said::wrong(),
    }
}

/// What the call of that name came to, of those with a peer.
fn of_peer<S: Read + Write + Drop, K: MaskKeys + Drop>(
    name: &str,
    started: Result<WsPeer<S, K>, LinkFault>,
) -> Option<Said>
    requires { IfOk started (λ p. p.faults ≡ 0) }
{
    match (name, started) {
        ("WsPeer::start", Ok(peer)) => {
            Said::ample(peer.pairs().is_empty() && peer.last_fault().is_none())
        }
        ("WsPeer::start", Err(fault)) => unstarted(&fault),
        ("WsPeer::ask", Ok(peer)) => asked(peer),
        (_, Ok(peer)) => finished(peer.finish()),
        _ => None,
    }
}

/// What the call of that name came to, of those with a source.
fn of_source<S: Read + Write + Drop, K: MaskKeys + Drop>(
    name: &str,
    started: Result<WsSource<S, K>, LinkFault>,
) -> Option<Said>
    requires { IfOk started (λ s. s.faults ≡ 0) }
{
    match (name, started) {
        ("WsSource::start", Ok(source)) => {
            Said::ample(source.fetches().is_empty() && source.last_fault().is_none())
        }
        ("WsSource::start", Err(fault)) => unstarted(&fault),
        ("WsSource::fetch", Ok(source)) => fetched(source),
        (_, Ok(source)) => finished(source.finish()),
        _ => None,
    }
}

/// Asks. For want of memory no failure is counted, but nothing is asked any more.
fn asked<S: Read + Write + Drop, K: MaskKeys + Drop>(mut peer: WsPeer<S, K>) -> Option<Said>
    requires { peer.faults ≡ 0 }
{
    match peer.ask(b"\x61") {
        Ok(answer) => {
            Said::ample(answer.as_slice() == b"\x61\x00".as_slice() && peer.pairs().len() == 1)
        }
        Err(PeerFault::Memory) => {
            let is_told = peer.failures() == 0
                && matches!(peer.last_fault(), Some(LinkFault::Memory));
            let is_dead = matches!(peer.ask(b"\x61"), Err(PeerFault::Failed));
            Said::memory(is_told && is_dead && peer.pairs().is_empty())
        }
        Err(PeerFault::Failed) => Said::wrong(),
    }
}

/// What the end of a link came to.
fn finished(ended: Result<(), LinkFault>) -> Option<Said> {
    match ended {
        Ok(()) => Said::ample(true),
        Err(LinkFault::Memory) => Said::memory(true),
        Err(_) => Said::wrong(),
    }
}

/// Fetches the first event. For want of memory no failure is counted, but nothing is fetched any more.
fn fetched<S: Read + Write + Drop, K: MaskKeys + Drop>(mut source: WsSource<S, K>) -> Option<Said>
    requires { source.faults ≡ 0 }
{
    let wanted = [event_id(0)?];
    match source.fetch(&wanted) {
        Ok(events) => Said::ample(events.len() == 1 && source.fetches().len() == 1),
        Err(SourceFault::Memory) => {
            let is_told = source.failures() == 0
                && matches!(source.last_fault(), Some(LinkFault::Memory));
            let is_dead = matches!(source.fetch(&wanted), Err(SourceFault::Failed));
            Said::memory(is_told && is_dead && source.fetches().is_empty())
        }
        Err(SourceFault::Failed) => Said::wrong(),
    }
}

/// Whether a text and the close stand at the end of what a client was sent.
fn ends_in(alloc: Global, sent: &[u8], text: &str) -> Option<bool> {
    let mut end = Vec::new(alloc);
    put_frame(&mut end, false, text)?;
    end.extend_from_slice(b"\x88\x00").ok()?;
    Some(sent.ends_with(end.as_slice()))
}

/// The frames of a client that gives the second event and closes.
fn given_frames(alloc: Global) -> Option<Vec<u8>> {
    let mut frames = Vec::new(alloc);
    let text = event_text(alloc, GIVEN, 1)?;
    put_frame(&mut frames, true, text.as_str())?;
    frames.extend_from_slice(CLOSE).ok()?;
    Some(frames)
}

/// Serves a client that gives the second event and closes, over a store of the first.
pub fn served<J: Naming, R: Wait>(
    rt: &R,
    alloc: Global,
    desk: &Mutex<Desk<J, &R>>,
    reader: &mut Reader<J>,
) -> Option<Said> {
    let mut sent = Vec::with_capacity(alloc, MOST_SENT).ok()?;
    let parts = parts_of(alloc, ASKS, given_frames(alloc)?)?;
    let stream = Played {
        parts: &parts,
        sent: &mut sent,
    };
    let limits = RelayLimits::default();
    let served = serve_conn(rt, alloc, stream, reader, desk, limits);
    let is_stored = publishes(alloc, reader, 2);
    let is_kept = is_stored || publishes(alloc, reader, 1);
    match served {
        Ok(1) if is_stored => Said::ample(ends_in(alloc, &sent, OKAY)?),
        Ok(1) => Said::allowed(is_kept && ends_in(alloc, &sent, REFUSED)?),
        Err(LinkFault::Memory) => Said::memory(is_kept),
        Err(LinkFault::Link | LinkFault::Wire) => Said::allowed(is_kept),
        _ => Said::wrong(),
    }
}
