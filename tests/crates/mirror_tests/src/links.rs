//! Links over streams of the tests, and over a loopback socket.
ghost use Rattle.std.specs.Prelude.{◌≡◌};
ghost use Rattle.std.specs.Thread.{IsSync};

use super::events::read;
use super::rounds::is_set_in_time;
use event_store::{Blank, Desk, Naming, Reader, open_store};
use item_roll::Roll;
use mirror_core::{Fetch, Source, SourceFault};
use neg_codec::{Id, Item};
use neg_session::{Peer, PeerFault, SessionLimits, reconcile_with};
use nostr_filter::Filter;
use relay_core::RelayLimits;
use serve_run::run_serve;
use std::alloc::Global;
use std::fs::File;
use std::io::{ErrorKind, Read, Write};
use std::marker::Brand;
use std::net::{Ipv4Addr, Net, SocketAddr, TcpListener, TcpStream};
use std::random::RandomSource;
use std::rt::{Clock, Files};
use std::sync::atomic::{AtomicU64, Ordering};
use std::sync::{Mutex, Wait};
use std::test::Fail;
use std::thread::{Threads, join};
use std::{fs, io};
use tungstenite::MaskKeys;
use ws_link::{LinkFault, WsPeer, WsSource};
use ws_serve::serve_conn;

/// The request and the answer of RFC 6455 section 1.3.
const ASKS: &[u8] =
    b"GET /chat HTTP/1.1\r\nHost: server.example.com\r\nUpgrade: websocket\r\nConnection: Upgrade\r\nSec-WebSocket-Key: dGhlIHNhbXBsZSBub25jZQ==\r\nSec-WebSocket-Version: 13\r\n\r\n";

const ACCEPTS: &[u8] =
    b"HTTP/1.1 101 Switching Protocols\r\nUpgrade: websocket\r\nConnection: Upgrade\r\nSec-WebSocket-Accept: s3pPLMBiTxaQ9kYGzzhZRbK+xOo=\r\n\r\n";

/// Its nonce is that of RFC 6455 section 1.3.
#[derive(Clone, Copy)]
struct Sample;

impl RandomSource for Sample {
    fn fill_bytes(&self, buf: &mut [u8]) -> io::Result<()> {
        for (byte, sample) in buf.iter_mut().zip(b"the sample nonce") {
            *byte = *sample;
        }
        Ok(())
    }
}

/// A stream that gives a part at each read, of an empty one that it would block, and then its end. It keeps what is written.
#[derive(Drop)]
struct Played<'a> {
    parts: &'a [Vec<u8>],
    sent: &'a mut Vec<u8>,
    /// How many reads and writes there were.
    calls: u64,
    /// Which of them fails.
    fails_at: u64,
}

impl<'a> Played<'a> {
    fn new(parts: &'a [Vec<u8>], sent: &'a mut Vec<u8>, fails_at: u64) -> Played<'a> {
        Played {
            parts,
            sent,
            calls: 0,
            fails_at,
        }
    }

    fn count(&mut self) -> io::Result<()> {
        self.calls = self.calls.saturating_add(1);
        if self.calls == self.fails_at {
            return Err(io::Error::from(ErrorKind::BrokenPipe));
        }
        Ok(())
    }
}

impl Read for Played<'_> {
    fn read(&mut self, buf: &mut [u8]) -> io::Result<usize> {
        self.count()?;
        let [part, rest @ ..] = self.parts else {
            return Ok(0);
        };
        self.parts = rest;
        if part.is_empty() {
            return Err(io::Error::from(ErrorKind::WouldBlock));
        }
        let n = part.len().min(buf.len());
        buf[..n].copy_from_slice(&part[..n]);
        Ok(n)
    }
}

impl Write for Played<'_> {
    fn write(&mut self, buf: &[u8]) -> io::Result<usize> {
        self.count()?;
        match self.sent.extend_from_slice(buf) {
            Ok(()) => Ok(buf.len()),
            Err(_) => Err(io::Error::from(ErrorKind::OutOfMemory)),
        }
    }

    fn flush(&mut self) -> io::Result<()> {
        Ok(())
    }
}

/// Puts a frame behind the others: the first byte, the mask's bit and the length, a mask that changes nothing, the payload.
pub fn put_frame(frames: &mut Vec<u8>, first: u8, masked: bool, payload: &[u8]) -> Option<()> {
    let bit = if masked { 0x80 } else { 0 };
    frames.push(first).ok()?;
    if payload.len() < 126 {
        frames.push(bit | u8::try_from(payload.len()).ok()?).ok()?;
    } else {
        frames.push(bit | 126).ok()?;
        let len = u16::try_from(payload.len()).ok()?;
        frames.extend_from_slice(&len.to_be_bytes()).ok()?;
    }
    if masked {
        frames.extend_from_slice(&[0; 4]).ok()?;
    }
    frames.extend_from_slice(payload).ok()
}

/// A relay's answer to the handshake, then so many frames with the text, each as it comes, and then the others together.
fn relay_parts(alloc: Global, times: usize, text: &str, behind: &[&str]) -> Option<Vec<Vec<u8>>> {
    let mut parts = Vec::new(alloc);
    parts.push(ACCEPTS.to_vec(alloc).ok()?).ok()?;
    for _ in 0..times {
        let mut frame = Vec::new(alloc);
        put_frame(&mut frame, 0x81, false, text.as_bytes())?;
        parts.push(frame).ok()?;
    }
    let mut frames = Vec::new(alloc);
    for text in behind {
        put_frame(&mut frames, 0x81, false, text.as_bytes())?;
    }
    parts.push(frames).ok()?;
    Some(parts)
}

const ANSWER: &str = r##"["NEG-MSG","mirror","6100"]"##;

/// What a question comes to, where the relay says the text so often and then answers, and the read or write of a number fails:
/// 0 for the answer, or the number of the fault. It is told if it isn't kept as it should be.
fn asked(alloc: Global, times: usize, text: &str, fails_at: u64) -> Option<u8> {
    let parts = relay_parts(alloc, times, text, &[ANSWER])?;
    let mut sent = Vec::new(alloc);
    let stream = Played::new(&parts, &mut sent, fails_at);
    match WsPeer::start(alloc, Sample, stream, "relay", &Filter::all()) {
        Ok(peer) => answered(peer),
        Err(fault) => Some(fault.number()),
    }
}

fn answered<S: Read + Write + Drop, K: MaskKeys + Drop>(mut peer: WsPeer<S, K>) -> Option<u8>
    requires { peer.faults ≡ 0 }
{
    match peer.ask(b"\x61") {
        Ok(answer) => {
            let kept = answer.as_slice() == b"\x61\x00".as_slice() && peer.pairs().len() == 1;
            (kept && peer.failures() == 0 && peer.last_fault().is_none()).then_some(0)
        }
        Err(fault) => {
            let number = number_of(peer.last_fault());
            let counted = fault == PeerFault::Failed && peer.failures() == 1;
            // Nothing is asked any more.
            let dead = peer.ask(b"\x61").is_err() && peer.failures() == 2;
            let link = matches!(peer.last_fault(), Some(LinkFault::Link));
            number_if(counted && dead && link && peer.pairs().is_empty(), number)
        }
    }
}

fn number_if(right: bool, number: Option<u8>) -> Option<u8> {
    if right { number } else { None }
}

/// The fault's number, if a refusal has the text `no`.
fn number_of(fault: Option<&LinkFault>) -> Option<u8> {
    match fault? {
        LinkFault::Refused(text) => (text.as_str() == "no").then_some(2),
        other => Some(other.number()),
    }
}

/// A text, how often it comes before the answer, and what the question comes to.
static TALKS: [(&str, usize, u8); 12] = [
    ("", 0, 0),
    (r##"["NOTICE","wait"]"##, 999, 0),
    (r##"["NOTICE","wait"]"##, 1_000, 4),
    (r##"["CLOSED","mirror","no"]"##, 1, 2),
    (r##"["NEG-ERR","mirror","no"]"##, 1, 2),
    (r##"["CLOSED","other","no"]"##, 1, 0),
    (r##"["NEG-MSG","other","62"]"##, 1, 0),
    (r##"["AUTH","who"]"##, 1, 0),
    (r##"["EVENT","mirror",{}]"##, 1, 0),
    ("hello", 1, 3),
    (r##"["NEG-MSG","mirror"]"##, 1, 3),
    (r##"["NEG-MSG","mirror","6"]"##, 1, 3),
];

/// What a question comes to, where the relay answers it together with the handshake, in pieces of so many bytes.
fn asked_at_once(alloc: Global, size: usize) -> Option<u8> {
    let mut all = ACCEPTS.to_vec(alloc).ok()?;
    put_frame(&mut all, 0x89, false, b"beat")?;
    put_frame(&mut all, 0x81, false, ANSWER.as_bytes())?;
    let mut parts = Vec::new(alloc);
    for part in all.as_slice().chunks(size) {
        parts.push(part.to_vec(alloc).ok()?).ok()?;
    }
    let mut sent = Vec::new(alloc);
    let stream = Played::new(&parts, &mut sent, 0);
    match WsPeer::start(alloc, Sample, stream, "relay", &Filter::all()) {
        Ok(peer) => answered(peer),
        Err(fault) => Some(fault.number()),
    }
}

// What comes in one read with the handshake's head is heard.
#[test]
fn answers_behind_the_head(rt: HostRuntime) -> Result<(), Fail> {
    let alloc = rt.alloc();
    for size in [4, 7, ACCEPTS.len() - 1, ACCEPTS.len(), ACCEPTS.len() + 1, 1_000] {
        assert_eq!(rt; (size, asked_at_once(alloc, size)), (size, Some(0)));
    }
    Ok(())
}

/// What a relay gives that is asked for both its events.
const GIVES: [&str; 3] = [
    r##"["EVENT","fetch",{"id":"dcde1a2a9420ced2833ecdf9a0c3feb9cd9b2d277370b065433fc3dab1ae960a","pubkey":"0101010101010101010101010101010101010101010101010101010101010101","created_at":9,"kind":1,"tags":[],"content":"1","sig":"5a5a5a5a5a5a5a5a5a5a5a5a5a5a5a5a5a5a5a5a5a5a5a5a5a5a5a5a5a5a5a5a5a5a5a5a5a5a5a5a5a5a5a5a5a5a5a5a5a5a5a5a5a5a5a5a5a5a5a5a5a5a5a5a"}]"##,
    r##"["EVENT","fetch",{"id":"ddc79761c55c70341e7c207d769ad686a8b8e3f82408006465aeb8dde0119e79","pubkey":"0101010101010101010101010101010101010101010101010101010101010101","created_at":10,"kind":1,"tags":[],"content":"2","sig":"5a5a5a5a5a5a5a5a5a5a5a5a5a5a5a5a5a5a5a5a5a5a5a5a5a5a5a5a5a5a5a5a5a5a5a5a5a5a5a5a5a5a5a5a5a5a5a5a5a5a5a5a5a5a5a5a5a5a5a5a5a5a5a5a"}]"##,
    r##"["EOSE","fetch"]"##,
];

/// What a fetch of both events and one that the relay lacks comes to, where the relay says the text so often and then gives both.
/// It is told as `asked` tells it.
fn fetched(alloc: Global, times: usize, text: &str, fails_at: u64) -> Option<u8> {
    let wanted = [ID_1, ID_2, Id([7; 32])];
    fetched_of(alloc, times, text, fails_at, &wanted, &[ID_1, ID_2])
}

/// The same of a fetch of these ids, which gives those.
fn fetched_of(
    alloc: Global,
    times: usize,
    text: &str,
    fails_at: u64,
    wanted: &[Id],
    gives: &[Id],
) -> Option<u8> {
    let parts = relay_parts(alloc, times, text, &GIVES)?;
    let mut sent = Vec::new(alloc);
    let stream = Played::new(&parts, &mut sent, fails_at);
    match WsSource::start(alloc, Sample, stream, "relay") {
        Ok(source) => kept_of(source, wanted, gives),
        Err(fault) => Some(fault.number()),
    }
}

fn kept_of<S: Read + Write + Drop, K: MaskKeys + Drop>(
    mut source: WsSource<S, K>,
    wanted: &[Id],
    gives: &[Id],
) -> Option<u8>
    requires { source.faults ≡ 0 }
{
    match source.fetch(wanted) {
        Ok(events) => {
            let kept = events.len() == gives.len() && is_logged(source.fetches(), wanted, gives);
            (kept && source.failures() == 0 && source.last_fault().is_none()).then_some(0)
        }
        Err(fault) => {
            let number = number_of(source.last_fault());
            let counted = fault == SourceFault::Failed && source.failures() == 1;
            let dead = source.fetch(wanted).is_err() && source.failures() == 2;
            let link = matches!(source.last_fault(), Some(LinkFault::Link));
            number_if(
                counted && dead && link && source.fetches().is_empty(),
                number,
            )
        }
    }
}

fn is_logged(fetches: &[Fetch], wanted: &[Id], gives: &[Id]) -> bool {
    match fetches {
        [fetch] => fetch.asked.as_slice() == wanted && fetch.given.as_slice() == gives,
        _ => false,
    }
}

/// A text, how often it comes before the events, and what the fetch comes to.
static GIFTS: [(&str, usize, u8); 8] = [
    ("", 0, 0),
    (r##"["NOTICE","wait"]"##, 999, 0),
    (r##"["NOTICE","wait"]"##, 1_000, 4),
    (r##"["CLOSED","fetch","no"]"##, 1, 2),
    (r##"["EOSE","other"]"##, 1, 0),
    (r##"["EVENT","fetch",{}]"##, 999, 0),
    (r##"["EVENT","fetch",{}]"##, 1_000, 4),
    ("hello", 1, 3),
];

// An event that wasn't asked for is let go, and counts among the other messages.
#[test]
fn unasked_events(rt: HostRuntime) -> Result<(), Fail> {
    let alloc = rt.alloc();
    let wanted = [ID_2, Id([7; 32])];
    let notice = r##"["NOTICE","wait"]"##;
    for (times, number) in [(0, 0), (998, 0), (999, 4)] {
        assert_eq!(rt;
            (times, fetched_of(alloc, times, notice, 0, &wanted, &[ID_2])),
            (times, Some(number))
        );
    }
    Ok(())
}

const ID_1: Id = Id([
    0xdc, 0xde, 0x1a, 0x2a, 0x94, 0x20, 0xce, 0xd2, 0x83, 0x3e, 0xcd, 0xf9, 0xa0, 0xc3, 0xfe, 0xb9,
    0xcd, 0x9b, 0x2d, 0x27, 0x73, 0x70, 0xb0, 0x65, 0x43, 0x3f, 0xc3, 0xda, 0xb1, 0xae, 0x96, 0x0a,
]);

const ID_2: Id = Id([
    0xdd, 0xc7, 0x97, 0x61, 0xc5, 0x5c, 0x70, 0x34, 0x1e, 0x7c, 0x20, 0x7d, 0x76, 0x9a, 0xd6, 0x86,
    0xa8, 0xb8, 0xe3, 0xf8, 0x24, 0x08, 0x00, 0x64, 0x65, 0xae, 0xb8, 0xdd, 0xe0, 0x11, 0x9e, 0x79,
]);

/// Limits that few messages reach.
pub fn small_limits() -> RelayLimits {
    RelayLimits {
        subs: 4,
        filters: 2,
        text: 400,
        sessions: 1,
        records: 100,
        limit: 4_096,
        is_read_only: false,
    }
}

/// Serves a client over an empty store, and gives the number of texts, or of the fault.
fn served<J: Naming, D: Wait + Drop, R: Wait>(
    rt: &R,
    keep: D,
    alloc: Global,
    blank: Blank,
    stream: Played<'_>,
) -> Option<Result<u64, u8>>
    requires book { blank ≡ J.book }
    requires most { J.most ≡ 1000000 }
{
    let (desk, mut readers) = open_store::<J, D>(keep, alloc, blank, 1).ok()?;
    let mut reader = readers.pop()?;
    let desk = Mutex::new(desk);
    Some(
        match serve_conn(rt, alloc, stream, &mut reader, &desk, small_limits()) {
            Ok(texts) => Ok(texts),
            Err(fault) => Err(fault.number()),
        },
    )
}

const EVENT_1: &str =
    r##"{"id":"dcde1a2a9420ced2833ecdf9a0c3feb9cd9b2d277370b065433fc3dab1ae960a","pubkey":"0101010101010101010101010101010101010101010101010101010101010101","created_at":9,"kind":1,"tags":[],"content":"1","sig":"5a5a5a5a5a5a5a5a5a5a5a5a5a5a5a5a5a5a5a5a5a5a5a5a5a5a5a5a5a5a5a5a5a5a5a5a5a5a5a5a5a5a5a5a5a5a5a5a5a5a5a5a5a5a5a5a5a5a5a5a5a5a5a5a"}"##;

const EVENT_2: &str =
    r##"{"id":"ddc79761c55c70341e7c207d769ad686a8b8e3f82408006465aeb8dde0119e79","pubkey":"0101010101010101010101010101010101010101010101010101010101010101","created_at":10,"kind":1,"tags":[],"content":"2","sig":"5a5a5a5a5a5a5a5a5a5a5a5a5a5a5a5a5a5a5a5a5a5a5a5a5a5a5a5a5a5a5a5a5a5a5a5a5a5a5a5a5a5a5a5a5a5a5a5a5a5a5a5a5a5a5a5a5a5a5a5a5a5a5a5a"}"##;

/// What a client sends: the first byte of the frame, and the payload. Where there is no byte, the stream would block.
pub static SAID: [(u8, &str); 9] = [
    (0x81, r##"["REQ","a",{}]"##),
    (
        0x81,
        r##"["EVENT",{"id":"ddc79761c55c70341e7c207d769ad686a8b8e3f82408006465aeb8dde0119e79","pubkey":"0101010101010101010101010101010101010101010101010101010101010101","created_at":10,"kind":1,"tags":[],"content":"2","sig":"5a5a5a5a5a5a5a5a5a5a5a5a5a5a5a5a5a5a5a5a5a5a5a5a5a5a5a5a5a5a5a5a5a5a5a5a5a5a5a5a5a5a5a5a5a5a5a5a5a5a5a5a5a5a5a5a5a5a5a5a5a5a5a5a"}]"##,
    ),
    (0, ""),
    (0x82, "bytes"),
    (0x89, "beat"),
    (0x8a, ""),
    (0x81, "hello"),
    (
        0x81,
        r##"["CLOSE","xxxxxxxxxxxxxxxxxxxxxxxxxxxxxxxxxxxxxxxxxxxxxxxxxxxxxxxxxxxxxxxxxxxxxxxxxxxxxxxxxxxxxxxxxxxxxxxxxxxxxxxxxxxxxxxxxxxxxxxxxxxxxxxxxxxxxxxxxxxxxxxxxxxxxxxxxxxxxxxxxxxxxxxxxxxxxxxxxxxxxxxxxxxxxxxxxxxxxxxxxxxxxxxxxxxxxxxxxxxxxxxxxxxxxxxxxxxxxxxxxxxxxxxxxxxxxxxxxxxxxxxxxxxxxxxxxxxxxxxxxxxxxxxxxxxxxxxxxxxxxxxxxxxxxxxxxxxxxxxxxxxxxxxxxxxxxxxxxxxxxxxxxxxxxxxxxxxxxxxxxxxxxxxxxxxxxxxxxxxxxxxxxxxxx"]"##,
    ),
    (0x88, ""),
];

/// What it is sent for that.
pub static HEARD: [(u8, &str); 8] = [
    (0x81, r##"["EOSE","a"]"##),
    (
        0x81,
        r##"["OK","ddc79761c55c70341e7c207d769ad686a8b8e3f82408006465aeb8dde0119e79",true,""]"##,
    ),
    (
        0x81,
        r##"["EVENT","a",{"content":"2","created_at":10,"id":"ddc79761c55c70341e7c207d769ad686a8b8e3f82408006465aeb8dde0119e79","kind":1,"pubkey":"0101010101010101010101010101010101010101010101010101010101010101","sig":"5a5a5a5a5a5a5a5a5a5a5a5a5a5a5a5a5a5a5a5a5a5a5a5a5a5a5a5a5a5a5a5a5a5a5a5a5a5a5a5a5a5a5a5a5a5a5a5a5a5a5a5a5a5a5a5a5a5a5a5a5a5a5a5a","tags":[]}]"##,
    ),
    (0x81, r##"["NOTICE","invalid: bad message"]"##),
    (0x8a, "beat"),
    (0x81, r##"["NOTICE","invalid: bad message"]"##),
    (0x81, r##"["NOTICE","invalid: message too long"]"##),
    (0x88, ""),
];

/// The frames of a client that says this, behind its request.
fn client_parts(alloc: Global) -> Option<Vec<Vec<u8>>> {
    let mut parts = Vec::new(alloc);
    parts.push(ASKS.to_vec(alloc).ok()?).ok()?;
    for (first, text) in SAID {
        let mut frame = Vec::new(alloc);
        if first != 0 {
            put_frame(&mut frame, first, true, text.as_bytes())?;
        }
        parts.push(frame).ok()?;
    }
    Some(parts)
}

/// Whether the client was sent what it should be.
fn is_served(alloc: Global, sent: &[u8]) -> Option<bool> {
    let mut frames = Vec::new(alloc);
    for (first, text) in HEARD {
        put_frame(&mut frames, first, false, text.as_bytes())?;
    }
    Some(sent.starts_with(b"HTTP/1.1 101 ") && sent.ends_with(frames.as_slice()))
}

/// What a client sends instead, and the fault.
static BROKEN: [(&[u8], &[u8], u8); 4] = [
    (b"GET / HTTP/1.1\r\n\r\n", b"", 3),
    // An unmasked frame.
    (ASKS, b"\x81\x00", 3),
    // A text of 4,194,305 bytes, of which none comes.
    (
        ASKS,
        b"\x81\xff\x00\x00\x00\x00\x00\x40\x00\x01\x00\x00\x00\x00",
        3,
    ),
    // The end, without a close.
    (ASKS, b"\x8a\x80\x00\x00\x00\x00", 1),
];

/// What a client with these parts comes to, and whether it was sent what it should be.
type Ended = (Option<Result<u64, u8>>, Option<bool>);

fn ended<R: Wait>(rt: &R, alloc: Global, parts: &[Vec<u8>], fails_at: u64) -> Ended {
    let mut sent = Vec::new(alloc);
    let stream = Played::new(parts, &mut sent, fails_at);
    let ended = served::<Brand, _, _>(rt, rt, alloc, Blank::new(), stream);
    (ended, is_served(alloc, sent.as_slice()))
}

/// The first number of a read or write whose failure doesn't end the client's connection as it should. 19 is one more than there
/// are, and 20 is answered where all is right.
fn first_wrong<R: Wait>(rt: &R, alloc: Global) -> Option<u64> {
    let parts = client_parts(alloc)?;
    for fails_at in 1..20 {
        let expected = if fails_at < 19 { Err(1) } else { Ok(4) };
        if ended(rt, alloc, &parts, fails_at) != (Some(expected), Some(fails_at == 19)) {
            return Some(fails_at);
        }
    }
    Some(20)
}

/// What a client comes to that sends this.
fn broken<R: Wait>(rt: &R, alloc: Global, asks: &[u8], bytes: &[u8]) -> Option<Result<u64, u8>> {
    let mut parts = Vec::with_capacity(alloc, 2).ok()?;
    parts.push(asks.to_vec(alloc).ok()?).ok()?;
    parts.push(bytes.to_vec(alloc).ok()?).ok()?;
    ended(rt, alloc, &parts, 0).0
}

#[test]
fn broken_clients(rt: HostRuntime) -> Result<(), Fail> {
    for (asks, bytes, number) in BROKEN {
        let ended = broken(&rt, rt.alloc(), asks, bytes);
        assert_eq!(rt; (number, ended), (number, Some(Err(number))));
    }
    Ok(())
}

// Each read and write of a stream fails in turn, and a relay says other things first.
#[test]
fn stream_sweep(rt: HostRuntime) -> Result<(), Fail> {
    let alloc = rt.alloc();
    // The handshake's write and read, and those of the question.
    for fails_at in 1..5 {
        assert_eq!(rt;
            (fails_at, asked(alloc, 0, "", fails_at)),
            (fails_at, Some(1))
        );
    }
    assert_eq!(rt; asked(alloc, 0, "", 5), Some(0));
    for (text, times, number) in TALKS {
        assert_eq!(rt;
            (text, times, asked(alloc, times, text, 0)),
            (text, times, Some(number))
        );
    }
    // The handshake's write and read, the request, what is given, and the end of the subscription.
    for fails_at in 1..6 {
        assert_eq!(rt;
            (fails_at, fetched(alloc, 0, "", fails_at)),
            (fails_at, Some(1))
        );
    }
    assert_eq!(rt; fetched(alloc, 0, "", 6), Some(0));
    for (text, times, number) in GIFTS {
        assert_eq!(rt;
            (text, times, fetched(alloc, times, text, 0)),
            (text, times, Some(number))
        );
    }
    assert_eq!(rt; first_wrong(&rt, alloc), Some(20));
    Ok(())
}

/// Serves the next client that connects.
fn serve_next<R: Wait, J: Naming, D: Wait + Drop>(
    rt: &R,
    alloc: Global,
    listener: &TcpListener,
    reader: &mut Reader<J>,
    desk: &Mutex<Desk<J, D>>,
) -> Option<u64> {
    let (stream, _address) = listener.accept().ok()?;
    serve_conn(rt, alloc, stream, reader, desk, RelayLimits::default()).ok()
}

/// How many ids are needed and had of a mirror that holds the first event, whether the second one is needed, and how many
/// questions were asked.
fn synced<R: Net<Stream = TcpStream> + RandomSource>(
    rt: &R,
    alloc: Global,
    address: SocketAddr,
) -> Option<(usize, usize, bool, usize)> {
    let stream = TcpStream::connect(rt, address).ok()?;
    match WsPeer::start(alloc, rt, stream, "127.0.0.1", &Filter::all()) {
        Ok(peer) => found(alloc, peer),
        Err(_) => None,
    }
}

fn found<S: Read + Write + Drop, K: MaskKeys + Drop>(
    alloc: Global,
    mut peer: WsPeer<S, K>,
) -> Option<(usize, usize, bool, usize)>
    requires { peer.faults ≡ 0 }
{
    let told = told(alloc, &mut peer);
    peer.finish().ok()?;
    told
}

fn told<S: Read + Write + Drop, K: MaskKeys + Drop>(
    alloc: Global,
    peer: &mut WsPeer<S, K>,
) -> Option<(usize, usize, bool, usize)>
    requires { peer.old.faults ≡ 0 }
{
    let items = [Item { time: 9, id: ID_1 }];
    let roll = Roll::from_items(alloc, &items).ok()?;
    let outcome = reconcile_with(alloc, peer, &roll, &SessionLimits::default()).ok()?;
    Some((
        outcome.need.len(),
        outcome.have.len(),
        outcome.need.contains(&ID_2),
        peer.pairs().len(),
    ))
}

/// Puts the event of a text into the store.
fn put<R: Wait, J: Naming, D: Wait + Drop>(
    rt: &R,
    alloc: Global,
    desk: &Mutex<Desk<J, D>>,
    text: &str,
) -> Option<bool> {
    Some(desk.lock(rt).insert(rt, read(alloc, text)?).is_ok())
}

/// What the relay and the mirror told.
type Met = (Option<u64>, Option<(usize, usize, bool, usize)>);

/// A mirror with the first event meets a relay with both.
fn meets<
    J: Naming,
    D: Wait + Drop,
    R: Net<Listener = TcpListener, Stream = TcpStream> + RandomSource + Threads + Wait + Sync,
>(rt: &R, keep: D, alloc: Global, blank: Blank) -> Option<Met>
    requires book { blank ≡ J.book }
    requires most { J.most ≡ 1000000 }
{
    let (desk, mut readers) = open_store::<J, D>(keep, alloc, blank, 1).ok()?;
    let mut reader = readers.pop()?;
    let desk = Mutex::new(desk);
    met(rt, alloc, &desk, &mut reader)
}

fn met<
    J: Naming,
    D: Wait + Drop,
    R: Net<Listener = TcpListener, Stream = TcpStream> + RandomSource + Threads + Wait + Sync,
>(rt: &R, alloc: Global, desk: &Mutex<Desk<J, D>>, reader: &mut Reader<J>) -> Option<Met> {
    if put(rt, alloc, desk, EVENT_1) != Some(true) || put(rt, alloc, desk, EVENT_2) != Some(true) {
        return None;
    }
    let listener = TcpListener::bind(rt, "127.0.0.1:0").ok()?;
    let address = listener.local_addr().ok()?;
    let (found, served) = join(
        rt,
        || -> Option<(usize, usize, bool, usize)>
            requires { IsSync R.row }
        { synced(rt, alloc, address) },
        || -> Option<u64> { serve_next(rt, alloc, &listener, reader, desk) },
    );
    Some((served, found))
}

/// A writer that keeps what is written, and tells which port it says that it listens on.
#[derive(Drop)]
struct Listening<'a> {
    port: &'a AtomicU64,
    written: Vec<u8>,
}

impl Write for Listening<'_> {
    fn write(&mut self, buf: &[u8]) -> io::Result<usize> {
        if self.written.extend_from_slice(buf).is_err() {
            return Err(io::Error::from(ErrorKind::OutOfMemory));
        }
        if let Some(port) = port_in(self.written.as_slice()) {
            self.port.store(port, Ordering::SeqCst);
        }
        Ok(buf.len())
    }

    fn flush(&mut self) -> io::Result<()> {
        Ok(())
    }
}

const LISTENS: &[u8] = b"listening 127.0.0.1:";

/// The port of the first line, once it is whole.
fn port_in(written: &[u8]) -> Option<u64> {
    if !written.starts_with(LISTENS) || !written.contains(&b'\n') {
        return None;
    }
    let mut port = 0u64;
    for byte in &written[LISTENS.len()..] {
        if *byte == b'\n' {
            return Some(port);
        }
        port = 10 * port + u64::from(*byte - b'0');
    }
    None
}

/// Meets the relay that listens on this port of the loopback, once it is known.
fn synced_at<R: Net<Stream = TcpStream> + RandomSource + Clock>(
    rt: &R,
    alloc: Global,
    port: &AtomicU64,
) -> Option<(usize, usize, bool, usize)> {
    if !is_set_in_time(rt, port) {
        return None;
    }
    let port = u16::try_from(port.load(Ordering::SeqCst)).ok()?;
    let address = SocketAddr::from((Ipv4Addr::LOCALHOST, port));
    synced(rt, alloc, address)
}

/// How the settings of a relay begin that serves one connection, from a file in the folder that the tests run in.
const ONE_CONNECTION: &str = r##"
listen = "127.0.0.1:0"
conns = 1
events = "loopback_session.jsonl"
"##;

/// What was found of a relay with both events that serves one connection, and whether it was done and what it then had said behind
/// its first line.
type Served = (Option<(usize, usize, bool, usize)>, bool, Option<bool>);

fn serves_one<
    R: Net<Listener = TcpListener, Stream = TcpStream>
        + RandomSource
        + Threads
        + Wait
        + Files<File = File>
        + Clock
        + Sync,
>(rt: &R, alloc: Global) -> Option<Served> {
    let text = format!(in alloc; "{EVENT_1}\n{EVENT_2}\n").ok()?;
    fs::write(rt, "loopback_session.jsonl", text.as_bytes()).ok()?;
    let port = AtomicU64::new(0);
    let mut writer = Listening {
        port: &port,
        written: Vec::new(alloc),
    };
    let errors = Listening {
        port: &port,
        written: Vec::new(alloc),
    };
    let (found, served) = join(
        rt,
        || -> Option<(usize, usize, bool, usize)>
            requires { IsSync R.row }
        { synced_at(rt, alloc, &port) },
        || -> bool { run_serve(rt, alloc, ONE_CONNECTION, &mut writer, errors).is_ok() },
    );
    let rest = ends_so(alloc, writer.written.as_slice(), port.load(Ordering::SeqCst));
    Some((found, served, rest))
}

/// Whether what was written is the line of the port, one served connection and two events.
fn ends_so(alloc: Global, written: &[u8], port: u64) -> Option<bool> {
    let text = format!(in alloc; "listening 127.0.0.1:{port}\nserved 1\nevents 2\n").ok()?;
    Some(written == text.as_bytes())
}

#[test]
fn loopback_session(rt: HostRuntime) -> Result<(), Fail> {
    let met = meets::<Brand, _, _>(&rt, &rt, rt.alloc(), Blank::new());
    // The question, the end of the session.
    assert_eq!(rt; met, Some((Some(2), Some((1, 0, true, 1)))));
    let served = serves_one(&rt, rt.alloc());
    assert_eq!(rt; served, Some((Some((1, 0, true, 1)), true, Some(true))));
    Ok(())
}
