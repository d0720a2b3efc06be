//! Wires over streams that drip, stop and fail.

use std::alloc::Global;
use std::io;
use std::io::{ErrorKind, Read, Write};
use std::test::Fail;
use tungstenite::{MaskKeys, NoMask, Role};
use websocket::protocol::WebSocketConfig;
use wire::{Fault, Message, Wire};

/// A stream that gives one byte at each read and takes so many at each write, and would block at each third call.
#[derive(Drop)]
pub struct Dripping<'a> {
    pub left: &'a [u8],
    pub sent: &'a mut Vec<u8>,
    pub takes: usize,
    pub calls: u64,
}

impl Dripping<'_> {
    fn count(&mut self) -> io::Result<()> {
        self.calls = self.calls.saturating_add(1);
        if self.calls % 3 == 0 {
            return Err(io::Error::from(ErrorKind::WouldBlock));
        }
        Ok(())
    }
}

impl Read for Dripping<'_> {
    fn read(&mut self, buf: &mut [u8]) -> io::Result<usize> {
        self.count()?;
        let most = self.left.len().min(buf.len()).min(1);
        let (first, rest) = self.left.split_at(most);
        buf[..most].copy_from_slice(first);
        self.left = rest;
        Ok(most)
    }
}

impl Write for Dripping<'_> {
    fn write(&mut self, buf: &[u8]) -> io::Result<usize> {
        self.count()?;
        let most = buf.len().min(self.takes);
        match self.sent.extend_from_slice(&buf[..most]) {
            Ok(()) => Ok(most),
            Err(_) => Err(io::Error::from(ErrorKind::OutOfMemory)),
        }
    }

    fn flush(&mut self) -> io::Result<()> {
        Ok(())
    }
}

/// A ping, a text in two pieces with a ping between them, bytes, and a close.
const HEARD: &[u8] =
    b"\x89\x04beat\x01\x01h\x89\x02go\x80\x01i\x82\x01b\x81\x05there\x88\x00\x81\x05never";

/// The client's text `yo`, a pong for each ping and a reply to the close, under the key 0.
const SAID: &[u8] =
    b"\x81\x82\x00\x00\x00\x00yo\x8a\x84\x00\x00\x00\x00beat\x8a\x82\x00\x00\x00\x00go\x88\x80\x00\x00\x00\x00";

/// Puts what was heard behind the rest: a text, a hash for bytes, a dot for a ping or a pong, a bar for the close.
fn note(heard: &mut String, message: &Message) -> Option<()> {
    match message {
        Message::Text(text) => heard.push_str(text.as_str()).ok(),
        Message::Binary => heard.push_str("#").ok(),
        Message::Other => heard.push_str(".").ok(),
        Message::Close => heard.push_str("|").ok(),
    }
}

/// Whether a call stopped since the stream would block.
fn is_blocked(fault: &Fault) -> bool {
    match fault {
        Fault::Stream(error) => error.kind() == ErrorKind::WouldBlock,
        Fault::Frame(_) => false,
    }
}

/// Says a text and hears all up to the close, over and over where the stream would block.
fn talked(alloc: Global, stream: Dripping<'_>, input: &[u8]) -> Option<String> {
    let input = input.to_vec(alloc).ok()?;
    let config = WebSocketConfig::default();
    let mut wire = Wire::new(alloc, stream, input, NoMask, Role::Client, config, 7).ok()?;
    let mut heard = String::new(alloc);
    match wire.say("yo") {
        Ok(()) => {}
        Err(fault) => is_blocked(&fault).then_some(())?,
    }
    for _turn in 0..1_000 {
        match wire.listen() {
            Ok(message) => {
                note(&mut heard, &message)?;
                if matches!(message, Message::Close) {
                    return Some(ended(wire, heard));
                }
            }
            Err(fault) => is_blocked(&fault).then_some(())?,
        }
    }
    None
}

/// Sends what still waits.
fn ended<S: Write + Drop, K: MaskKeys + Drop>(mut wire: Wire<S, K>, heard: String) -> String {
    for _turn in 0..1_000 {
        if wire.send().is_ok() {
            break;
        }
    }
    heard
}

// What was read with the handshake's head comes first, and nothing is lost or told twice, however the bytes are cut.
#[test]
fn cut_frames(rt: HostRuntime) -> Result<(), Fail> {
    let alloc = rt.alloc();
    for (ahead, takes) in [(0, 1), (3, 2), (9, 5), (HEARD.len(), 1_000)] {
        let mut sent = Vec::new(alloc);
        let (first, left) = HEARD.split_at(ahead);
        let stream = Dripping {
            left,
            sent: &mut sent,
            takes,
            calls: 0,
        };
        let heard = talked(alloc, stream, first);
        assert_eq!(rt; heard.is_some(), true);
        if let Some(heard) = heard {
            assert_eq!(rt; (ahead, heard.as_str()), (ahead, "..hi#there|"));
        }
        assert_eq!(rt; (ahead, sent.as_slice()), (ahead, SAID));
    }
    Ok(())
}
