//! A log over a disk that fails at each step in turn, and loses what wasn't synced.

ghost use Rattle.std.specs.Prelude.{◌≡◌};

use super::events::event;
use event_log::{Log, Medium};
use event_store::{Blank, Desk, Naming, Reader, open_small};
use std::alloc::Global;
use std::io;
use std::io::ErrorKind;
use std::marker::Brand;
use std::sync::Wait;
use std::test::*;

/// A disk. Its call of that number fails, each write takes at most 100 bytes, and a sync that fails loses what wasn't synced,
/// though it stays in its place.
#[derive(Drop)]
struct Disk {
    written: Vec<u8>,
    // How many of these bytes last.
    lasting: usize,
    // Whether a sync has lost what stands behind these.
    is_holed: bool,
    calls: u64,
    fails: u64,
}

impl Disk {
    fn is_failing(&mut self) -> bool {
        self.calls = self.calls.saturating_add(1);
        self.calls == self.fails
    }
}

impl Medium for Disk {
    fn write(&mut self, bytes: &[u8]) -> io::Result<usize> {
        if self.is_failing() {
            return Err(io::Error::from(ErrorKind::StorageFull));
        }
        let count = bytes.len().min(100);
        self.written.extend_from_slice(&bytes[..count])?;
        Ok(count)
    }

    fn sync(&mut self) -> io::Result<()> {
        if self.is_failing() {
            self.is_holed = true;
            return Err(io::Error::from(ErrorKind::Other));
        }
        // What was lost once comes by no further sync.
        if !self.is_holed {
            self.lasting = self.written.len();
        }
        Ok(())
    }

    fn cut(&mut self, len: u64) -> io::Result<()> {
        if self.is_failing() {
            return Err(io::Error::from(ErrorKind::Other));
        }
        self.written.truncate(len as usize);
        if len as usize <= self.lasting {
            self.lasting = len as usize;
            self.is_holed = false;
        }
        Ok(())
    }
}

/// How many line feeds the bytes have.
fn lines(bytes: &[u8]) -> usize {
    bytes.iter().filter(|byte| **byte == b'\n').count()
}

/// Puts 20 events in, one after another, and appends each. What counts as kept lasts, whichever call fails, and in the end all do.
/// Gives how many appends failed.
fn keeps<J: Naming, D: Wait + Drop, R: Wait>(
    rt: &R,
    keep: D,
    alloc: Global,
    blank: Blank,
    fails: u64,
) -> Option<usize>
    requires book { blank ≡ J.book }
    requires most { J.most ≡ 1000000 }
{
    let (mut desk, mut readers) = open_small::<J, D>(keep, alloc, blank, 1, 1_000_000).ok()?;
    let mut reader = readers.pop()?;
    let disk = Disk {
        written: Vec::new(alloc),
        lasting: 0,
        is_holed: false,
        calls: 0,
        fails,
    };
    let mut log = Log::new(alloc, disk, reader.front(), 0, true);
    let mut kept = 0;
    let mut failed = 0;
    for number in 0..20 {
        desk.insert(rt, event(alloc, number, 1000 + number)?).ok()?;
        match log.append(&mut reader) {
            Ok(now) => kept = now.len(),
            Err(_) => failed += 1,
        }
    }
    let kept_at_last = log.append(&mut reader).ok()?.len();
    let disk = log.into_medium();
    let is_right = kept_at_last == 20
        && kept >= 18
        && disk.lasting == disk.written.len()
        && lines(disk.written.as_slice()) == 20;
    if is_right { Some(failed) } else { None }
}

#[test]
fn a_disk_that_fails(rt: HostRuntime) -> Result<(), Fail> {
    // No call fails, and then each in turn of those that a run makes.
    assert_eq!(rt; keeps::<Brand, _, _>(&rt, &rt, rt.alloc(), Blank::new(), 0), Some(0));
    for fails in 1..=60 {
        assert_eq!(rt; keeps::<Brand, _, _>(&rt, &rt, rt.alloc(), Blank::new(), fails), Some(1));
    }
    Ok(())
}
