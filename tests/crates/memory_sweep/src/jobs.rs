//! Settings, and files of events.

use crate::events::event_line;
use crate::said::Said;
use crate::stores::publishes;
use event_file::{FileFault, insert_lines, write_lines};
use event_store::{Desk, Naming, Reader};
use mirror_settings::{Job, SettingsFault, read_settings};
use nostr_filter::Filter;
use std::alloc::Global;
use std::io::ErrorKind;
use std::sync::Wait;

/// The names of the calls.
pub const NAMES: &[&str] = &["read_settings", "insert_lines", "write_lines"];

const SETTINGS: &str =
    "events = 'e'\nlisten = '[::1]:80'\nconns = 5\nrelays = ['a:1', 'b:2']\nfilter = '{\"kinds\":[1]}'\nworkers = 4\nbases = [0, 1000000000]\nrounds = 16\npush_ms = 1\n";

/// Reads settings with each key.
pub fn read(alloc: Global) -> Option<Said> {
    match read_settings(alloc, SETTINGS, Job::Sync) {
        Ok(settings) => Said::ample(
            settings.events.as_str() == "e"
                && settings.listen.is_some()
                && settings.conns == Some(5)
                && settings.relays.as_slice().len() == 2
                && settings.filter.kinds.is_some()
                && settings.workers == 4
                && settings.bases.as_slice() == [0, 1_000_000_000].as_slice()
                && settings.rounds == 16
                && settings.push_ms == Some(1),
        ),
        Err(SettingsFault::Memory) => Said::memory(true),
        Err(_) => Said::wrong(),
    }
}

/// The lines of the first two events.
fn lines(alloc: Global) -> Option<String> {
    let mut text = event_line(alloc, 0)?;
    text.push_str(event_line(alloc, 1)?.as_str()).ok()?;
    Some(text)
}

/// Puts two lines into an empty store. For want of memory those before stay there, and they may be put in again.
pub fn insert<J: Naming, R: Wait>(
    rt: &R,
    alloc: Global,
    desk: &mut Desk<J, &R>,
    reader: &mut Reader<J>,
) -> Option<Said> {
    let lines = lines(alloc)?;
    match insert_lines(rt, alloc, desk, lines.as_bytes()) {
        Ok(()) => Said::ample(publishes(alloc, reader, 2)),
        Err(FileFault::Memory) => Said::memory(
            (publishes(alloc, reader, 0) || publishes(alloc, reader, 1))
                && insert_lines(rt, alloc, desk, lines.as_bytes()).is_ok()
                && publishes(alloc, reader, 2),
        ),
        Err(FileFault::Line(_)) => Said::wrong(),
    }
}

/// Writes the lines of a store's two events, where there is room, so that no write is refused.
pub fn write<J: Naming>(alloc: Global, reader: &mut Reader<J>) -> Option<Said> {
    let mut out = Vec::with_capacity(alloc, 4_096).ok()?;
    let lines = lines(alloc)?;
    let all = reader.pin(alloc, &Filter::all()).ok()?;
    match write_lines(alloc, &mut out, all.events()) {
        Ok(()) => Said::ample(out.as_slice() == lines.as_bytes()),
        Err(error) if error.kind() == ErrorKind::OutOfMemory => Said::memory(out.is_empty()),
        Err(_) => Said::wrong(),
    }
}
