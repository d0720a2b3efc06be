//! Events that are made here, with the ids that NIP-01 says they have.

use nostr_event::Event;
use serde_json::Value;
use sha2::{Digest, Sha256};
use std::alloc::Global;
use std::sync::Arc;

const KEY: &str = "0101010101010101010101010101010101010101010101010101010101010101";

const SIG: &str =
    "5a5a5a5a5a5a5a5a5a5a5a5a5a5a5a5a5a5a5a5a5a5a5a5a5a5a5a5a5a5a5a5a5a5a5a5a5a5a5a5a5a5a5a5a5a5a5a5a5a5a5a5a5a5a5a5a5a5a5a5a5a5a5a5a";

/// The event that a text is.
pub(crate) fn read(alloc: Global, text: &str) -> Option<Arc<Event>> {
    let value = Value::from_str(alloc, text).ok()?;
    let event = Event::from_json(alloc, &value).ok()?;
    Arc::new(alloc, event).ok()
}

/// The event with that number for its content, and its last two digits for a tag `t`.
pub(crate) fn event(alloc: Global, number: u64, time: u64) -> Option<Arc<Event>> {
    read(alloc, text_of(alloc, number, time)?.as_str())
}

fn text_of(alloc: Global, number: u64, time: u64) -> Option<String> {
    let digits = number % 100;
    let id = id_of(alloc, number, time)?;
    format!(in alloc;
        "{{\"id\":\"{id}\",\"pubkey\":\"{KEY}\",\"created_at\":{time},\"kind\":1,\"tags\":[[\"t\",\"{digits}\"]],\"content\":\"{number}\",\"sig\":\"{SIG}\"}}"
    ).ok()
}

/// The digits of its id.
fn id_of(alloc: Global, number: u64, time: u64) -> Option<String> {
    let digits = number % 100;
    let text = format!(in alloc;
        "[0,\"{KEY}\",{time},1,[[\"t\",\"{digits}\"]],\"{number}\"]"
    ).ok()?;
    let digest = Sha256::digest(text.as_bytes());
    hex::encode(alloc, digest.as_slice()).ok()
}
