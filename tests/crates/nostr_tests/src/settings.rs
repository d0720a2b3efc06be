//! Settings from a table of texts. What is told of wrong ones is tried by runs of the program (`tests/jobs.py`).

use mirror_settings::{
    Address, Job, Mirroring, Relay, Settings, SettingsFault, SettingsKey, Syncing, read_settings,
    unknown_keys,
};
use std::alloc::{AllocError, Global};
use std::test::*;

/// What a run has.
struct Row {
    job: Job,
    text: &'static str,
    events: &'static str,
    relays: &'static [(&'static str, u16)],
    listen: Option<(&'static str, u16)>,
    bases: &'static [u64],
    /// Connections, the two times, how many are served at once, and the time of a ping.
    rest: [Option<u64>; 5],
    fsync: Syncing,
    slow_bytes: u64,
    workers: u64,
    rounds: u64,
    has_kinds: bool,
}

static ROWS: [Row; 6] = [
    Row {
        job: Job::Serve,
        text: "events = 'e'\nlisten = '127.0.0.1:0'\nconns = 1\nrelays = 7\nworkers = 9\nslow_bytes = 0\n",
        events: "e",
        relays: &[],
        listen: Some(("127.0.0.1", 0)),
        bases: &[],
        rest: [Some(1), None, None, None, None],
        fsync: Syncing::Always,
        slow_bytes: 10_000,
        workers: 1,
        rounds: 1,
        has_kinds: false,
    },
    Row {
        job: Job::Serve,
        text: "push_ms = 60000\nconns = 1000000\nclients = 100000\nping_ms = 3600000\nlisten = 'relay.example:65535'\nevents = 'a b'\n",
        events: "a b",
        relays: &[],
        listen: Some(("relay.example", 65535)),
        bases: &[],
        rest: [Some(1_000_000), Some(60_000), None, Some(100_000), Some(3_600_000)],
        fsync: Syncing::Always,
        slow_bytes: 10_000,
        workers: 1,
        rounds: 1,
        has_kinds: false,
    },
    Row {
        job: Job::Sync,
        text: "events = 'e'\nrelays = ['localhost:7000']\n",
        events: "e",
        relays: &[("localhost", 7000)],
        listen: None,
        bases: &[0],
        rest: [None, None, None, None, None],
        fsync: Syncing::Always,
        slow_bytes: 10_000,
        workers: 1,
        rounds: 1,
        has_kinds: false,
    },
    Row {
        job: Job::Sync,
        text: "events = 'e'\nlisten = '[::1]:80'\nconns = 5\nrelays = ['a:1', 'b:2']\nfilter = '{\"kinds\":[1]}'\nworkers = 4\nbases = [0, 1000000000]\nrounds = 16\npush_ms = 1\ntimeout_ms = 3600000\nfsync = 'everysec'\nslow_bytes = 1000000000\nclients = 1\nping_ms = 1\n",
        events: "e",
        relays: &[("a", 1), ("b", 2)],
        listen: Some(("[::1]", 80)),
        bases: &[0, 1_000_000_000],
        rest: [Some(5), Some(1), Some(3_600_000), Some(1), Some(1)],
        fsync: Syncing::EverySecond,
        slow_bytes: 1_000_000_000,
        workers: 4,
        rounds: 16,
        has_kinds: true,
    },
    Row {
        job: Job::Sync,
        text: "events = ''\nconns = 3\nrelays = ['a:0']\nfilter = '{}'\n",
        events: "",
        relays: &[("a", 0)],
        listen: None,
        bases: &[0],
        rest: [Some(3), None, None, None, None],
        fsync: Syncing::Always,
        slow_bytes: 10_000,
        workers: 1,
        rounds: 1,
        has_kinds: false,
    },
    Row {
        job: Job::Sync,
        text: "# none\nother = [1, { a = 2 }]\nevents = 'e'\nrelays = ['a:1']\nworkers = 2\n",
        events: "e",
        relays: &[("a", 1)],
        listen: None,
        bases: &[0],
        rest: [None, None, None, None, None],
        fsync: Syncing::Always,
        slow_bytes: 10_000,
        workers: 2,
        rounds: 1,
        has_kinds: false,
    },
];

/// Whether that is the address.
fn is_at(address: &Address, want: (&str, u16)) -> bool {
    address.host.as_str() == want.0 && address.port == want.1
}

/// Whether these are the relays.
fn are_at(relays: &[Relay], want: &[(&str, u16)]) -> bool {
    for (relay, want) in relays.iter().zip(want) {
        if !is_at(&relay.via, *want) {
            return false;
        }
    }
    relays.len() == want.len()
}

/// Whether that is where the run listens, if it does.
fn listens_at(settings: &Settings, want: Option<(&str, u16)>) -> bool {
    match (&settings.listen, want) {
        (Some(address), Some(want)) => is_at(address, want),
        (None, None) => true,
        _ => false,
    }
}

/// Whether these are the row's settings.
fn are_of(settings: &Settings, row: &Row) -> bool {
    listens_at(settings, row.listen)
        && are_at(settings.relays.as_slice(), row.relays)
        && settings.bases.as_slice() == row.bases
        && [
            settings.conns,
            settings.push_ms,
            settings.timeout_ms,
            settings.clients,
            settings.ping_ms,
        ] == row.rest
        && settings.fsync == row.fsync
        && settings.slow_bytes == row.slow_bytes
        && (settings.workers, settings.rounds) == (row.workers, row.rounds)
        && settings.events.as_str() == row.events
        && settings.filter.kinds.is_some() == row.has_kinds
}

/// Settings that are right.
fn read(alloc: Global, text: &str, job: Job) -> Result<Settings, AllocError> {
    read_settings(alloc, text, job).map_err(|_| AllocError)
}

#[test]
fn settings_are_told(rt: HostRuntime) -> Result<(), Fail> {
    for row in &ROWS {
        let settings = read(rt.alloc(), row.text, row.job)?;
        assert!(rt; are_of(&settings, row));
    }
    Ok(())
}

/// As many relays as there may be.
#[test]
fn so_many_relays(rt: HostRuntime) -> Result<(), Fail> {
    let alloc = rt.alloc();
    let many = "'a:1', ".repeat(alloc, 255)?;
    let text = format!(in alloc; "events = 'e'\nrelays = [{many}'b:2']\n")?;
    let settings = read(alloc, text.as_str(), Job::Sync)?;
    assert_eq!(rt; settings.relays.as_slice().len(), 256);
    Ok(())
}

/// An entry of `relays`, with the host, the path and the address that it means.
static ENTRIES: [(&str, &str, &str, (&str, u16)); 14] = [
    ("'localhost:7000'", "localhost:7000", "/", ("localhost", 7000)),
    ("'[::1]:80'", "[::1]:80", "/", ("[::1]", 80)),
    ("'a b:65535'", "a b:65535", "/", ("a b", 65535)),
    ("'ws://a.example'", "a.example", "/", ("a.example", 80)),
    ("'ws://a.example/'", "a.example", "/", ("a.example", 80)),
    ("'ws://a:7000/b/c?d=ws://e'", "a:7000", "/b/c?d=ws://e", ("a", 7000)),
    ("'ws://[::1]'", "[::1]", "/", ("[::1]", 80)),
    ("'ws://[::1]:0//'", "[::1]:0", "//", ("[::1]", 0)),
    ("'ws://127.0.0.1:65535'", "127.0.0.1:65535", "/", ("127.0.0.1", 65535)),
    ("'ws:80'", "ws:80", "/", ("ws", 80)),
    ("{ host = 'a.example', path = '/', via = '127.0.0.1:7001' }", "a.example", "/", ("127.0.0.1", 7001)),
    ("{ via = '[::1]:0', host = 'a.example:8080' }", "a.example:8080", "/", ("[::1]", 0)),
    ("{ host = '[::1]', path = '//a?b=wss://c', via = 'a:1', port = 1 }", "[::1]", "//a?b=wss://c", ("a", 1)),
    ("{ host = '[::1]:443', path = '/a%20b', via = 'a b:1' }", "[::1]:443", "/a%20b", ("a b", 1)),
];

#[test]
fn entries_name_relays(rt: HostRuntime) -> Result<(), Fail> {
    let alloc = rt.alloc();
    for (entry, host, path, via) in ENTRIES {
        let text = format!(in alloc; "events = 'e'\nrelays = ['x:1', {entry}]\n")?;
        let settings = read(alloc, text.as_str(), Job::Sync)?;
        let relay = &settings.relays.as_slice()[1];
        assert_eq!(rt; relay.host.as_str(), host);
        assert_eq!(rt; relay.path.as_str(), path);
        assert!(rt; is_at(&relay.via, via));
    }
    Ok(())
}

/// Entries that name no relay.
static NO_ENTRIES: [&str; 42] = [
    "''",
    "'a'",
    "':80'",
    "'a:'",
    "'a:065'",
    "'a:65536'",
    "7",
    "['a:1']",
    "'wss://a'",
    "'wss://a:443/'",
    "'WS://a:80'",
    "'http://a:80'",
    "' ws://a:80'",
    "'a://b:80'",
    "'ws://'",
    "'ws:///a'",
    "'ws://:80'",
    "'ws://a:'",
    "'ws://a:080'",
    "'ws://a:65536'",
    "'ws://::1'",
    "'ws://a:b:80'",
    "'ws://[::1]a'",
    "'ws://a b/'",
    "'ws://a/b c'",
    "\"ws://a/\\r\\nb\"",
    "{}",
    "{ host = 'a' }",
    "{ via = 'a:1' }",
    "{ path = '/', via = 'a:1' }",
    "{ host = 'a', path = '/', via = 'a' }",
    "{ host = 'a', via = ':1' }",
    "{ host = 'a', via = 1 }",
    "{ host = 1, via = 'a:1' }",
    "{ host = '', via = 'a:1' }",
    "{ host = 'a/b', via = 'a:1' }",
    "{ host = 'a b', via = 'a:1' }",
    "{ host = '::1', via = 'a:1' }",
    "{ host = 'a', path = '', via = 'a:1' }",
    "{ host = 'a', path = 'b', via = 'a:1' }",
    "{ host = 'a', path = '/b c', via = 'a:1' }",
    "{ host = 'a', path = 1, via = 'a:1' }",
];

#[test]
fn entries_are_refused(rt: HostRuntime) -> Result<(), Fail> {
    let alloc = rt.alloc();
    for entry in NO_ENTRIES {
        let text = format!(in alloc; "events = 'e'\nrelays = ['x:1', {entry}]\nslow_bytes = 0\n")?;
        let fault = read_settings(alloc, text.as_str(), Job::Sync).err();
        assert!(rt; fault == Some(SettingsFault::Key(SettingsKey::Relays)));
    }
    Ok(())
}

/// Values of `slow_bytes` that are wrong.
#[test]
fn slow_bytes_are_refused(rt: HostRuntime) -> Result<(), Fail> {
    let alloc = rt.alloc();
    for value in ["0", "-1", "1000000001", "'1'", "1.5"] {
        let text = format!(in alloc; "events = 'e'\nrelays = ['x:1']\nslow_bytes = {value}\n")?;
        let fault = read_settings(alloc, text.as_str(), Job::Sync).err();
        assert!(rt; fault == Some(SettingsFault::Key(SettingsKey::SlowBytes)));
    }
    Ok(())
}

/// What a mirror is told: whether it refuses events of clients, how often passes begin, how many, whether it subscribes, and how many
/// relays it has.
static MIRRORS: [(&str, bool, u64, Option<u64>, bool, usize); 4] = [
    ("events = 'e'\nlisten = 'a:1'\n", true, 300_000, None, true, 0),
    ("events = 'e'\nrelays = ['a:1']\nconns = 0\n", true, 300_000, None, true, 1),
    (
        "events = 'e'\nrelays = ['a:1', 'b:2']\nread_only = false\nevery_ms = 1\npasses = 1\nlive = false\n",
        false,
        1,
        Some(1),
        false,
        2,
    ),
    (
        "events = 'e'\nrelays = ['a:1']\nread_only = true\nevery_ms = 86400000\npasses = 1000000000\nlive = true\n",
        true,
        86_400_000,
        Some(1_000_000_000),
        true,
        1,
    ),
];

#[test]
fn mirrors_are_told(rt: HostRuntime) -> Result<(), Fail> {
    for (text, read_only, every_ms, passes, live, relays) in MIRRORS {
        let settings = read(rt.alloc(), text, Job::Mirror)?;
        assert_eq!(rt; settings.read_only, read_only);
        assert!(rt; settings.mirroring == Mirroring { every_ms, passes, live });
        assert_eq!(rt; settings.relays.as_slice().len(), relays);
        assert_eq!(rt; settings.conns, None);
    }
    Ok(())
}

/// What is wrong of a mirror, and of another job not.
static NO_MIRRORS: [(&str, SettingsKey); 9] = [
    ("", SettingsKey::Listen),
    ("relays = []", SettingsKey::Relays),
    ("relays = ['a:1']\nread_only = 'yes'", SettingsKey::ReadOnly),
    ("relays = ['a:1']\nevery_ms = 0", SettingsKey::EveryMs),
    ("relays = ['a:1']\nevery_ms = 86400001", SettingsKey::EveryMs),
    ("relays = ['a:1']\npasses = 0", SettingsKey::Passes),
    ("relays = ['a:1']\npasses = 1000000001", SettingsKey::Passes),
    ("relays = ['a:1']\nlive = 1", SettingsKey::Live),
    ("relays = ['a:1']\nlive = 1\nevery_ms = 'a'", SettingsKey::EveryMs),
];

#[test]
fn mirrors_are_refused(rt: HostRuntime) -> Result<(), Fail> {
    let alloc = rt.alloc();
    for (rest, key) in NO_MIRRORS {
        let text = format!(in alloc; "events = 'e'\n{rest}\n")?;
        let fault = read_settings(alloc, text.as_str(), Job::Mirror).err();
        assert!(rt; fault == Some(SettingsFault::Key(key)));
    }
    let text = "events = 'e'\nrelays = ['a:1']\nevery_ms = 0\npasses = 0\nlive = 0\n";
    assert!(rt; read_settings(alloc, text, Job::Sync).is_ok());
    Ok(())
}

#[test]
fn unknown_keys_are_told(rt: HostRuntime) -> Result<(), Fail> {
    let text = "evnts = 1\nevents = 'e'\n[relay]\nhost = 'a'\n";
    let names = unknown_keys(rt.alloc(), text).map_err(|_| AllocError)?;
    assert_eq!(rt; names.len(), 2);
    assert_eq!(rt; names[0].as_str(), "evnts");
    assert_eq!(rt; names[1].as_str(), "relay");
    Ok(())
}
