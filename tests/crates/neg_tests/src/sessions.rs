//! Sessions with peers of the tests, and with rolls in this process.

ghost use Rattle.std.specs.Prelude.{◌<◌, ◌≤◌, ◌^◌, ◌-◌};

mod peers;

use super::fixtures::{
    ASK_ALL, ASKS_AA_BB, ASKS_THE_REST, Found, LISTS_AND_PRINTS, LISTS_ONE, Mine, is_found, many,
    roll_of,
};
use neg_codec::CodecFault;
use neg_session::{
    LocalPeer, Outcome, Pair, Peer, PeerFault, SessionFault, SessionLimits, reconcile_with,
};
use peers::Scripted;
use std::alloc::Global;
use std::test::Fail;

/// Lists the ids 02..02 and 03..03.
const LISTS_TWO: &[u8] =
    b"\x61\x00\x00\x02\x02\x02\x02\x02\x02\x02\x02\x02\x02\x02\x02\x02\x02\x02\x02\x02\x02\x02\x02\x02\x02\x02\x02\x02\x02\x02\x02\x02\x02\x02\x02\x02\x02\x03\x03\x03\x03\x03\x03\x03\x03\x03\x03\x03\x03\x03\x03\x03\x03\x03\x03\x03\x03\x03\x03\x03\x03\x03\x03\x03\x03\x03\x03\x03\x03";
/// The fingerprint 77..77 of all: 20 bytes.
const PRINTS: &[u8] =
    b"\x61\x00\x00\x01\x77\x77\x77\x77\x77\x77\x77\x77\x77\x77\x77\x77\x77\x77\x77\x77";
/// Lists the ids aa..aa and cc..cc.
const LISTS_AA_CC: &[u8] =
    b"\x61\x00\x00\x02\x02\xaa\xaa\xaa\xaa\xaa\xaa\xaa\xaa\xaa\xaa\xaa\xaa\xaa\xaa\xaa\xaa\xaa\xaa\xaa\xaa\xaa\xaa\xaa\xaa\xaa\xaa\xaa\xaa\xaa\xaa\xaa\xaa\xcc\xcc\xcc\xcc\xcc\xcc\xcc\xcc\xcc\xcc\xcc\xcc\xcc\xcc\xcc\xcc\xcc\xcc\xcc\xcc\xcc\xcc\xcc\xcc\xcc\xcc\xcc\xcc\xcc\xcc\xcc\xcc";
/// Lists the id aa..aa.
const ASKS_AA: &[u8] =
    b"\x61\x00\x00\x02\x01\xaa\xaa\xaa\xaa\xaa\xaa\xaa\xaa\xaa\xaa\xaa\xaa\xaa\xaa\xaa\xaa\xaa\xaa\xaa\xaa\xaa\xaa\xaa\xaa\xaa\xaa\xaa\xaa\xaa\xaa\xaa\xaa";

const NOTHING: Found = Found {
    need: &[],
    have: &[],
    trusted: 0,
};

/// The id 01..01 is needed.
const ONE_NEEDED: Found = Found {
    need: &[0x01],
    have: &[],
    trusted: 0,
};

/// How many rounds there may be, how many ids needed, and how many bytes answered.
type Limits = (u32, usize, usize);

const MOST: Limits = (4_096, 200_000, 67_108_864);

fn limits((rounds, need, log): Limits) -> Option<SessionLimits> {
    if rounds > 4_096 || need > 200_000 || log > 67_108_864 {
        return None;
    }
    Some(SessionLimits {
        limit: 60_000,
        rounds,
        need,
        log,
    })
}

/// With whom a session is.
#[derive(Clone, Copy)]
enum With {
    /// A roll of these items, which gives these answers of at most 4,096 bytes.
    Roll(Mine, &'static [&'static [u8]]),
    /// A peer that gives these answers, and then fails or repeats the last.
    Script(&'static [&'static [u8]], Option<PeerFault>),
}

/// How a session goes.
#[derive(Clone, Copy)]
struct Course {
    mine: Mine,
    limits: Limits,
    /// What is found, or the fault that ends it.
    ended: Result<Found<'static>, SessionFault>,
    /// The questions that were answered.
    asked: &'static [&'static [u8]],
    failures: u64,
}

const NONE: Mine = Mine::Items(&[]);

/// The item 5 01..01.
const ONE: Mine = Mine::Items(&[(5, 1, 1)]);

static COURSES: [(With, Course); 17] = [
    // Rolls meet.
    (
        With::Roll(NONE, &[ASK_ALL]),
        Course {
            mine: NONE,
            limits: MOST,
            ended: Ok(NOTHING),
            asked: &[ASK_ALL],
            failures: 0,
        },
    ),
    (
        With::Roll(ONE, &[LISTS_ONE]),
        Course {
            mine: NONE,
            limits: MOST,
            ended: Ok(ONE_NEEDED),
            asked: &[ASK_ALL],
            failures: 0,
        },
    ),
    (
        With::Roll(
            Mine::Items(&[(10, 0xaa, 0xaa), (12, 0xcc, 0xcc)]),
            &[LISTS_AA_CC],
        ),
        Course {
            mine: Mine::Items(&[(10, 0xaa, 0xaa), (11, 0xbb, 0xbb)]),
            limits: MOST,
            ended: Ok(Found {
                need: &[0xcc],
                have: &[0xbb],
                trusted: 0,
            }),
            asked: &[ASKS_AA_BB],
            failures: 0,
        },
    ),
    // Limits that are just passed, and just kept.
    (
        With::Roll(ONE, &[LISTS_ONE]),
        Course {
            mine: NONE,
            limits: (4_096, 0, 67_108_864),
            ended: Err(SessionFault::NeedFull),
            asked: &[ASK_ALL],
            failures: 0,
        },
    ),
    (
        With::Roll(ONE, &[LISTS_ONE]),
        Course {
            mine: NONE,
            limits: (4_096, 1, 67_108_864),
            ended: Ok(ONE_NEEDED),
            asked: &[ASK_ALL],
            failures: 0,
        },
    ),
    (
        With::Roll(ONE, &[LISTS_ONE]),
        Course {
            mine: NONE,
            limits: (4_096, 1, 36),
            ended: Err(SessionFault::LogFull),
            asked: &[ASK_ALL],
            failures: 0,
        },
    ),
    (
        With::Roll(ONE, &[LISTS_ONE]),
        Course {
            mine: NONE,
            limits: (4_096, 1, 37),
            ended: Ok(ONE_NEEDED),
            asked: &[ASK_ALL],
            failures: 0,
        },
    ),
    (
        With::Roll(ONE, &[LISTS_ONE]),
        Course {
            mine: NONE,
            limits: (1, 1, 37),
            ended: Ok(ONE_NEEDED),
            asked: &[ASK_ALL],
            failures: 0,
        },
    ),
    (
        With::Roll(ONE, &[]),
        Course {
            mine: NONE,
            limits: (0, 1, 37),
            ended: Err(SessionFault::Rounds),
            asked: &[],
            failures: 0,
        },
    ),
    // Peers that repeat.
    (
        With::Script(&[PRINTS], None),
        Course {
            mine: NONE,
            limits: (3, 200_000, 67_108_864),
            ended: Err(SessionFault::Rounds),
            asked: &[ASK_ALL, ASK_ALL, ASK_ALL],
            failures: 0,
        },
    ),
    (
        With::Script(&[PRINTS], None),
        Course {
            mine: Mine::Items(&[(10, 0xaa, 0xaa)]),
            limits: (2, 200_000, 67_108_864),
            ended: Err(SessionFault::Rounds),
            asked: &[ASKS_AA, ASKS_AA],
            failures: 0,
        },
    ),
    (
        With::Script(&[PRINTS], None),
        Course {
            mine: NONE,
            limits: (4_096, 200_000, 59),
            ended: Err(SessionFault::LogFull),
            asked: &[ASK_ALL, ASK_ALL, ASK_ALL],
            failures: 0,
        },
    ),
    // Peers that lie.
    (
        With::Script(&[LISTS_AND_PRINTS], None),
        Course {
            mine: NONE,
            limits: (3, 1, 67_108_864),
            ended: Err(SessionFault::Rounds),
            asked: &[ASK_ALL, ASKS_THE_REST, ASKS_THE_REST],
            failures: 0,
        },
    ),
    (
        With::Script(&[LISTS_AND_PRINTS, LISTS_TWO], None),
        Course {
            mine: NONE,
            limits: (4_096, 2, 67_108_864),
            ended: Err(SessionFault::NeedFull),
            asked: &[ASK_ALL, ASKS_THE_REST],
            failures: 0,
        },
    ),
    // Peers that fail.
    (
        With::Script(&[], Some(PeerFault::Failed)),
        Course {
            mine: NONE,
            limits: MOST,
            ended: Err(SessionFault::PeerFailed),
            asked: &[],
            failures: 1,
        },
    ),
    (
        With::Script(&[PRINTS], Some(PeerFault::Failed)),
        Course {
            mine: NONE,
            limits: MOST,
            ended: Err(SessionFault::PeerFailed),
            asked: &[ASK_ALL],
            failures: 1,
        },
    ),
    (
        With::Script(&[], Some(PeerFault::Memory)),
        Course {
            mine: NONE,
            limits: MOST,
            ended: Err(SessionFault::Memory),
            asked: &[],
            failures: 0,
        },
    ),
];

fn is_end(ended: Result<Outcome, SessionFault>, wanted: Result<Found, SessionFault>) -> bool {
    match ended {
        Ok(outcome) => match wanted {
            Ok(found) => is_found(&outcome, found),
            Err(_) => false,
        },
        Err(fault) => wanted.err() == Some(fault),
    }
}

fn are_asked(pairs: &[Pair], asked: &[&[u8]]) -> bool {
    for (pair, asked) in pairs.iter().zip(asked) {
        if pair.asked.as_slice() != *asked {
            return false;
        }
    }
    pairs.len() == asked.len()
}

fn are_answered(pairs: &[Pair], answered: &[&[u8]]) -> bool {
    for (pair, answered) in pairs.iter().zip(answered) {
        if pair.answered.as_slice() != *answered {
            return false;
        }
    }
    pairs.len() == answered.len()
}

/// Whether a session with a peer goes so.
fn goes<P: Peer>(alloc: Global, peer: &mut P, course: &Course) -> Option<bool>
    requires { P.faults peer.old < 2 ^ 64 - 1 }
{
    let mine = roll_of(alloc, course.mine).ok()?;
    let limits = limits(course.limits)?;
    let ended = reconcile_with(alloc, peer, &mine, &limits);
    Some(
        is_end(ended, course.ended)
            && are_asked(peer.pairs(), course.asked)
            && peer.failures() == course.failures,
    )
}

fn goes_with(alloc: Global, with: With, course: &Course) -> Option<bool> {
    match with {
        With::Roll(theirs, answered) => {
            let mut peer = LocalPeer::new(alloc, roll_of(alloc, theirs).ok()?, 4_096);
            let goes = goes(alloc, &mut peer, course)?;
            Some(goes && are_answered(peer.pairs(), answered))
        }
        With::Script(answers, then) => {
            goes(alloc, &mut Scripted::new(alloc, answers, then), course)
        }
    }
}

/// Answers that are no messages.
static BAD: [(&[u8], CodecFault); 8] = [
    (b"", CodecFault::Empty),
    (b"\x62", CodecFault::Version(0x62)),
    (b"\xff\x00", CodecFault::Version(0xff)),
    (b"\x61\x00\x00\x01", CodecFault::Truncated(4)),
    (b"\x61\x05", CodecFault::Varint(2)),
    (b"\x61\x00\x00\x03", CodecFault::Mode(3)),
    (b"\x61\x00\x00\x00\x00", CodecFault::AfterInfinity(4)),
    (
        b"\x61\x06\x01\x02\x00\x01\x01\x01\x00",
        CodecFault::Descending(5),
    ),
];

/// Whether a session ends by a fault where these are the answers.
fn ends_bad(
    alloc: Global,
    answers: &[&[u8]],
    fault: CodecFault,
    asked: &'static [&'static [u8]],
) -> Option<bool> {
    let course = Course {
        mine: NONE,
        limits: MOST,
        ended: Err(SessionFault::Bad(fault)),
        asked,
        failures: 0,
    };
    goes(alloc, &mut Scripted::new(alloc, answers, None), &course)
}

#[test]
fn sessions_go(rt: HostRuntime) -> Result<(), Fail> {
    let alloc = rt.alloc();
    for (place, (with, course)) in COURSES.iter().enumerate() {
        assert_eq!(rt;
            (place, goes_with(alloc, *with, course)),
            (place, Some(true))
        );
    }
    for (answer, fault) in BAD {
        let first = ends_bad(alloc, &[answer], fault, &[ASK_ALL]);
        let second = ends_bad(alloc, &[PRINTS, answer], fault, &[ASK_ALL, ASK_ALL]);
        assert_eq!(rt; (first, second), (Some(true), Some(true)), "{fault:?}");
    }
    Ok(())
}

/// Whether a roll fails at a question that is no message, and answers one of another version and another one.
fn is_asked(alloc: Global) -> Option<bool> {
    let mut peer = LocalPeer::new(alloc, roll_of(alloc, ONE).ok()?, 4_096);
    let fault = peer.ask(b"\x61\x05").err();
    if fault != Some(PeerFault::Failed) || !peer.pairs().is_empty() || peer.failures() != 1 {
        return Some(false);
    }
    let version = peer.ask(b"\x62\x00\x00\x02\x00").ok()?;
    let answer = peer.ask(ASK_ALL).ok()?;
    Some(
        version.as_slice() == b"\x61".as_slice()
            && answer.as_slice() == LISTS_ONE
            && are_asked(peer.pairs(), &[b"\x62\x00\x00\x02\x00", ASK_ALL])
            && are_answered(peer.pairs(), &[b"\x61", LISTS_ONE])
            && peer.failures() == 1,
    )
}

/// How many questions a session asks that lacks 400 items, where both sides keep to a limit, and the most bytes of an answer.
fn asked_within(alloc: Global, limit: usize) -> Option<(usize, usize)>
    requires { 4096 ≤ limit × limit ≤ 1048576 }
{
    let mut peer = LocalPeer::new(alloc, many(alloc).ok()?, limit);
    let none = roll_of(alloc, NONE).ok()?;
    let found = reconcile_with(alloc, &mut peer, &none, &SessionLimits::most(limit)).ok()?;
    if found.need.len() != 400 || peer.failures() != 0 {
        return None;
    }
    let mut most = 0;
    for pair in peer.pairs() {
        most = most.max(pair.answered.len());
    }
    Some((peer.pairs().len(), most))
}

/// A peer answers within its own limit, and no shorter: 400 ids have 12,800 bytes.
#[test]
fn peer_keeps_to_its_own_limit(rt: HostRuntime) -> Result<(), Fail> {
    assert_eq!(rt; asked_within(rt.alloc(), 60_000), Some((1, 12_806)));
    let (asked, most) = asked_within(rt.alloc(), 4_096).ok_or("no session")?;
    assert!(rt; asked > 1 && most <= 4_096 && most > 4_096 - 256, "{asked} {most}");
    Ok(())
}

static FAULTS: [(SessionFault, u8, &str); 6] = [
    (SessionFault::PeerFailed, 1, "the peer failed"),
    (
        SessionFault::Bad(CodecFault::Truncated(4)),
        2,
        "bad answer: byte 4: cut short",
    ),
    (SessionFault::Rounds, 3, "too many rounds"),
    (SessionFault::NeedFull, 4, "too many ids are needed"),
    (SessionFault::LogFull, 5, "too many bytes were answered"),
    (SessionFault::Memory, 6, "out of memory"),
];

fn has_text(alloc: Global, fault: SessionFault, text: &str) -> bool {
    match format!(in alloc; "{fault}") {
        Ok(printed) => printed.as_str() == text,
        Err(_) => false,
    }
}

#[test]
fn peers_and_faults(rt: HostRuntime) -> Result<(), Fail> {
    assert!(rt; is_asked(rt.alloc()) == Some(true));
    for (fault, number, text) in FAULTS {
        assert!(rt;
            fault.number() == number && has_text(rt.alloc(), fault, text),
            "{number}"
        );
    }
    assert!(rt; Some(SessionLimits::default()) == limits(MOST));
    Ok(())
}
