use super::fixtures::{
    ASK_ALL, ASKS_AA_BB, ASKS_THE_REST, Found, LISTS_AND_PRINTS, LISTS_ONE, Mine, is_found, line,
    many, roll_of,
};
use item_roll::Roll;
use neg_codec::{CodecFault, decode};
use neg_initiator::{InitFault, Initiator, Next};
use std::alloc::{AllocError, Global};
use std::test::Fail;

/// Lists the ids 01..01 and 02..02.
const LISTS_1_2: &[u8] =
    b"\x61\x00\x00\x02\x02\x01\x01\x01\x01\x01\x01\x01\x01\x01\x01\x01\x01\x01\x01\x01\x01\x01\x01\x01\x01\x01\x01\x01\x01\x01\x01\x01\x01\x01\x01\x01\x01\x02\x02\x02\x02\x02\x02\x02\x02\x02\x02\x02\x02\x02\x02\x02\x02\x02\x02\x02\x02\x02\x02\x02\x02\x02\x02\x02\x02\x02\x02\x02\x02";
/// Lists the id aa..aa, and cc..cc twice.
const LISTS_AA_CC_CC: &[u8] =
    b"\x61\x00\x00\x02\x03\xaa\xaa\xaa\xaa\xaa\xaa\xaa\xaa\xaa\xaa\xaa\xaa\xaa\xaa\xaa\xaa\xaa\xaa\xaa\xaa\xaa\xaa\xaa\xaa\xaa\xaa\xaa\xaa\xaa\xaa\xaa\xaa\xcc\xcc\xcc\xcc\xcc\xcc\xcc\xcc\xcc\xcc\xcc\xcc\xcc\xcc\xcc\xcc\xcc\xcc\xcc\xcc\xcc\xcc\xcc\xcc\xcc\xcc\xcc\xcc\xcc\xcc\xcc\xcc\xcc\xcc\xcc\xcc\xcc\xcc\xcc\xcc\xcc\xcc\xcc\xcc\xcc\xcc\xcc\xcc\xcc\xcc\xcc\xcc\xcc\xcc\xcc\xcc\xcc\xcc\xcc\xcc\xcc\xcc\xcc\xcc";
/// The fingerprint of no id below the time 5, and the fingerprint 77..77 of the rest.
const SAME_AND_PRINTS: &[u8] =
    b"\x61\x06\x00\x01\x7f\x9c\x9e\x31\xac\x82\x56\xca\x2f\x25\x85\x83\xdf\x26\x2d\xbc\x00\x00\x01\x77\x77\x77\x77\x77\x77\x77\x77\x77\x77\x77\x77\x77\x77\x77\x77";
/// The fingerprint of no id below the time 5, and a list of none of the rest.
const SAME_AND_LISTS: &[u8] =
    b"\x61\x06\x00\x01\x7f\x9c\x9e\x31\xac\x82\x56\xca\x2f\x25\x85\x83\xdf\x26\x2d\xbc\x00\x00\x02\x00";

/// What a reply leads to.
#[derive(Clone, Copy, PartialEq)]
enum Step<'a> {
    /// A next ask of these bytes.
    Asks(&'a [u8]),
    /// All is settled.
    Done,
    Refused(InitFault),
}

/// How a session goes.
struct Course {
    mine: Mine,
    /// How long a message may be.
    limit: usize,
    /// How many ids may be needed.
    most: usize,
    /// How long the first ask is, and how it begins.
    asked: (usize, &'static [u8]),
    /// The replies, and what each leads to.
    replies: &'static [(&'static [u8], Step<'static>)],
    /// What is found, where the session is done.
    found: Option<Found<'static>>,
}

const NOTHING: Found = Found {
    need: &[],
    have: &[],
    trusted: 0,
};

static COURSES: [Course; 10] = [
    // Two empty lists. A session that is done takes no more.
    Course {
        mine: Mine::Line(0),
        limit: 60_000,
        most: 10,
        asked: (5, ASK_ALL),
        replies: &[
            (ASK_ALL, Step::Done),
            (b"\x61", Step::Refused(InitFault::Spent)),
        ],
        found: Some(NOTHING),
    },
    // Another version ends a session.
    Course {
        mine: Mine::Items(&[(1, 1, 1)]),
        limit: 60_000,
        most: 10,
        asked: (37, LISTS_ONE),
        replies: &[
            (
                b"\x62",
                Step::Refused(InitFault::Bad(CodecFault::Version(0x62))),
            ),
            (b"\x61", Step::Refused(InitFault::Spent)),
        ],
        found: None,
    },
    // A fingerprint that differs is asked again.
    Course {
        mine: Mine::Line(0),
        limit: 60_000,
        most: 10,
        asked: (5, ASK_ALL),
        replies: &[
            (LISTS_AND_PRINTS, Step::Asks(ASKS_THE_REST)),
            (LISTS_1_2, Step::Done),
        ],
        found: Some(Found {
            need: &[1, 2],
            have: &[],
            trusted: 0,
        }),
    },
    // An id that is listed twice counts once.
    Course {
        mine: Mine::Items(&[(10, 0xaa, 0xaa), (11, 0xbb, 0xbb)]),
        limit: 60_000,
        most: 10,
        asked: (69, ASKS_AA_BB),
        replies: &[(LISTS_AA_CC_CC, Step::Done)],
        found: Some(Found {
            need: &[0xcc],
            have: &[0xbb],
            trusted: 0,
        }),
    },
    // More ids are needed than may be.
    Course {
        mine: Mine::Line(0),
        limit: 60_000,
        most: 1,
        asked: (5, ASK_ALL),
        replies: &[
            (LISTS_1_2, Step::Refused(InitFault::NeedFull)),
            (b"\x61", Step::Refused(InitFault::Spent)),
        ],
        found: None,
    },
    // Ids to offer have no limit.
    Course {
        mine: Mine::Line(5),
        limit: 60_000,
        most: 0,
        asked: (165, b"\x61\x00\x00\x02\x05"),
        replies: &[(ASK_ALL, Step::Done)],
        found: Some(Found {
            need: &[],
            have: &[0, 1, 2, 3, 4],
            trusted: 0,
        }),
    },
    // 31 items are listed, 33 are told by fingerprints.
    Course {
        mine: Mine::Line(31),
        limit: 60_000,
        most: 10,
        asked: (997, b"\x61\x00\x00\x02\x1f"),
        replies: &[],
        found: None,
    },
    Course {
        mine: Mine::Line(33),
        limit: 60_000,
        most: 10,
        asked: (305, b"\x61\x04\x00\x01"),
        replies: &[],
        found: None,
    },
    // Fingerprints that are skipped are trusted.
    Course {
        mine: Mine::Line(32),
        limit: 60_000,
        most: 10,
        asked: (305, b"\x61\x03\x00\x01"),
        replies: &[(b"\x61", Step::Done)],
        found: Some(Found {
            need: &[],
            have: &[],
            trusted: 16,
        }),
    },
    // A fingerprint that is repeated is trusted once.
    Course {
        mine: Mine::Line(0),
        limit: 4_096,
        most: 10,
        asked: (5, ASK_ALL),
        replies: &[
            (SAME_AND_PRINTS, Step::Asks(ASKS_THE_REST)),
            (SAME_AND_LISTS, Step::Done),
        ],
        found: Some(Found {
            need: &[],
            have: &[],
            trusted: 1,
        }),
    },
];

fn leads_to(session: &mut Initiator, reply: &[u8], step: Step) -> bool {
    match session.take(reply) {
        Ok(Next::Ask(ask)) => step == Step::Asks(&ask),
        Ok(Next::Done) => step == Step::Done && session.is_done(),
        Err(fault) => step == Step::Refused(fault),
    }
}

/// Whether a session has found this, or isn't done.
fn ends_with(session: Initiator, found: Option<Found>) -> bool {
    if !session.is_done() {
        return found.is_none();
    }
    match found {
        Some(found) => is_found(&session.outcome(), found),
        None => false,
    }
}

/// Whether a session over a roll goes so.
fn goes_over(alloc: Global, roll: &Roll, course: &Course) -> bool {
    if course.limit < 4_096 {
        return false;
    }
    let Ok((mut session, ask)) = Initiator::start(alloc, roll, course.limit, course.most) else {
        return false;
    };
    if session.is_done() || ask.len() != course.asked.0 || !ask.starts_with(course.asked.1) {
        return false;
    }
    for (reply, step) in course.replies {
        if !leads_to(&mut session, reply, *step) {
            return false;
        }
    }
    ends_with(session, course.found)
}

fn goes(alloc: Global, course: &Course) -> bool {
    match roll_of(alloc, course.mine) {
        Ok(roll) => goes_over(alloc, &roll, course),
        Err(_) => false,
    }
}

#[test]
fn sessions_go(rt: HostRuntime) -> Result<(), Fail> {
    for (place, course) in COURSES.iter().enumerate() {
        assert!(rt; goes(rt.alloc(), course), "{place}");
    }
    Ok(())
}

/// The ask after a reply, if there is one, in a session with messages of at most 4,096 bytes.
fn second_ask(alloc: Global, roll: &Roll, reply: &[u8]) -> Result<Option<Vec<u8>>, InitFault> {
    let (mut session, _) = Initiator::start(alloc, roll, 4_096, 1_000)?;
    match session.take(reply)? {
        Next::Ask(ask) => Ok(Some(ask)),
        Next::Done => Ok(None),
    }
}

/// The first part of a long list of ids, as another side answers that keeps within 4,096 bytes.
fn first_part(alloc: Global) -> Result<Vec<u8>, AllocError> {
    let mut bytes = b"\x61\x7d\x00\x02\x7c".to_vec(alloc)?;
    for byte in 0..124 {
        bytes.extend_from_slice(&[byte; 32])?;
    }
    bytes.extend_from_slice(b"\x00\x00\x01wwwwwwwwwwwwwwww")?;
    Ok(bytes)
}

/// Fingerprints of each of 400 stretches of one item, none the roll's own.
fn four_hundred_prints(alloc: Global) -> Result<Vec<u8>, AllocError> {
    let mut bytes = b"\x61".to_vec(alloc)?;
    for _ in 0..400 {
        bytes.extend_from_slice(b"\x02\x00\x01wwwwwwwwwwwwwwww")?;
    }
    Ok(bytes)
}

/// Whether the next ask is a message that is cut at 4,096 bytes.
fn asks_to_the_limit(alloc: Global, roll: &Roll, reply: &[u8]) -> bool {
    match second_ask(alloc, roll, reply) {
        Ok(Some(ask)) => { ask.len() <= 4_096 && ask.len() > 3_840 && decode(alloc, &ask).is_ok() }
        _ => false,
    }
}

/// Whether each of 400 stretches of one item is asked again, in an ask that is cut.
fn cuts_its_ask(alloc: Global) -> Option<bool> {
    let reply = four_hundred_prints(alloc).ok()?;
    let roll = many(alloc).ok()?;
    let (session, ask) = Initiator::start(alloc, &roll, 4_096, 1_000).ok()?;
    Some(!session.is_done() && ask.len() == 305 && asks_to_the_limit(alloc, &roll, &reply))
}

/// Whether a session with a roll, with messages of at most 4,096 bytes, takes a step.
fn steps(alloc: Global, roll: &Roll, reply: &[u8], step: Step) -> bool {
    match Initiator::start(alloc, roll, 4_096, 1_000) {
        Ok((mut session, _)) => leads_to(&mut session, reply, step),
        Err(_) => false,
    }
}

/// Whether a reply is taken where it is a message, and else ends the session for the reader's fault.
fn is_judged(alloc: Global, roll: &Roll, reply: &[u8]) -> bool {
    let Err(fault) = decode(alloc, reply) else {
        return second_ask(alloc, roll, reply).is_ok();
    };
    match Initiator::start(alloc, roll, 4_096, 1_000) {
        Ok((mut session, _)) => {
            leads_to(&mut session, reply, Step::Refused(InitFault::Bad(fault)))
                && leads_to(&mut session, b"\x61", Step::Refused(InitFault::Spent))
        }
        Err(_) => false,
    }
}

/// Replies with ranges out of their places.
static MISPLACED: [&[u8]; 4] = [
    b"\x61\x00\x00\x00\x00",
    b"\x61\x06\x01\x02\x00\x01\x01\x01\x00",
    b"\x61\x06\x01\x02\x00\x01\x01\x02\x00",
    b"\x61\x00\x01\xff\x00",
];

/// Whether a list that goes on is asked for its rest, and each of its beginnings and each misplaced reply is judged.
fn judges_all(alloc: Global) -> Option<bool> {
    let whole = first_part(alloc).ok()?;
    let roll = line(alloc, 0).ok()?;
    let next = Step::Asks(b"\x61\x7d\x00\x00\x00\x00\x02\x00");
    for (len, _) in whole.iter().enumerate() {
        if !is_judged(alloc, &roll, &whole[..len]) {
            return Some(false);
        }
    }
    for reply in MISPLACED {
        if !is_judged(alloc, &roll, reply) {
            return Some(false);
        }
    }
    Some(steps(alloc, &roll, &whole, next))
}

#[test]
fn long_replies(rt: HostRuntime) -> Result<(), Fail> {
    assert!(rt; cuts_its_ask(rt.alloc()) == Some(true));
    assert!(rt; judges_all(rt.alloc()) == Some(true));
    Ok(())
}
