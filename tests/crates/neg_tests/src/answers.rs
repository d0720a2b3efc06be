ghost use Rattle.std.specs.Prelude.{◌<◌, ◌≤◌};

use super::fixtures::{Mine, line, many, roll_of};
use item_roll::{Roll, RollFault};
use neg_codec::{CodecFault, decode};
use neg_responder::{AnswerFault, answer};
use std::alloc::{AllocError, Global};
use std::test::*;

/// The value of a lower-case hexadecimal digit.
fn digit(text: u8) -> u8
    ensures { result < 16 }
{
    match text {
        b'0'..=b'9' => text - b'0',
        b'a'..=b'f' => text - b'a' + 10,
        _ => 0,
    }
}

/// The bytes of a hexadecimal text.
fn bytes_of(alloc: Global, text: &str) -> Result<Vec<u8>, AllocError> {
    let mut bytes = Vec::new(alloc);
    for pair in text.as_bytes().chunks_exact(2) {
        if let [high, low] = pair {
            bytes.push(16 * digit(*high) + digit(*low))?;
        }
    }
    Ok(bytes)
}

/// Whether bytes are those of a hexadecimal text, or begin with them.
fn begin_with(bytes: &[u8], text: &str) -> bool {
    for (pair, byte) in text.as_bytes().chunks_exact(2).zip(bytes) {
        match pair {
            [high, low] if 16 * digit(*high) + digit(*low) == *byte => {}
            _ => return false,
        }
    }
    text.len() / 2 <= bytes.len()
}

/// The answer to a query in hexadecimal digits, with messages of at most so many bytes.
fn given(alloc: Global, roll: &Roll, query: &str, limit: usize) -> Result<Vec<u8>, AnswerFault>
    requires { 4096 ≤ limit }
{
    answer(alloc, roll, &bytes_of(alloc, query)?, limit)
}

/// Whether a query has an answer of so many bytes, which begins so.
fn is_answered(
    alloc: Global,
    roll: &Roll,
    limit: usize,
    query: &str,
    len: usize,
    front: &str,
) -> bool
    requires { 4096 ≤ limit }
{
    match given(alloc, roll, query, limit) {
        Ok(given) => given.len() == len && begin_with(&given, front),
        Err(_) => false,
    }
}

/// The first query that isn't answered so.
fn first_other(alloc: Global, roll: &Roll, cases: &[(&str, &str)]) -> Option<usize> {
    for (at, (query, expected)) in cases.iter().enumerate() {
        if !is_answered(alloc, roll, 60_000, query, expected.len() / 2, expected) {
            return Some(at);
        }
    }
    None
}

/// Why a query isn't answered.
fn refusal(alloc: Global, roll: &Roll, query: &[u8]) -> Option<AnswerFault> {
    answer(alloc, roll, query, 4_096).err()
}

/// Why a query in hexadecimal digits isn't answered.
fn refusal_of(alloc: Global, roll: &Roll, query: &str) -> Option<AnswerFault> {
    given(alloc, roll, query, 4_096).err()
}

/// What 32 numbered items are told by.
const PRINTS_OF_32: &str =
    "610300012badbd7659924f488790ab577a29bcbe0300011ba91635a8ddc0e32a0a796ee0389def03000107aa15a5c153b036e64b5d1a0b68a741030001c3b220cd2682a0d35c0d55f0690eb14a030001de7cc218a459caaf756d498e46da3749030001d1cf570526e4c1870196a8d9e539e22d030001f8dbdbec6eee46577c119184fa3622dd030001228ff9be580af0340ea2a3f9955863f7030001eb56fc10dc92e87eb8dd8693fa52503f030001aaaa6ba6f4c7fa312492e18f360799f9030001c989e48aaeb895ae19ea03e4c384b27d030001a2952b0bc61a90aea947bdd3d3b2511d030001ea0b199ccb75b2bf4ad341fb9fc51123030001a1f81d851b2aeb0e73172e413a6ab574030001b3e3858268b6e16cf19cad87464bb7950000011fcfbdb995ca766a5be2bbd528e9ee3d";

/// Items, queries over them, and the whole answers.
static ANSWERS: [(Mine, &[(&str, &str)]); 6] = [
    (
        Mine::Line(0),
        &[
            // own ids of none
            ("6100000200", "6100000200"),
            // own print of none
            ("610000017f9c9e31ac8256ca2f258583df262dbc", "61"),
            // list to an empty roll
            (
                "61000002010101010101010101010101010101010101010101010101010101010101010101",
                "6100000200",
            ),
        ],
    ),
    (
        Mine::Items(&[(5, 1, 1)]),
        &[
            // an empty stretch is passed over
            (
                "610600000100020000000200",
                "61060000000002010101010101010101010101010101010101010101010101010101010101010101",
            ),
            // another version
            ("6200000200", "61"),
            // another version alone
            ("00", "61"),
            // another version, no message
            ("60ffffff", "61"),
            // no range
            ("61", "61"),
            // own print
            ("61000001ce041765675ad4d93378e20bd3a7d0d9", "61"),
            // another print of few
            (
                "6100000177777777777777777777777777777777",
                "61000002010101010101010101010101010101010101010101010101010101010101010101",
            ),
            // the same ids
            (
                "61000002010101010101010101010101010101010101010101010101010101010101010101",
                "61000002010101010101010101010101010101010101010101010101010101010101010101",
            ),
            // other ids
            (
                "61000002010202020202020202020202020202020202020202020202020202020202020202",
                "61000002010101010101010101010101010101010101010101010101010101010101010101",
            ),
            // a Skip at infinity with id bytes
            ("610001ff00", "61"),
            // ids at infinity with id bytes
            (
                "610001ff0200",
                "61000002010101010101010101010101010101010101010101010101010101010101010101",
            ),
            // equal bounds
            ("610601020001010200", "61"),
            // empty stretches with ids and print
            (
                "6101000201090909090909090909090909090909090909090909090909090909090909090901000177777777777777777777777777777777050000010001777777777777777777777777777777770100020003000200",
                "61050000030002010101010101010101010101010101010101010101010101010101010101010101",
            ),
            // below the item
            ("6106000200", "6106000200"),
            // up to just above the item
            (
                "61062001010101010101010101010101010101010101010101010101010101010101020200",
                "610620010101010101010101010101010101010101010101010101010101010101010202010101010101010101010101010101010101010101010101010101010101010101",
            ),
            // at the item exclusive
            (
                "61062001010101010101010101010101010101010101010101010101010101010101010200",
                "61062001010101010101010101010101010101010101010101010101010101010101010200",
            ),
        ],
    ),
    (
        Mine::Items(&[(7, 0xaa, 1), (7, 0xaa, 2), (7, 0xbb, 0), (9, 0x10, 0)]),
        &[
            // Skips and own prints are one Skip
            (
                "610400000500017f9c9e31ac8256ca2f258583df262dbc0101ab0118c9c332dab66e17f6394fc26cd0c67f02000000000200",
                "61090000000002011010101010101010101010101010101010101010101010101010101010101000",
            ),
            // a Skip at the end is not written
            (
                "610801bb0200020000030001a03615b412930199356a8acb9e1bcec8000000",
                "610801bb0202aaaaaaaaaaaaaaaaaaaaaaaaaaaaaaaaaaaaaaaaaaaaaaaaaaaaaaaaaaaaaa01aaaaaaaaaaaaaaaaaaaaaaaaaaaaaaaaaaaaaaaaaaaaaaaaaaaaaaaaaaaaaa02",
            ),
            // bound between ids of a time
            (
                "610820aaaaaaaaaaaaaaaaaaaaaaaaaaaaaaaaaaaaaaaaaaaaaaaaaaaaaaaaaaaaaa020002000177777777777777777777777777777777020000010110020105050505050505050505050505050505050505050505050505050505050505050101110200",
                "610820aaaaaaaaaaaaaaaaaaaaaaaaaaaaaaaaaaaaaaaaaaaaaaaaaaaaaaaaaaaaaa020002000202aaaaaaaaaaaaaaaaaaaaaaaaaaaaaaaaaaaaaaaaaaaaaaaaaaaaaaaaaaaaaa02bbbbbbbbbbbbbbbbbbbbbbbbbbbbbbbbbbbbbbbbbbbbbbbbbbbbbbbbbbbbbb00020000010110020001011102011010101010101010101010101010101010101010101010101010101010101000",
            ),
        ],
    ),
    (
        Mine::Line(32),
        &[
            // another print, an own one, and 16 of which two differ
            ("6100000177777777777777777777777777777777", PRINTS_OF_32),
            (PRINTS_OF_32, "61"),
            (
                "610300012badbd7659924f488790ab577a29bcbe0300011ba91635a8ddc0e32a0a796ee0389def03000177777777777777777777777777777777030001c3b220cd2682a0d35c0d55f0690eb14a030001de7cc218a459caaf756d498e46da3749030001d1cf570526e4c1870196a8d9e539e22d030001f8dbdbec6eee46577c119184fa3622dd030001228ff9be580af0340ea2a3f9955863f7030001eb56fc10dc92e87eb8dd8693fa52503f030001aaaa6ba6f4c7fa312492e18f360799f9030001c989e48aaeb895ae19ea03e4c384b27d030001a2952b0bc61a90aea947bdd3d3b2511d030001ea0b199ccb75b2bf4ad341fb9fc51123030001a1f81d851b2aeb0e73172e413a6ab574030001b3e3858268b6e16cf19cad87464bb79500000177777777777777777777777777777777",
                "610500000300020204040404040404040404040404040404040404040404040404040404040404040505050505050505050505050505050505050505050505050505050505050505190000000002021e1e1e1e1e1e1e1e1e1e1e1e1e1e1e1e1e1e1e1e1e1e1e1e1e1e1e1e1e1e1e1e1f1f1f1f1f1f1f1f1f1f1f1f1f1f1f1f1f1f1f1f1f1f1f1f1f1f1f1f1f1f1f1f",
            ),
        ],
    ),
    (
        Mine::Line(33),
        &[(
            "6100000177777777777777777777777777777777",
            "61040001c2055e4b533b897450a2f7abc14a3688030001b8ea736abfbf609781fff6727eb9cd040300017f2da089f1f529e21695158e4a2d6f43030001b7d83b680dbdf04ad2be2d723ad764b4030001d7f6aef48c8105c6a8d1edb11bc1f61d0300015a3b9f41ebacbc3c88d623fa11abd2c4030001078bc773005f176ba644460bd77f43d1030001c1d8d25dd3ad8c37678e17dfce54df610300011b3faf13785b65bf5c6debbef6eb3b8b03000113fc235ac2e2604d7730473528b646910300016db32635642a41b8167e4346e59ce8f2030001af9e87dc5ace9af9766108aeea1cd582030001cd20b9f83aa18e89dd323257ca0a6e090300012198850980141c511aed175878f65040030001ca3d66888b97cac95e08951fff742c9700000115e52dde58a3e1e3e713e9cd6524dd88",
        )],
    ),
    (
        Mine::Line(64),
        &[
            // 32 items in the middle
            (
                "610b000021000177777777777777777777777777777777",
                "610b0000030001d1cf570526e4c1870196a8d9e539e22d030001f8dbdbec6eee46577c119184fa3622dd030001228ff9be580af0340ea2a3f9955863f7030001eb56fc10dc92e87eb8dd8693fa52503f030001aaaa6ba6f4c7fa312492e18f360799f9030001c989e48aaeb895ae19ea03e4c384b27d030001a2952b0bc61a90aea947bdd3d3b2511d030001ea0b199ccb75b2bf4ad341fb9fc51123030001a1f81d851b2aeb0e73172e413a6ab574030001b3e3858268b6e16cf19cad87464bb7950300011fcfbdb995ca766a5be2bbd528e9ee3d030001e6b58a8f002f65b65fd1d4bcb4c0fefa0300011241fc13047494506c3fe92e987bb00f03000116d326ae01c53db89e5ecd79d96aa0420300013ce0890e0e3b24cb6629495268f05299030001a86d70f0af1d80795786a8165b1062ae",
            ),
        ],
    ),
];

/// The first query over a roll that isn't answered so; all are where there is none.
fn first_unlike(alloc: Global, mine: Mine, cases: &[(&str, &str)]) -> Option<usize> {
    match roll_of(alloc, mine) {
        Ok(roll) => first_other(alloc, &roll, cases),
        Err(_) => Some(cases.len()),
    }
}

/// The answer that lists as many numbered items.
fn list_of(alloc: Global, count: u8) -> Result<Vec<u8>, AllocError> {
    let mut bytes = b"\x61\x00\x00\x02".to_vec(alloc)?;
    bytes.push(count)?;
    for i in 0..count {
        bytes.extend_from_slice(&[i; 32])?;
    }
    Ok(bytes)
}

/// Whether a query is answered by these bytes.
fn is_given(alloc: Global, roll: &Roll, query: &str, expected: &[u8]) -> bool {
    match given(alloc, roll, query, 60_000) {
        Ok(given) => given.as_slice() == expected,
        Err(_) => false,
    }
}

/// Whether a query is answered by the list of all, where there are so many numbered items.
fn lists_all(alloc: Global, count: u8, query: &str) -> Result<bool, RollFault> {
    let roll = line(alloc, count)?;
    let list = list_of(alloc, count)?;
    Ok(is_given(alloc, &roll, query, &list))
}

/// Fewer than 32 items are listed where a print differs, and as many as there are where ids are asked for.
static LISTED: [(u8, &str); 3] = [
    (31, "6100000177777777777777777777777777777777"),
    (31, "6100000200"),
    (40, "6100000200"),
];

#[test]
fn queries_are_answered(rt: HostRuntime) -> Result<(), Fail> {
    for (place, (mine, cases)) in ANSWERS.iter().enumerate() {
        assert_eq!(rt;
            (place, first_unlike(rt.alloc(), *mine, cases)),
            (place, None)
        );
    }
    for (count, query) in LISTED {
        assert!(rt;
            lists_all(rt.alloc(), count, query) == Ok(true),
            "{count} {query}"
        );
    }
    Ok(())
}

/// A query of one list, of the id of byte 1 32 times.
const ONE_ID: &[u8] =
    b"\x61\x06\x00\x02\x01\x01\x01\x01\x01\x01\x01\x01\x01\x01\x01\x01\x01\x01\x01\x01\x01\x01\x01\x01\x01\x01\x01\x01\x01\x01\x01\x01\x01\x01\x01\x01\x01";

/// Queries that are refused, and why.
static REFUSED: [(&str, CodecFault); 11] = [
    ("", CodecFault::Empty),
    ("6105", CodecFault::Varint(2)),
    ("618000", CodecFault::Varint(1)),
    ("6100000000", CodecFault::AfterInfinity(4)),
    ("610601020001010100", CodecFault::Descending(5)),
    (
        "6102000081ffffffffffffffff7f0000",
        CodecFault::TimeTooLarge(4),
    ),
    ("61002100", CodecFault::PrefixLength(2)),
    ("61010201", CodecFault::Truncated(3)),
    ("61000003", CodecFault::Mode(3)),
    ("610000017777", CodecFault::Truncated(4)),
    // a fault behind good ranges
    ("6106000200030002", CodecFault::Varint(8)),
];

/// Whether those are refused so, and bounds that are equal or at infinity aren't.
fn refuses_rightly(alloc: Global, roll: &Roll) -> bool {
    for (query, fault) in REFUSED {
        if refusal_of(alloc, roll, query) != Some(AnswerFault::Bad(fault)) {
            return false;
        }
    }
    refusal_of(alloc, roll, "610601020001010200").is_none()
        && refusal_of(alloc, roll, "610001ff00").is_none()
}

/// The length of the first of these queries that isn't judged as the reader of messages judges it.
fn first_misjudged(alloc: Global, roll: &Roll, whole: &[u8]) -> Option<usize> {
    for (len, _) in whole.iter().enumerate() {
        let fault = match decode(alloc, &whole[..len]) {
            Ok(_) => None,
            Err(fault) => Some(AnswerFault::Bad(fault)),
        };
        if refusal(alloc, roll, &whole[..len]) != fault {
            return Some(len);
        }
    }
    None
}

/// What a query of one list is refused for, where only so many bytes of it come.
fn fault_of_cut(len: usize) -> Option<AnswerFault> {
    match len {
        0 => Some(AnswerFault::Bad(CodecFault::Empty)),
        1 => None,
        2..=4 => Some(AnswerFault::Bad(CodecFault::Varint(len))),
        _ => Some(AnswerFault::Bad(CodecFault::Truncated(5))),
    }
}

/// Whether each beginning of a query is judged so.
fn judges_beginnings(alloc: Global, roll: &Roll) -> bool {
    for (len, _) in ONE_ID.iter().enumerate() {
        if refusal(alloc, roll, &ONE_ID[..len]) != fault_of_cut(len) {
            return false;
        }
    }
    true
}

/// Whether a query is answered by the own version.
fn is_other_version(alloc: Global, roll: &Roll, query: &[u8]) -> bool {
    match answer(alloc, roll, query, 4_096) {
        Ok(given) => given.as_slice() == b"\x61".as_slice(),
        Err(_) => false,
    }
}

/// Whether a query of 1,048,577 bytes is too long, and one of a byte less isn't.
fn takes_the_longest(alloc: Global, roll: &Roll) -> Option<bool> {
    let long = vec![in alloc; 0x62; 1_048_577].ok()?;
    let is_too_long = refusal(alloc, roll, &long) == Some(AnswerFault::Bad(CodecFault::TooLong));
    let [_, rest @ ..] = long.as_slice() else {
        return None;
    };
    Some(is_too_long && is_other_version(alloc, roll, rest))
}

#[test]
fn queries_are_refused(rt: HostRuntime) -> Result<(), Fail> {
    let alloc = rt.alloc();
    let roll = line(alloc, 2)?;
    assert!(rt; refuses_rightly(alloc, &roll));
    assert!(rt; judges_beginnings(alloc, &roll));
    assert!(rt; takes_the_longest(alloc, &roll) == Some(true));
    Ok(())
}

/// Queries, how long their answers of at most 4,096 bytes are, and how they begin.
static CUT: [(&str, usize, &str); 4] = [
    ("6100000200", 3_992, "617d00027c"),
    ("617d000000000200", 3_931, "617d00007b00027a"),
    ("618177000000000200", 3_932, "61817700007b00027a"),
    ("618271000000000200", 1_033, "618271000000000220"),
];

#[test]
fn answers_within_the_limit(rt: HostRuntime) -> Result<(), Fail> {
    let alloc = rt.alloc();
    let roll = many(alloc)?;
    for (query, len, front) in CUT {
        assert!(rt;
            is_answered(alloc, &roll, 4_096, query, len, front),
            "{query}"
        );
    }
    // An answer as a query.
    let whole = given(alloc, &roll, "6100000200", 4_096)?;
    assert_eq!(rt; first_misjudged(alloc, &roll, &whole), None);
    Ok(())
}
