use neg_codec::Id;
use neg_print::{Sum, print};
use std::test::*;

/// The bytes 0 to 31.
fn rising() -> Id {
    let mut bytes = [0; 32];
    for i in 0..32 {
        bytes[i] = i as u8;
    }
    Id(bytes)
}

#[test]
fn fingerprints(rt: HostRuntime) {
    let one = Sum::of(&Id([1; 32]));
    let two = Sum::of(&Id([2; 32]));
    let last = Sum::of(&Id([255; 32]));
    let rising = Sum::of(&rising());
    let cases: [(Sum, u64, &[u8; 16]); 7] = [
        (
            Sum::zero(),
            0,
            b"\x7f\x9c\x9e\x31\xac\x82\x56\xca\x2f\x25\x85\x83\xdf\x26\x2d\xbc",
        ),
        (
            one,
            1,
            b"\xce\x04\x17\x65\x67\x5a\xd4\xd9\x33\x78\xe2\x0b\xd3\xa7\xd0\xd9",
        ),
        // The sum passes 2^256.
        (
            one.add(last),
            2,
            b"\xa4\x5b\x81\xd5\xbd\x8f\x90\xad\xe2\x7e\xd6\xec\x28\x1d\x7f\x3e",
        ),
        // The difference is below zero.
        (
            one.sub(two),
            1,
            b"\x80\xa3\x3e\x67\x20\xaf\xce\x36\xbf\xdc\x5a\x54\xf3\xa9\x20\x28",
        ),
        // The first byte is the lowest.
        (
            rising,
            1,
            b"\x8b\x44\xd9\x6f\x21\x43\x04\xbc\x15\xfe\x5c\xcb\x13\x2b\xd5\xd5",
        ),
        (
            rising.add(two).sub(two),
            200,
            b"\xe2\xec\xb5\x90\xf4\xb1\xfe\x63\xc7\x81\x62\xf3\x2d\x1b\xeb\x03",
        ),
        (
            rising.sub(last).add(last),
            16384,
            b"\x81\x0c\x0a\x58\x0a\x8d\x19\x47\x13\xed\x50\xfb\x87\xb5\xfa\x8f",
        ),
    ];
    for (sum, count, want) in cases {
        assert!(rt; print(sum, count) == *want, "{count} ids");
    }
}
