//! Ids, bytes and their digits.

use id_text::{digits_of, parse_bytes, parse_id};
use neg_codec::Id;
use std::alloc::{AllocError, Global};
use std::test::*;

const TEXT: &[u8] = b"00010f101a9fa0aff0ff0123456789abcdef00000000000000000000deadbeef";

/// The id of that text.
fn id() -> Id {
    let mut bytes = [0; 32];
    bytes[..10].copy_from_slice(&[0, 1, 15, 16, 26, 159, 160, 175, 240, 255]);
    bytes[10..18].copy_from_slice(&[1, 35, 69, 103, 137, 171, 205, 239]);
    bytes[28..].copy_from_slice(&[222, 173, 190, 239]);
    Id(bytes)
}

#[test]
fn ids_are_read_and_written(rt: HostRuntime) -> Result<(), Fail> {
    assert!(rt; parse_id(TEXT) == Some(id()));
    assert_eq!(rt; digits_of(&id()).as_slice(), TEXT);
    Ok(())
}

#[test]
fn other_texts_are_refused(rt: HostRuntime) -> Result<(), Fail> {
    assert!(rt; parse_id(b"").is_none());
    assert!(rt; parse_id(&TEXT[..62]).is_none());
    assert!(rt; parse_id(&TEXT[..63]).is_none());
    for stray in [b'/', b':', b'`', b'g', b'A', b'F', b' ', b'\n', 0, 255] {
        for at in [0, 1, 30, 63] {
            let mut text = [b'0'; 64];
            text[at] = stray;
            assert!(rt; parse_id(&text).is_none());
        }
    }
    Ok(())
}

/// Whether a text is read as those bytes.
fn is_text_of(alloc: Global, text: &[u8], bytes: &[u8]) -> Result<bool, AllocError> {
    Ok(parse_bytes(alloc, text)?.is_some_and(|read| read.as_slice() == bytes))
}

#[test]
fn bytes_are_read(rt: HostRuntime) -> Result<(), Fail> {
    let alloc = rt.alloc();
    // A text of twice the id's digits, of which some are left out at either end: no, one, two and three blocks, and what is behind.
    let mut text = [b'0'; 256];
    let mut bytes = [0; 128];
    for i in 0..128 {
        text[2 * i] = TEXT[2 * i % 64];
        text[2 * i + 1] = TEXT[(2 * i + 1) % 64];
        bytes[i] = id().0[i % 32];
    }
    for len in [0, 1, 2, 31, 32, 33, 63, 64, 65, 96, 127, 128] {
        assert!(rt; is_text_of(alloc, &text[..2 * len], &bytes[..len])?);
        if len > 0 {
            assert_eq!(rt; parse_bytes(alloc, &text[..2 * len - 1])?, None);
            for stray in [b'g', b'A', b'/', 255] {
                let was = text[2 * len - 1];
                text[2 * len - 1] = stray;
                assert_eq!(rt; parse_bytes(alloc, &text[..2 * len])?, None);
                text[2 * len - 1] = was;
            }
        }
    }
    Ok(())
}
