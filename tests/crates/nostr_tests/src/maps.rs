//! Maps from ids to places.

use id_map::IdMap;
use neg_codec::Id;
use std::process::Abort;
use std::test::Fail;

const IDS: u16 = 600;

// An id with the number in two of its bytes, from the place `at` on, at most 30. The others are all the same.
fn id_of(number: u16, at: usize) -> Id {
    let [high, low] = number.to_be_bytes();
    let mut bytes = [0x5a; 32];
    bytes[at % 31] = high;
    bytes[at % 31 + 1] = low;
    Id(bytes)
}

// A map in which each id has its number for its place.
fn filled(rt: &impl AllocGlobal, at: usize) -> Result<IdMap, Fail> {
    let mut map = IdMap::new(rt.alloc())?;
    for number in 0..IDS {
        map = map.insert(rt.alloc(), id_of(number, at), usize::from(number))?;
    }
    Ok(map)
}

// Whether each id but one has its number for its place, and that one this place.
fn has_all(map: &IdMap, at: usize, but: u16, place: Option<usize>) -> bool {
    for number in 0..IDS {
        let wanted = if number == but {
            place
        } else {
            Some(usize::from(number))
        };
        if map.get(&id_of(number, at)) != wanted {
            return false;
        }
    }
    true
}

// The ids differ in their first bytes alone, which are looked at last, then in the middle, then in their last bytes.
#[test]
fn each_id_has_its_place(rt: HostRuntime) -> Result<(), Fail> {
    for at in [0, 15, 30] {
        let map = filled(&rt, at)?;
        assert!(rt; has_all(&map, at, IDS, None));
        assert!(rt; map.get(&id_of(IDS, at)).is_none());
    }
    Ok(())
}

#[test]
fn an_older_map_stays(rt: HostRuntime) -> Result<(), Fail> {
    let old = filled(&rt, 7)?;
    let shared = old.share()?;
    let new = shared
        .insert(rt.alloc(), id_of(41, 7), 9)?
        .insert(rt.alloc(), id_of(IDS, 7), 5)?;
    assert!(rt; has_all(&new, 7, 41, Some(9)));
    assert!(rt; new.get(&id_of(IDS, 7)) == Some(5));
    drop(old);
    assert!(rt; has_all(&shared, 7, IDS, None));
    assert!(rt; shared.get(&id_of(IDS, 7)).is_none());
    Ok(())
}

// The same map, made in place, and one that changes what an older map shares.
#[test]
fn a_map_that_is_given_up(rt: HostRuntime) -> Result<(), Fail> {
    let mut map = IdMap::new(rt.alloc())?;
    for number in 0..IDS {
        map = map.with(rt.alloc(), id_of(number, 30), usize::from(number))?;
    }
    assert!(rt; has_all(&map, 30, IDS, None));
    let new = map
        .share()?
        .with(rt.alloc(), id_of(41, 30), 9)?
        .with(rt.alloc(), id_of(IDS, 30), 5)?;
    assert!(rt; has_all(&new, 30, 41, Some(9)));
    assert!(rt; new.get(&id_of(IDS, 30)) == Some(5));
    assert!(rt; has_all(&map, 30, IDS, None));
    assert!(rt; map.get(&id_of(IDS, 30)).is_none());
    Ok(())
}
