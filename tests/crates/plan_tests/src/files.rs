//! Plan files that are made of lists.

use neg_codec::Id;
use plan_check::{PlanFault, PlanFile, check, write_plan};
use std::alloc::{AllocError, Global};
use std::test::Fail;

/// The lists of a file. Each id repeats one byte.
#[derive(Clone, Copy)]
struct Lists<'a> {
    bases: &'a [(u16, u64)],
    offers: &'a [(u8, &'a [u16])],
    gives: &'a [(u8, u16)],
    group: &'a [u16],
}

fn offered(alloc: Global, offers: &[(u8, &[u16])]) -> Result<Vec<(Id, Vec<u16>)>, AllocError> {
    let mut all = Vec::new(alloc);
    for (byte, relays) in offers {
        all.push((Id([*byte; 32]), relays.to_vec(alloc)?))?;
    }
    Ok(all)
}

fn given(alloc: Global, gives: &[(u8, u16)]) -> Result<Vec<(Id, u16)>, AllocError> {
    let mut all = Vec::new(alloc);
    for (byte, relay) in gives {
        all.push((Id([*byte; 32]), *relay))?;
    }
    Ok(all)
}

fn file_of(alloc: Global, lists: Lists<'_>) -> Result<Result<PlanFile, PlanFault>, AllocError> {
    let bases = lists.bases.to_vec(alloc)?;
    let group = lists.group.to_vec(alloc)?;
    let given = given(alloc, lists.gives)?;
    let offered = offered(alloc, lists.offers)?;
    Ok(PlanFile::of(bases, offered, given, group))
}

/// The first of these lists to which the checker answers something else, or whose fault is another.
fn first_other(
    alloc: Global,
    rows: &[(Lists<'_>, Result<u64, PlanFault>)],
) -> Result<Option<usize>, AllocError> {
    for (place, (lists, want)) in rows.iter().enumerate() {
        let got = match file_of(alloc, *lists)? {
            Ok(file) => check(&file),
            Err(fault) => Err(fault),
        };
        if got != *want {
            return Ok(Some(place));
        }
    }
    Ok(None)
}

/// Lists without bases.
fn plain<'a>(offers: &'a [(u8, &'a [u16])], gives: &'a [(u8, u16)], group: &'a [u16]) -> Lists<'a> {
    Lists {
        bases: &[],
        offers,
        gives,
        group,
    }
}

/// One id on relays 0 and 1, given to 1.
fn one_id<'a>(bases: &'a [(u16, u64)], group: &'a [u16]) -> Lists<'a> {
    Lists {
        bases,
        offers: &[(10, &[0, 1])],
        gives: &[(10, 1)],
        group,
    }
}

#[test]
fn plans_with_bases(rt: HostRuntime) -> Result<(), Fail> {
    let three: &[(u8, &[u16])] = &[(10, &[0, 1]), (11, &[0, 1]), (12, &[0, 1])];
    let rows = [
        (one_id(&[(0, 2)], &[0]), Ok(2)),
        (one_id(&[(0, 2)], &[1]), Err(PlanFault::GroupTooSmall)),
        (one_id(&[(0, 2)], &[]), Err(PlanFault::GroupTooSmall)),
        (one_id(&[(1, 2)], &[1]), Err(PlanFault::GroupTooSmall)),
        (
            Lists {
                bases: &[(0, 2)],
                offers: three,
                gives: &[(10, 0), (11, 1), (12, 1)],
                group: &[0, 1],
            },
            Ok(3),
        ),
        (
            Lists {
                bases: &[(7, 9)],
                offers: &[],
                gives: &[],
                group: &[7],
            },
            Ok(9),
        ),
        (
            one_id(&[(255, 1_000_000_000_000)], &[255]),
            Ok(1_000_000_000_000),
        ),
    ];
    assert_eq!(rt; first_other(rt.alloc(), &rows)?, None);
    Ok(())
}

#[test]
fn lines_are_refused_by_number(rt: HostRuntime) -> Result<(), Fail> {
    let rows = [
        (plain(&[(10, &[])], &[], &[]), Err(PlanFault::Line(2))),
        (
            plain(&[(10, &[0]), (11, &[256])], &[], &[]),
            Err(PlanFault::Line(3)),
        ),
        (
            plain(&[(10, &[0])], &[(10, 256)], &[]),
            Err(PlanFault::Line(3)),
        ),
        (
            plain(&[(10, &[0])], &[(10, 0)], &[256]),
            Err(PlanFault::Line(4)),
        ),
        (
            plain(&[(10, &[1, 0])], &[(10, 256)], &[]),
            Err(PlanFault::Line(3)),
        ),
        (plain(&[(10, &[1, 1])], &[], &[]), Err(PlanFault::Order(2))),
        (
            plain(&[(10, &[0]), (10, &[0])], &[], &[]),
            Err(PlanFault::Order(3)),
        ),
        (
            plain(&[(10, &[0])], &[(10, 0)], &[2, 1]),
            Err(PlanFault::Order(4)),
        ),
        (one_id(&[(0, 0)], &[0]), Err(PlanFault::Line(2))),
        (one_id(&[(0, 1), (256, 1)], &[0]), Err(PlanFault::Line(3))),
        (
            one_id(&[(0, 1_000_000_000_001)], &[0]),
            Err(PlanFault::Line(2)),
        ),
        (one_id(&[(1, 1), (0, 1)], &[0]), Err(PlanFault::Order(3))),
        (one_id(&[(1, 1), (1, 2)], &[0]), Err(PlanFault::Order(3))),
        (one_id(&[(1, 1), (2, 2)], &[1, 1]), Err(PlanFault::Order(6))),
    ];
    assert_eq!(rt; first_other(rt.alloc(), &rows)?, None);
    Ok(())
}

#[test]
fn a_file_lends_its_lists_and_is_written(rt: HostRuntime) -> Result<(), Fail> {
    let lists = Lists {
        bases: &[(3, 70), (255, 1)],
        offers: &[(171, &[3, 100])],
        gives: &[(171, 100)],
        group: &[1, 255],
    };
    let file = file_of(rt.alloc(), lists)?.ok().ok_or("no file")?;
    let first = file.offers().first().ok_or("no offer")?;
    let lent = file.bases() == lists.bases
        && file.gives() == [(Id([171; 32]), 100u16)].as_slice()
        && file.group() == lists.group
        && file.offers().len() == 1
        && first.0 == Id([171; 32])
        && first.1.as_slice() == [3u16, 100].as_slice();
    assert!(rt; lent);
    assert!(rt;
        write_plan(rt.alloc(), &file)?.as_str()
            == "nostr-plan 2\nbase 3 70\nbase 255 1\n\
                offer abababababababababababababababababababababababababababababababab 3 100\n\
                give abababababababababababababababababababababababababababababababab 100\n\
                group 1 255\n"
    );
    Ok(())
}

#[test]
fn faults_have_texts(rt: HostRuntime) -> Result<(), Fail> {
    let rows = [
        (
            PlanFault::Line(3),
            "line 3: not of the form, out of place or missing",
        ),
        (PlanFault::Order(4), "line 4: out of order"),
        (
            PlanFault::NotOffered,
            "an id is given to a relay that doesn't offer it",
        ),
        (PlanFault::Missing, "an offered id isn't given"),
        (PlanFault::Stranger, "a given id isn't offered"),
        (
            PlanFault::GroupTooSmall,
            "the group doesn't show that the busiest relay can't have fewer",
        ),
        (PlanFault::Memory, "out of memory"),
    ];
    let mut told = true;
    for (fault, text) in rows {
        told = told && format!(in rt.alloc(); "{fault}")?.as_str() == text;
    }
    assert!(rt; told);
    Ok(())
}
