//! Boards, and the rounds that stand for them.

ghost use Rattle.std.specs.Prelude.{◌≡◌, IfSome};
ghost use Rattle.claim_board.specs.Rules.{fresh};
ghost use Rattle.claim_board.specs.Views.{placed_at};

use crate::plans::{GIVES, gives, id, ids, table};
use crate::said::Said;
use claim_board::{Board, BoardFault, Cell, Lane};
use fetch_plan::plan;
use offer_table::Bases;
use round_core::{Answer, Round, RoundEvent};
use std::alloc::Global;
use std::marker::Brand;

/// The names of the calls.
pub const NAMES: &[&str] = &[
    "Board::new",
    "Board::close",
    "Round::new",
    "Round::step Report",
    "Round::step Seal",
    "Round::step Insert",
    "Round::step Again",
    "Round::run",
];

/// What the call of that name came to.
pub fn said_of(alloc: Global, name: &str) -> Option<Said> {
    match name {
        "Board::new" => made(alloc),
        "Board::close" => close(alloc),
        "Round::new" => begun(alloc),
        "Round::step Report" => step(alloc, 0),
        "Round::step Seal" => step(alloc, 1),
        "Round::step Insert" => step(alloc, 2),
        "Round::step Again" => step(alloc, 5),
        "Round::run" => run(alloc),
        _ => None,
    }
}

fn made(alloc: Global) -> Option<Said> {
    let plan = plan(alloc, &table(alloc)?, &Bases::none()).ok()?;
    match Board::<Brand>::new(alloc, &plan, &[0, 1, 2]) {
        Ok((board, lanes)) => Said::ample(board.len() == 3 && lanes.len() == 3),
        Err(BoardFault::Memory) => Said::memory(gives(&plan, GIVES, 1)),
        Err(BoardFault::Lanes) => Said::wrong(),
    }
}

/// A board and its one lane, which holds nothing.
fn board(alloc: Global) -> Option<(Board<Brand>, Lane)>
    ensures { IfSome result (λ r. r.1 ≡ placed_at r.0.board (fresh 0 0)) }
{
    let plan = plan(alloc, &table(alloc)?, &Bases::none()).ok()?;
    let (board, mut lanes) = Board::new(alloc, &plan, &[0]).ok()?;
    Some((board, lanes.pop()?))
}

fn close(alloc: Global) -> Option<Said> {
    let free = [Cell::Free; 3];
    let (board, lane) = board(alloc)?;
    match board.close(lane) {
        Ok(cells) => Said::ample(cells.as_slice() == free.as_slice()),
        Err((_refused, board, lane)) => {
            let is_kept = board.len() == 3 && lane.relay() == 0;
            let Ok(cells) = board.close(lane) else {
                return Said::wrong();
            };
            Said::memory(is_kept && cells.as_slice() == free.as_slice())
        }
    }
}

/// The events of a round in which a relay misses one of two ids.
fn events(alloc: Global) -> Option<[RoundEvent; 6]> {
    Some([
        RoundEvent::Report(0, ids(alloc, b"\x0a\x0b")?),
        RoundEvent::Seal(Bases::none()),
        RoundEvent::Insert(id(11)),
        RoundEvent::Claim(0, 0),
        RoundEvent::Miss(0, 0),
        RoundEvent::Again(Bases::none()),
    ])
}

const ANSWERS: [Answer; 6] = [
    Answer::Taken,
    Answer::Sealed(2),
    Answer::Placed(true),
    Answer::Won,
    Answer::MissedIt,
    Answer::Sealed(1),
];

fn begun(alloc: Global) -> Option<Said> {
    let report = RoundEvent::Report(0, ids(alloc, b"\x0a")?);
    match Round::new(alloc, &[0]) {
        Ok(mut round) => Said::ample(round.step(&report).ok()? == Answer::Taken),
        Err(_) => Said::memory(true),
    }
}

/// The step of that number. Where it found no memory nothing has changed, so the same event is answered as it would have been.
fn step(alloc: Global, number: usize) -> Option<Said> {
    let events = events(alloc)?;
    let mut round = Round::new(alloc, &[0]).ok()?;
    for (at, (event, want)) in events.iter().zip(ANSWERS).enumerate() {
        let answer = round.step(event);
        if at < number {
            answer.ok()?;
        } else {
            return match answer {
                Ok(answer) => Said::ample(answer == want),
                Err(_) => Said::memory(round.step(event).ok() == Some(want)),
            };
        }
    }
    None
}

fn run(alloc: Global) -> Option<Said> {
    let events = events(alloc)?;
    match Round::run(alloc, &[0], &events) {
        Ok(answers) => Said::ample(answers.as_slice() == ANSWERS.as_slice()),
        Err(_) => Said::memory(true),
    }
}
