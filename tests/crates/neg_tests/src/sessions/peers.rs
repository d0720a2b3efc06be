//! A peer that answers as it was told.

ghost use Rattle.std.specs.Prelude.{◌≡◌, []};

use neg_session::{Pair, Peer, PeerFault};
use std::alloc::Global;

/// It gives its answers in turn. After them it fails, or gives the last one again and again.
#[derive(Drop)]
pub struct Scripted<'a> {
    pub alloc: Global,
    pub answers: &'a [&'a [u8]],
    pub then: Option<PeerFault>,
    pub pairs: Vec<Pair>,
    pub failures: u64,
}

impl<'a> Scripted<'a> {
    pub fn new(alloc: Global, answers: &'a [&'a [u8]], then: Option<PeerFault>) -> Scripted<'a>
        ensures { result.failures ≡ 0 }
    {
        Scripted {
            alloc,
            answers,
            then,
            pairs: Vec::new(alloc),
            failures: 0,
        }
    }

    /// The answer of this turn.
    fn answer(&self) -> Result<&'a [u8], PeerFault> {
        if let Some(answer) = self.answers.get(self.pairs.len()) {
            return Ok(*answer);
        }
        match (self.then, self.answers.last()) {
            (Some(fault), _) => Err(fault),
            (None, Some(answer)) => Ok(*answer),
            (None, None) => Ok(b""),
        }
    }
}

impl<'a> Peer for Scripted<'a> {
    ghost log = { λ p. p.pairs.items };

    ghost faults = { λ p. p.failures };

    ghost becomes = { λ p q. Unit {0} };

    ghost fails = { λ q. Unit {0} };

    ghost stays = { λ p. tt };

    ghost goes_on = { λ p q r h k. tt };

    fn ask(&mut self, question: &[u8]) -> Result<Vec<u8>, PeerFault> {
        let answer = match self.answer() {
            Ok(answer) => answer,
            Err(PeerFault::Failed) => {
                self.failures += 1;
                return Err(PeerFault::Failed);
            }
            Err(PeerFault::Memory) => return Err(PeerFault::Memory),
        };
        let pair = Pair {
            asked: question.to_vec(self.alloc)?,
            answered: answer.to_vec(self.alloc)?,
        };
        let answer = answer.to_vec(self.alloc)?;
        self.pairs.push(pair)?;
        Ok(answer)
    }

    fn pairs(&self) -> &[Pair] {
        &self.pairs
    }

    fn failures(&self) -> u64 {
        self.failures
    }
}
