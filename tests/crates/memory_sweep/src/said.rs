//! What a call came to.

/// What a call came to in which an allocation may have been refused.
#[derive(Clone, Copy)]
pub enum Said {
    /// The answer that it has with all memory.
    Ample,
    /// Want of memory, and the state is as it has to be.
    Memory,
    /// Another answer that may be given where memory was refused, and the state is as it has to be.
    Allowed,
    /// An answer or a state that isn't right.
    Wrong(&'static str),
}

impl Said {
    /// The ample answer, if it is right.
    pub fn ample(is_right: bool) -> Option<Said> {
        Some(if is_right {
            Said::Ample
        } else {
            Said::Wrong("the answer")
        })
    }

    /// Want of memory, if the state is as it has to be.
    pub fn memory(is_kept: bool) -> Option<Said> {
        Some(Said::Memory.with(is_kept))
    }

    /// Another answer that may be given, if the state is as it has to be.
    pub fn allowed(is_kept: bool) -> Option<Said> {
        Some(Said::Allowed.with(is_kept))
    }

    /// The same, unless the state is wrong.
    fn with(self, is_kept: bool) -> Said {
        if is_kept {
            self
        } else {
            Said::Wrong("the state after it")
        }
    }

    /// An answer that is wrong whatever the state.
    pub fn wrong() -> Option<Said> {
        Said::ample(false)
    }
}
