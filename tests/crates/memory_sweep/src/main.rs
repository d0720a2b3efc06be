//! `memory_sweep`: makes calls of the libraries by themselves, for `tests/memory_sweep.py`.
//!
//! `sweep` makes calls that can answer want of memory, for runs in which one allocation is refused. With a name it makes that
//! call alone. It prints behind each name what the call came to: `ample` for its answer with all memory, `memory` for want of
//! it with the state as it has to be, `outside` where the refusal fell outside the call, and `allowed` for another answer
//! that may be given then. Where an answer or a state isn't right it prints what is wrong, and ends with status 1. The jobs
//! `recon`, `plan` and `check` aren't among these calls: each is the whole of a run of `nostr-mirror`, in which
//! `tests/sweep.py` refuses each allocation.
//!
//! `keep` copies the running program to a path: what is built without a proof is gone else when it ends.
#![tactic(auto)]

mod boards;
mod conns;
mod events;
mod jobs;
mod links;
mod mirrors;
mod over;
mod plans;
mod rolls;
mod said;
mod sessions;
mod stores;
mod sweep;

use std::io::Write;
use std::process::ExitCode;
use std::{env, fs, io};

fn main(rt: HostRuntime) -> io::Result<ExitCode> {
    let alloc = rt.alloc();
    let given: Vec<String> = env::args(&rt)?.collect(alloc)?;
    let mut words = Vec::new(alloc);
    for word in &given {
        words.push(word.as_str())?;
    }
    let is_right = match words.as_slice() {
        [_, "sweep"] => sweep::sweep(&rt, alloc, None)?,
        [_, "sweep", name] => sweep::sweep(&rt, alloc, Some(*name))?,
        [own, "keep", path] => fs::copy(&rt, *own, *path)? > 0,
        _ => {
            eprintln!(rt; "usage: memory_sweep sweep [NAME] | keep PATH")?;
            return Ok(ExitCode::from(2));
        }
    };
    Ok(if is_right {
        ExitCode::SUCCESS
    } else {
        ExitCode::FAILURE
    })
}
