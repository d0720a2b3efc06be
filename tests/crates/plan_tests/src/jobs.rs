//! The jobs `recon`, `plan` and `check` over readers that give a byte at a time and writers that take one, and that fail at
//! each read and each write in turn. What the jobs write of texts is tried by runs of the program (`tests/texts.py`).

use mirror_run::{LineFault, Refusal, run_recon};
use plan_run::{run_check, run_plan};
use std::alloc::Global;
use std::io;
use std::io::{ErrorKind, Read, Write};
use std::test::Fail;

/// Gives its bytes one by one, and fails at a read if it is told to.
#[derive(Drop)]
struct Slow<'a> {
    rest: &'a [u8],
    reads: u64,
    fails_at: u64,
}

impl Read for Slow<'_> {
    fn read(&mut self, buf: &mut [u8]) -> io::Result<usize> {
        self.reads = self.reads.saturating_add(1);
        if self.reads == self.fails_at {
            return Err(io::Error::from(ErrorKind::BrokenPipe));
        }
        if self.rest.is_empty() || buf.is_empty() {
            return Ok(0);
        }
        buf[0] = self.rest[0];
        self.rest = &self.rest[1..];
        Ok(1)
    }
}

/// Takes one byte at a write, and fails at one if it is told to.
#[derive(Drop)]
struct Narrow {
    taken: Vec<u8>,
    flushed: usize,
    writes: u64,
    fails_at: u64,
}

impl Write for Narrow {
    fn write(&mut self, buf: &[u8]) -> io::Result<usize> {
        self.writes = self.writes.saturating_add(1);
        if self.writes == self.fails_at {
            return Err(io::Error::from(ErrorKind::BrokenPipe));
        }
        if buf.is_empty() {
            return Ok(0);
        }
        self.taken.push(buf[0])?;
        Ok(1)
    }

    fn flush(&mut self) -> io::Result<()> {
        self.flushed = self.taken.len();
        Ok(())
    }
}

const LISTS: &str =
    "mine\n11 bbbbbbbbbbbbbbbbbbbbbbbbbbbbbbbbbbbbbbbbbbbbbbbbbbbbbbbbbbbbbbbb\ntheirs\n";

const FOUND: &str =
    "ask 6100000201bbbbbbbbbbbbbbbbbbbbbbbbbbbbbbbbbbbbbbbbbbbbbbbbbbbbbbbbbbbbbbbb\nreply 6100000200\nneed 0\nhave 1\n- bbbbbbbbbbbbbbbbbbbbbbbbbbbbbbbbbbbbbbbbbbbbbbbbbbbbbbbbbbbbbbbb\ntrusted 0\n";

const PLAN: &str =
    "nostr-plan 1\noffer 0a0a0a0a0a0a0a0a0a0a0a0a0a0a0a0a0a0a0a0a0a0a0a0a0a0a0a0a0a0a0a0a 0\ngive 0a0a0a0a0a0a0a0a0a0a0a0a0a0a0a0a0a0a0a0a0a0a0a0a0a0a0a0a0a0a0a0a 0\ngroup 0\n";

/// A job, what it reads, and what it writes of that.
#[derive(Clone, Copy)]
enum Job {
    Recon,
    Plan,
    Check,
}

impl Job {
    fn input(self) -> &'static str {
        match self {
            Job::Recon => LISTS,
            Job::Plan | Job::Check => PLAN,
        }
    }

    fn output(self) -> &'static str {
        match self {
            Job::Recon => FOUND,
            Job::Plan => PLAN,
            Job::Check => "least 1\n",
        }
    }
}

/// Runs a job on its input, where that read and that write fail; none does for 0.
fn ran(alloc: Global, job: Job, read: u64, write: u64) -> (Result<(), Refusal>, Narrow) {
    let mut reader = Slow {
        rest: job.input().as_bytes(),
        reads: 0,
        fails_at: read,
    };
    let mut writer = Narrow {
        taken: Vec::new(alloc),
        flushed: 0,
        writes: 0,
        fails_at: write,
    };
    let done = match job {
        Job::Recon => run_recon(alloc, &mut reader, &mut writer, 4_096),
        Job::Plan => run_plan(alloc, &mut reader, &mut writer),
        Job::Check => run_check(alloc, &mut reader, &mut writer),
    };
    (done, writer)
}

/// Whether a run in which nothing fails writes all of the job's output, and flushes it.
fn is_whole(alloc: Global, job: Job) -> bool {
    let (done, writer) = ran(alloc, job, 0, 0);
    done.is_ok()
        && writer.flushed == writer.taken.len()
        && writer.taken.as_slice() == job.output().as_bytes()
}

/// Whether each read that fails is told, with nothing written.
fn tells_each_read(alloc: Global, job: Job) -> bool {
    for read in 1..job.input().len() as u64 + 2 {
        let (done, writer) = ran(alloc, job, read, 0);
        if !matches!(done, Err(Refusal::Read)) || !writer.taken.is_empty() {
            return false;
        }
    }
    true
}

/// Whether each write that fails is told.
fn tells_each_write(alloc: Global, job: Job) -> bool {
    for write in 1..job.output().len() as u64 + 1 {
        let (done, _writer) = ran(alloc, job, 0, write);
        if !matches!(done, Err(Refusal::Write)) {
            return false;
        }
    }
    true
}

#[test]
fn reads_and_writes_fail_in_turn(rt: HostRuntime) -> Result<(), Fail> {
    for job in [Job::Recon, Job::Plan, Job::Check] {
        assert!(rt; is_whole(rt.alloc(), job));
        assert!(rt; tells_each_read(rt.alloc(), job));
        assert!(rt; tells_each_write(rt.alloc(), job));
    }
    Ok(())
}

/// Refusals that no text reaches.
#[test]
fn texts_of_refusals(rt: HostRuntime) -> Result<(), Fail> {
    for (refusal, want) in [
        (
            Refusal::Line(1_000_002, LineFault::Full),
            "line 1000002: full",
        ),
        (Refusal::Session(4), "session 4"),
        (Refusal::Memory, "memory"),
    ] {
        assert_eq!(rt; format!(in rt.alloc(); "{refusal}")?.as_str(), want);
    }
    Ok(())
}
