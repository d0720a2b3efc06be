#!/usr/bin/env python3
"""Runs `nostr-mirror` with words that name a job and with words that name none, and compares what it writes.

    tests/words.py [PATH]      (PATH of the program; else the proved build)
"""
import re
import subprocess

from told import program, same

ABOUT = "A proved mirror relay for Nostr\n\nUsage: nostr-mirror <COMMAND>\n"
MORE = "\n\nFor more information, try '--help'.\n"
USAGE = "\n\nUsage: nostr-mirror <COMMAND>" + MORE
RECON_USAGE = MORE + "\nUsage: nostr-mirror recon [OPTIONS]\n"

# Words that name no job, and how the text begins and ends that the Rust crate `clap` 4.5 tells of them; behind a
# fault of the limit stands how `recon` is used.
REFUSED = [
    ("", "error: 'nostr-mirror' requires a subcommand but one was not provided\n"
         "  [subcommands: recon, plan, check, serve, sync, mirror, help]", USAGE),
    ("--help", ABOUT, ""),
    ("-h", ABOUT, ""),
    ("help", ABOUT, ""),
    ("recon --help", "Compares two lists", ""),
    ("recon more", "error: unexpected argument 'more' found", ""),
    ("--limit 5000 recon", "error: unexpected argument '--limit' found", USAGE),
    ("--limit 5", "error: unexpected argument '--limit' found", USAGE),
    ("recon --limit", "error: a value is required for '--limit <N>' but none was supplied", RECON_USAGE),
    ("recon --limit 5", "error: invalid value '5' for '--limit <N>': 5 is not in 4096..=1048576", RECON_USAGE),
    ("recon --limit 4095", "error: invalid value '4095'", RECON_USAGE),
    ("recon --limit 1048577", "error: invalid value '1048577'", RECON_USAGE),
    ("recon --limit -5000", "error: unexpected argument '-5' found", ""),
    ("recon --limit 5000x", "error: invalid value '5000x'", RECON_USAGE),
    ("recon --limit 5000 --limit 5000", "error: the argument '--limit <N>' cannot be used multiple times", ""),
    ("plan --limit 5000", "error: unexpected argument '--limit' found", ""),
    ("plan --help", "Shares out the offers", ""),
    ("plan check", "error: unexpected argument 'check' found", ""),
    ("check --least", "error: unexpected argument '--least' found", ""),
    ("help plan", "Shares out the offers", ""),
    ("serve", "error: the following required arguments were not provided:\n  <SETTINGS>\n", ""),
    ("sync a b", "error: unexpected argument 'b' found", ""),
    ("serve --progress a", "error: unexpected argument '--progress' found", ""),
    ("help nothing", "error: unrecognized subcommand 'nothing'", ""),
    ("Recon", "error: unrecognized subcommand 'Recon'", ""),
    ("recon --version", "error: unexpected argument '--version' found", ""),
]

ID = "a" * 64

# Words, an input, the status, and what is written of it, on standard output and on standard error.
JOBS = [
    ("recon", "mine\ntheirs\n", 0, "ask 6100000200\nreply 6100000200\nneed 0\nhave 0\ntrusted 0\n", ""),
    ("plan", "nostr-plan 1\noffer %s 1\ngroup\n" % ID, 0,
     "nostr-plan 1\noffer %s 1\ngive %s 1\ngroup 1\n" % (ID, ID), ""),
    ("check", "nostr-plan 1\noffer %s 1\ngive %s 1\ngroup 1\n" % (ID, ID), 0, "least 1\n", ""),
    ("recon", "nostr-plan 1\n", 1, "", "refused: line 1: form\n"),
    ("plan", "mine\n", 1, "", "refused: line 1: form\n"),
    ("check", "nostr-plan 1\noffer %s 1\ngroup\n" % ID, 1, "", "refused: plan 4\n"),
]


def ran(path, words, given=b""):
    """The status of a run with these words, and what it wrote."""
    done = subprocess.run([path, *words], input=given, capture_output=True, timeout=60, check=False)
    return done.returncode, done.stdout.decode(), done.stderr.decode()


def words_that_name_none(path):
    for line, front, back in REFUSED:
        status, out, told = ran(path, line.split(), b"mine\n")
        same((line, status, out, told.startswith(front), told.endswith(back)), (line, 2, "", True, True))


def the_version(path):
    """And the revision, where the program is built of an archive of the sources."""
    status, out, told = ran(path, ["--version"])
    same((status, out, bool(re.fullmatch(r"nostr-mirror 0\.2\.0( [0-9a-f]{7,40})?\n", told))), (2, "", True))


def words_that_are_no_text(path):
    told = "error: invalid UTF-8 was detected in one or more arguments" + USAGE
    same(ran(path, [b"pl\xffn"], b"mine\n"), (2, "", told))


def each_job_through_its_words(path):
    for line, given, *wanted in JOBS:
        same(ran(path, line.split(), given.encode()), tuple(wanted))


def main():
    path = program()
    for part in (words_that_name_none, the_version, words_that_are_no_text, each_job_through_its_words):
        part(path)
        print(part.__name__.replace("_", " "))


if __name__ == "__main__":
    main()
