#!/usr/bin/env python3
"""Runs `recon`, `plan` and `check` over texts, and compares all that they write.

    tests/texts.py [PATH]      (PATH of the program; else the proved build)
"""
import os
import subprocess

from told import ROOT, program, same

IDS = {letter: letter * 64 for letter in "abcde"}

LONGEST = 67_108_864

# Inputs of `recon`, and what is told of them; nothing where they are taken. A letter behind a time stands for 64 of it.
LISTS = [
    ("", "line 1: form"),
    ("\n", "line 1: form"),
    ("mine", "line 2: form"),
    ("mine\n", "line 2: form"),
    ("theirs\n", "line 1: form"),
    ("mine\nmine\n", "line 2: form"),
    ("mine\ntheirs\n\n", "line 3: form"),
    ("mine\ntheirs\ntheirs\n", "line 3: form"),
    ("mine \ntheirs\n", "line 1: form"),
    ("mine\r\ntheirs\n", "line 1: form"),
    ("mine\n01 a\ntheirs\n", "line 2: form"),
    ("mine\n1  a\ntheirs\n", "line 2: form"),
    ("mine\n1 a \ntheirs\n", "line 2: form"),
    ("mine\n-1 a\ntheirs\n", "line 2: form"),
    ("mine\n+1 a\ntheirs\n", "line 2: form"),
    ("mine\n1 " + "A" + "a" * 63 + "\ntheirs\n", "line 2: form"),
    ("mine\n1 " + "a" * 63 + "\ntheirs\n", "line 2: form"),
    ("mine\n1 " + "a" * 65 + "\ntheirs\n", "line 2: form"),
    ("mine\n 1 a\ntheirs\n", "line 2: form"),
    ("mine\n1\t" + "a" * 64 + "\ntheirs\n", "line 2: form"),
    ("mine\n a\ntheirs\n", "line 2: form"),
    ("mine\n18446744073709551616 a\ntheirs\n", "line 2: form"),
    ("mine\n99999999999999999999 a\ntheirs\n", "line 2: form"),
    ("mine\n1 a\n1 b", "line 4: form"),
    ("mine\n1 a\n1 a\ntheirs\nx", "line 5: form"),
    ("mine\n18446744073709551615 a\ntheirs\n", "line 2: infinity"),
    ("mine\ntheirs\n18446744073709551615 a\n", "line 3: infinity"),
    ("mine\n1 a\n2 a\n1 a\ntheirs\n", "line 4: present"),
    ("mine\n1 a\ntheirs\n1 b\n1 b\n", "line 5: present"),
    ("mine\n1 a\n1 a\n18446744073709551615 a\ntheirs\n", "line 3: present"),
    ("mine\n1 a\n18446744073709551615 a\n1 a\ntheirs\n", "line 3: infinity"),
    ("mine\ntheirs", ""),
    ("mine\ntheirs\n", ""),
    ("mine\n0 a\ntheirs\n", ""),
    ("mine\n18446744073709551614 a\ntheirs\n", ""),
    ("mine\n1 a\n2 a\ntheirs\n2 a", ""),
]

# Messages of two lists of which one is empty and the other has 400 items, where none is longer than 4,096 bytes: how a line
# begins, and how many bytes its message has.
CUT = [
    ("ask 6100000200", 5),
    ("reply 617d00027c", 3_992),
    ("ask 617d000000000200", 8),
    ("reply 617d00007b00027a", 3_931),
    ("ask 618177000000000200", 9),
    ("reply 61817700007b00027a", 3_932),
    ("ask 618271000000000200", 9),
    ("reply 618271000000000220", 1_033),
]

# Lines of offers, the gives and the group that are planned for them, and what the plan's busiest relay has.
PLANS = [
    ("1", [], ["group"], 0),
    ("1", ["offer a 0", "offer b 0", "offer c 0", "offer d 0 1"], ["give a 0", "give b 0", "give c 0", "give d 1", "group 0"], 3),
    ("1", ["offer a 0", "offer b 0 1", "offer c 1 2"], ["give a 0", "give b 1", "give c 2", "group 0 1 2"], 1),
    ("1", ["offer a 63", "offer b 0"], ["give a 63", "give b 0", "group 0 63"], 1),
    ("2", ["base 0 2", "offer a 0 1"], ["give a 1", "group 0"], 2),
    ("2", ["base 7 9"], ["group 7"], 9),
    ("2", ["base 0 5", "base 255 1", "offer a 0 1", "offer b 0 255"], ["give a 1", "give b 255", "group 0"], 5),
]

# The same where several sharings are least: the group alone is told.
CHOICES = [
    ("1", ["offer a 0 1 2"], "group 0 1 2", 1),
    ("1", ["offer a 0 1", "offer b 0 1", "offer c 0 1", "offer d 0 1", "offer e 1 2"], "group 0 1", 2),
    ("2", ["base 0 2", "offer a 0 1", "offer b 0 1", "offer c 0 1"], "group 0 1", 3),
]

# Lines of a plan of version 2, and what `check` tells.
OVER_BASES = [
    (["base 0 2", "offer a 0 1", "give a 1", "group 1"], "plan 6"),
    (["base 0 2", "offer a 0 1", "give a 1", "group"], "plan 6"),
    (["base 7 9", "group"], "plan 6"),
]

# Gives and groups for the offers `a 0`, `b 0 1`, `c 1 2`, and what `check` tells.
CHECKS = [
    (["give a 0", "give b 1", "give c 2", "group 0 1 2"], "least 1"),
    (["give a 0", "give b 0", "give c 2", "group 0 1 2"], "plan 6"),
    (["give a 0", "give c 2", "group 0 1 2"], "plan 4"),
    (["give a 0", "give b 1", "give c 0", "group 0 1 2"], "plan 3"),
    (["give a 0", "give b 1", "give c 2", "give d 0", "group 0 1 2"], "plan 5"),
    (["give b 1", "give a 0", "give c 2", "group 0 1 2"], "line 6: order"),
    (["give a 0", "give b 1", "give c 2", "group"], "plan 6"),
]

# Texts that are no plan texts. Each of A to E stands for the id that repeats the byte 0a to 0e, Z for the first in upper case.
NO_PLANS = [
    ("", "line 1: form"),
    ("\n", "line 1: form"),
    ("nostr-plan 1", "line 1: form"),
    ("nostr-plan 1 \ngroup\n", "line 1: form"),
    ("nostr-plan 1\r\ngroup\n", "line 1: form"),
    ("nostr-plan 0\ngroup\n", "line 1: form"),
    ("nostr-plan 3\ngroup\n", "line 1: form"),
    ("nostr-plan 2\ngroup\n", "line 2: form"),
    ("nostr-plan 2\n", "line 2: form"),
    ("nostr-plan 2\nbase 0 0\ngroup\n", "line 2: form"),
    ("nostr-plan 2\nbase 0 01\ngroup\n", "line 2: form"),
    ("nostr-plan 2\nbase 256 1\ngroup\n", "line 2: form"),
    ("nostr-plan 2\nbase 0\ngroup\n", "line 2: form"),
    ("nostr-plan 2\nbase 0 1 1\ngroup\n", "line 2: form"),
    ("nostr-plan 2\nbase 0 1000000000001\ngroup\n", "line 2: form"),
    ("nostr-plan 2\nbase 0 18446744073709551617\ngroup\n", "line 2: form"),
    ("nostr-plan 2\nbase 0 1\nbase 1 0\ngroup\n", "line 3: form"),
    ("nostr-plan 2\nbase 0 1\n", "line 3: form"),
    ("nostr-plan 2\nbase 0 1\ngroup\nbase 1 1\n", "line 4: form"),
    ("nostr-plan 1\nbase 0 1\ngroup\n", "line 2: form"),
    ("group\n", "line 1: form"),
    ("nostr-plan 1\n", "line 2: form"),
    ("nostr-plan 1\ngroup", "line 2: form"),
    ("nostr-plan 1\ngroup \n", "line 2: form"),
    ("nostr-plan 1\n group\n", "line 2: form"),
    ("nostr-plan 1\nGroup\n", "line 2: form"),
    ("nostr-plan 1\ngroups\n", "line 2: form"),
    ("nostr-plan 1\ngroup 0 \n", "line 2: form"),
    ("nostr-plan 1\ngroup 0  1\n", "line 2: form"),
    ("nostr-plan 1\ngroup\t0\n", "line 2: form"),
    ("nostr-plan 1\ngroup 00\n", "line 2: form"),
    ("nostr-plan 1\ngroup 07\n", "line 2: form"),
    ("nostr-plan 1\ngroup +1\n", "line 2: form"),
    ("nostr-plan 1\ngroup 256\n", "line 2: form"),
    ("nostr-plan 1\ngroup 99999999999999999999\n", "line 2: form"),
    ("nostr-plan 1\ngroup 1a\n", "line 2: form"),
    ("nostr-plan 1\ngroup\n\n", "line 3: form"),
    ("nostr-plan 1\ngroup\ngroup\n", "line 3: form"),
    ("nostr-plan 1\ngroup\nx", "line 3: form"),
    ("nostr-plan 1\nnostr-plan 1\ngroup\n", "line 2: form"),
    ("nostr-plan 1\noffer A 0\n", "line 3: form"),
    ("nostr-plan 1\noffer A 0", "line 2: form"),
    ("nostr-plan 1\noffer A\ngroup\n", "line 2: form"),
    ("nostr-plan 1\noffer A \ngroup\n", "line 2: form"),
    ("nostr-plan 1\noffer  A 0\ngroup\n", "line 2: form"),
    ("nostr-plan 1\noffer Z 0\ngroup\n", "line 2: form"),
    ("nostr-plan 1\noffer A0 0\ngroup\n", "line 2: form"),
    ("nostr-plan 1\noffer 0a 0\ngroup\n", "line 2: form"),
    ("nostr-plan 1\ngive A 0 1\ngroup\n", "line 2: form"),
    ("nostr-plan 1\ngive A\ngroup\n", "line 2: form"),
    ("nostr-plan 1\ngive A 0\noffer A 0\ngroup\n", "line 3: form"),
    ("nostr-plan 1\noffer A 0\ngroup\ngive A 0\n", "line 4: form"),
    ("nostr-plan 1\noffer A 0\ngive A 0\n", "line 4: form"),
    ("nostr-plan 1\noffer B 0\noffer A 0\ngroup 256\n", "line 4: form"),
    ("nostr-plan 2\nbase 1 1\nbase 0 1\ngroup\n", "line 3: order"),
    ("nostr-plan 2\nbase 1 1\nbase 1 2\noffer A 1 0\ngroup\n", "line 3: order"),
    ("nostr-plan 2\nbase 10 1\nbase 9 1\ngroup 2 1\n", "line 3: order"),
    ("nostr-plan 2\nbase 0 1\noffer A 1 0\ngroup\n", "line 3: order"),
    ("nostr-plan 1\noffer A 1 0\ngroup\n", "line 2: order"),
    ("nostr-plan 1\noffer A 9 10 2\ngroup\n", "line 2: order"),
    ("nostr-plan 1\noffer A 0 0\ngroup\n", "line 2: order"),
    ("nostr-plan 1\noffer B 0\noffer A 0\ngroup\n", "line 3: order"),
    ("nostr-plan 1\noffer A 0\noffer A 0\ngroup\n", "line 3: order"),
    ("nostr-plan 1\noffer A 0\ngive B 0\ngive B 0\ngroup\n", "line 4: order"),
    ("nostr-plan 1\noffer A 0\ngroup 2 1\n", "line 3: order"),
    ("nostr-plan 1\noffer A 0\ngive B 0\ngive A 0\ngroup 2 1\n", "line 4: order"),
    ("nostr-plan 1\ngroup\udcff\n", "not UTF-8"),
    ("n" * (LONGEST + 1), "input too long"),
]

LETTERS = {letter: "0" + letter.lower() for letter in "ABCDE"} | {"Z": "0A"}


def ran(path, words, text):
    """The status of a run over that text, what it wrote, and what it told."""
    given = text.encode("utf-8", "surrogateescape")
    done = subprocess.run([path, *words.split()], input=given, capture_output=True, timeout=120, check=False)
    return done.returncode, done.stdout.decode(), done.stderr.decode()


def refused(path, words, text, fault):
    same((text[:200], *ran(path, words, text)), (text[:200], 1, "", "refused: %s\n" % fault))


def whole(line):
    """The line with each letter of an id, a word by itself, in place of which 64 of it stand."""
    return " ".join(IDS.get(word, word) for word in line.split(" "))


def text_of(version, *lines):
    return "".join(whole(line) + "\n" for line in ["nostr-plan " + version, *lines])


def lists_of_every_form(path):
    for text, fault in LISTS:
        text = "\n".join(whole(line) for line in text.split("\n"))
        if fault:
            refused(path, "recon", text, fault)
        else:
            status, out, told = ran(path, "recon", text)
            same((text, status, out.startswith("ask 61"), told), (text, 0, True, ""))
    refused(path, "recon", "mine\n\udcff\ntheirs\n", "not UTF-8")
    refused(path, "recon", "m" * (LONGEST + 1), "input too long")
    refused(path, "recon", "m" * LONGEST, "line 1: form")


def many_ids_in_one_message(path):
    items = [(time, "%064x" % (time * 0x9e3779b97f4a7c15 % 2**64)) for time in range(3_000)]
    text = "mine\ntheirs\n" + "".join("%d %s\n" % item for item in items)
    listed = "".join(digits for _, digits in items)
    wanted = "ask 6100000200\nreply 61000002%s%s\nneed 3000\n" % ("9738", listed)
    wanted += "".join("+ %s\n" % digits for digits in sorted(digits for _, digits in items)) + "have 0\ntrusted 0\n"
    same(ran(path, "recon --limit 1048576", text), (0, wanted, ""))


def messages_within_the_limit(path):
    text = "mine\ntheirs\n" + "".join("%d %064x\n" % (time, time) for time in range(400))
    status, out, told = ran(path, "recon --limit 4096", text)
    lines = out.splitlines()
    same((status, told, lines[len(CUT)]), (0, "", "need 400"))
    for line, (front, length) in zip(lines, CUT):
        same((line.startswith(front), len(line.split(" ")[1])), (True, 2 * length))


def plans_of_a_few_offers(path):
    for version, offers, rest, least in PLANS:
        made = text_of(version, *offers, *rest)
        same(ran(path, "plan", text_of(version, *offers, "group")), (0, made, ""))
        same(ran(path, "check", made), (0, "least %d\n" % least, ""))
    # The gives and the group that are read are forgotten.
    same(ran(path, "plan", text_of("1", "offer a 0", "give a 0", "give c 5", "group 7 9")),
         (0, text_of("1", "offer a 0", "give a 0", "group 0"), ""))
    for version, offers, group, least in CHOICES:
        status, made, told = ran(path, "plan", text_of(version, *offers, "group"))
        same((status, told, made.startswith(text_of(version, *offers)), made.endswith("\n" + group + "\n")), (0, "", True, True))
        same(ran(path, "check", made), (0, "least %d\n" % least, ""))


def the_plan_of_the_readme(path):
    """The example is the plan that is made of it, of which README.md shows a part."""
    with open(os.path.join(ROOT, "examples", "bottleneck.txt")) as file:
        text = file.read()
    same(ran(path, "plan", text), (0, text, ""))
    same(ran(path, "check", text), (0, "least 4\n", ""))


def an_id_that_all_relays_offer(path):
    all_relays = "".join(" %d" % relay for relay in range(256))
    offers = ["offer a" + all_relays, "offer b 9 10"]
    status, made, told = ran(path, "plan", text_of("1", *offers, "group"))
    same((status, told, made.startswith(text_of("1", *offers)), made.count("\n")), (0, "", True, 6))
    same((made.endswith("group" + all_relays + "\n"), ran(path, "check", made)), (True, (0, "least 1\n", "")))
    text = text_of("1", "offer a" + all_relays, "give a 99", "group" + all_relays)
    same(ran(path, "check", text), (0, "least 1\n", ""))


def plans_that_are_wrong(path):
    for rest, wanted in CHECKS:
        text = text_of("1", "offer a 0", "offer b 0 1", "offer c 1 2", *rest)
        if wanted.startswith("least"):
            same(ran(path, "check", text), (0, wanted + "\n", ""))
        else:
            refused(path, "check", text, wanted)
    for lines, fault in OVER_BASES:
        refused(path, "check", text_of("2", *lines), fault)
    for pattern, fault in NO_PLANS:
        text = "".join(LETTERS.get(letter, letter) * (32 if letter in LETTERS else 1) for letter in pattern)
        for job in "plan", "check":
            refused(path, job, text, fault)


def as_many_ids_as_a_table_takes(path):
    offers = ["offer %064x %d %d\n" % (number, number % 32, number % 32 + 32) for number in range(200_001)]
    status, made, told = ran(path, "plan", "nostr-plan 1\n" + "".join(offers[:-1]) + "group\n")
    same((status, told, ran(path, "check", made)), (0, "", (0, "least 3125\n", "")))
    text = "nostr-plan 1\n" + "".join(offers) + "group\n"
    refused(path, "plan", text, "table full")
    refused(path, "check", text, "plan 4")


def reads_and_writes_that_fail(path):
    text = "nostr-plan 1\noffer %s 0\ngive %s 0\ngroup 0\n" % (IDS["a"], IDS["a"])
    for job, given in ("recon", "mine\ntheirs\n"), ("plan", text), ("check", text):
        folder = os.open("/", os.O_RDONLY)
        done = subprocess.run([path, job], stdin=folder, capture_output=True, timeout=60, check=False)
        os.close(folder)
        same((job, done.returncode, done.stdout, done.stderr), (job, 1, b"", b"refused: read\n"))
        with open("/dev/full", "wb") as full:
            done = subprocess.run([path, job], input=given.encode(), stdout=full, stderr=subprocess.PIPE, timeout=60, check=False)
        same((job, done.returncode, done.stderr), (job, 1, b"refused: write\n"))


def main():
    path = program()
    for part in (lists_of_every_form, many_ids_in_one_message, messages_within_the_limit, plans_of_a_few_offers,
                 the_plan_of_the_readme, an_id_that_all_relays_offer, plans_that_are_wrong, as_many_ids_as_a_table_takes,
                 reads_and_writes_that_fail):
        part(path)
        print(part.__name__.replace("_", " "))


if __name__ == "__main__":
    main()
