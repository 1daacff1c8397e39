"""What the reader of mails says of mails and boxes that are made from seeds, and of texts that gpg signed. What is true
of each is known from how it was made; tests/support/made_mails.py makes more of them, and names a seed that differs."""
import base64
import os
import shutil
import subprocess
import tempfile
import unittest
from collections import Counter
from functools import cache
from pathlib import Path

from tests.support.case import Case
from tests.support.made_boxes import box_differences
from tests.support.made_heads import Head, another_than_by
from tests.support.made_mails import differences, made, mails_in, outcome
from tests.support.made_parts import boundary_of, shows_other_armour, text_leaf
from tests.support.made_texts import (
    BEGIN, END, GPG_ALONE, SIGNATURE, SIGNATURE_END, SIGNED, UNCLEAR, Ballot, Luck, Reason, Text, made_form, made_text,
    not_signed, post)
from tests.support.made_trees import Maker

SEEDS = range(1, 2_001)
BOXES = range(1, 201)
SIGNATURES = 40


class MadeMails(Case):
    """Each mail has a seed: python3 -m tests.support.made_mails --count 1 --seed SEED --show prints its bytes."""

    def test_each_mail_is_read_or_refused_as_it_was_made(self):
        path = self.folder() / "mail"
        for mail in all_mails():
            seed = mail.seed
            if found := differences(mail, path):
                with self.subTest(seed=seed, kinds=sorted(mail.kinds)):
                    self.fail(f"the mail of seed {seed}: " + "; ".join(found))

    def test_each_box_gives_its_mails_and_names_what_it_passes_over(self):
        for seed in BOXES:
            found, kinds = box_differences(seed, self.folder())
            if found:
                with self.subTest(seed=seed, kinds=sorted(kinds)):
                    self.fail(f"the box of seed {seed}: " + "; ".join(found))

    def test_the_mails_are_of_many_kinds_and_have_all_outcomes(self):
        kinds, outcomes = Counter(), Counter()
        for mail in all_mails():
            kinds.update(mail.kinds)
            outcomes[of_made(mail)] += 1
        self.assertGreaterEqual(len(kinds), 250, kinds)
        for name in "read", "read, signed", "refused", "changed":
            self.assertGreaterEqual(outcomes[name], 120, outcomes)

    def test_a_seed_gives_one_mail(self):
        self.assertEqual([made(seed) for seed in range(1, 30)], [made(seed) for seed in range(1, 30)])


class Truths(Case):
    """What is known of a mail is true, also of what few seeds make."""

    def test_a_file_may_show_other_armour_than_a_text_in_quoted_printable_has(self):
        whole = f"{SIGNED}\n\nx\n{SIGNATURE}\n\niHUE\n=abcd\n{SIGNATURE_END}\n".encode()
        encoded = whole.replace(b"\n=abcd", b"\n=3Dabcd")
        for body in encoded, encoded.replace(b"\n", b"\r\n"), encoded.replace(b"-----", b"=2D----"):
            with self.subTest(body=body):
                self.assertFalse(shows_other_armour(body, whole))
        for change in (b"BEGIN PGP SIGNED", b"=42EGIN PGP SIGNED"), (b"iHUE", b"=69HUE"), (b"iHUE", b"iH=\nUE"):
            with self.subTest(change=change):
                self.assertTrue(shows_other_armour(encoded.replace(*change), whole))
        self.assertTrue(shows_other_armour(b"x=\n" + SIGNATURE.encode() + b"\n", b"x" + SIGNATURE.encode() + b"\n"))

    def test_a_hyphen_in_a_form_that_is_not_unescaped_changes_its_option(self):
        for line, faults in ("- Red", {Reason.OPTION}), ("Red", set()):
            text = Text(["- me", BEGIN, "[ 1 ] Choice 1:", line, END, "- x"], [Ballot("1", None)])
            with self.subTest(line=line):
                self.assertEqual(not_signed(Luck(1), text, "\u00a0").ballots, [Ballot("1", None, faults=faults)])

    def test_a_mark_before_armour_remains_whatever_the_charset_is_said_to_be(self):
        marked = 0
        for seed in range(2_000):
            text = Text([SIGNED, "", "x", SIGNATURE, SIGNATURE_END], pieces=[Text(["x"])])
            leaf = text_leaf(Luck(seed), text, b"\n", is_odd=True)
            if text.faults:
                marked += 1
                self.assertEqual(text.faults, UNCLEAR)
                self.assertTrue(leaf.body.startswith((b"\xef\xbb\xbf", b"=EF", b"77u/")), leaf.body)
        self.assertGreaterEqual(marked, 10)

    def test_no_word_before_a_host_is_by_but_those_that_are_meant(self):
        self.assertEqual([*map(another_than_by, ("bY", "By", "by1", "b"))], ["bYx", "Byx", "by1", "b"])

    def test_no_two_boundaries_of_a_mail_are_one(self):
        for seed in range(200):
            luck, found = Luck(seed), ["b"]
            while len(found) < 40:
                found.append(boundary_of(luck, *found))
            self.assertEqual(len(set(found)), len(found))

    def test_what_is_like_a_boundary_is_none_of_another_part(self):
        alike = 0
        for seed in range(1_000):
            maker = Maker(Luck(seed), None, b"\n", Head())
            nodes = [maker.multi() for _ in range(60)]
            marks = {f"--{boundary}" for boundary in maker.boundaries}
            for node in nodes:
                found = {line for line in node.preamble.lines if line.startswith(f"--{node.boundary}")}
                alike += len(found)
                self.assertFalse(found & marks)
        self.assertGreaterEqual(alike, 1_000)


@cache
def all_mails():
    return [made(seed) for seed in SEEDS]


def of_made(mail):
    """What must come of a mail, in a word."""
    if mail.verdict is None:
        return "changed"
    filled = [ballot for ballot in mail.verdict.ballots if ballot.is_filled]
    if mail.verdict.must or len(filled) != 1 or any(ballot.faults for ballot in mail.verdict.ballots):
        return "refused"
    return "read, signed" if mail.verdict.is_signed else "read"


# What follows gpg's own words.


@unittest.skipUnless(shutil.which("gpg") and shutil.which("gpgv"), "gpg or gpgv is not installed")
class RealSignatures(Case):
    """Texts that gpg signs with a key of its own, which is gone after the tests."""

    @classmethod
    def setUpClass(cls):
        # The path of an agent's socket has few characters.
        cls.home = Path(tempfile.mkdtemp(prefix="g", dir="/tmp"))
        cls.addClassCleanup(shutil.rmtree, cls.home, ignore_errors=True)
        cls.addClassCleanup(cls.end_agent)
        cls.home.chmod(0o700)
        cls.gpg("--quick-generate-key", "A Voter <d1@example.org>", "ed25519", "sign", "never")
        (cls.home / "key.gpg").write_bytes(cls.gpg("--export"))

    @classmethod
    def end_agent(cls):
        subprocess.run(["gpgconf", "--kill", "all"], env={**os.environ, "GNUPGHOME": str(cls.home)}, check=False)

    @classmethod
    def gpg(cls, *words, given=b""):
        line = ["gpg", "--homedir", str(cls.home), "--batch", "--quiet", "--pinentry-mode", "loopback",
                "--passphrase", "", *words]
        ran = subprocess.run(line, input=given, capture_output=True, check=False)
        if ran.returncode:
            raise AssertionError(f"{words} ends with status {ran.returncode}: {ran.stderr.decode(errors='replace')}")
        return ran.stdout

    @classmethod
    def verified(cls, path):
        """What gpgv prints of a file with a good signature, or None."""
        line = ["gpgv", "--keyring", str(cls.home / "key.gpg"), "--output", "-", str(path)]
        ran = subprocess.run(line, capture_output=True, check=False)
        return ran.stdout if ran.returncode == 0 else None

    def compare(self, content, form, what):
        """Fails if gpgv takes another text of a file than the reader. Gives what each makes of it."""
        path = self.folder() / "mail"
        path.write_bytes(content)
        taken = self.verified(path)
        mail, = mails_in(path)
        said = outcome(mail, form)
        if taken is not None and not isinstance(said, str):
            with self.subTest(what=what, content=content):
                self.assertTrue(said[2], f"gpgv finds a good signature, and the reader reads what is unsigned: {said}")
                self.assertEqual(bare(mail.written().text.encode()), bare(taken))
        return taken, said

    def test_what_is_read_as_signed_is_what_gpgv_gives(self):
        outcomes = Counter()
        for seed in range(SIGNATURES):
            luck = Luck(f"signature {seed}")
            form = made_form(luck)
            text = "\n".join([*made_text(luck, form).lines, ""])
            signed = self.gpg("--clear-sign", given=text.encode())
            head = luck.choice([b"", b"From: x\n\n", b"From: x\nContent-Type: text/plain; charset=utf-8\n\n",
                                b"From: x\nContent-Transfer-Encoding: 8bit\n\nAbove\n\n"])
            content = head + luck.choice([signed, signed + b"\nBelow\n", signed.replace(b"\n", b"\r\n")])
            taken, said = self.compare(content, form, f"signature {seed}")
            outcomes[taken is not None, not isinstance(said, str)] += 1
        self.assertGreaterEqual(outcomes[True, True], SIGNATURES // 4, outcomes)
        self.assertGreaterEqual(outcomes[True, False] + outcomes[True, True], SIGNATURES * 3 // 4, outcomes)

    def test_an_old_post_lets_no_other_form_be_read(self):
        luck = Luck("an old post")
        form = made_form(luck)
        filled = "\n".join([*form.lines()[:2], *[f"[ 1 ] {form.option(place)}" for place in form.places], "Token:",
                            form.lines()[-1], ""]).encode()
        old = "\n".join([*post(luck).lines, ""]).encode()
        signed, message = self.gpg("--clear-sign", given=old), self.gpg("--sign", "--armor", given=old)
        taken = 0
        for name, content in [*hostile_mails(filled, signed), *hostile_files(filled, message)]:
            verified, said = self.compare(content, form, name)
            taken += verified is not None
            with self.subTest(name=name):
                self.assertIsInstance(said, str, f"{name}: it is read, {said}")
        self.assertGreaterEqual(taken, 15, "of so many gpgv finds a good signature")


def bare(content):
    """Lines without the blanks at their ends, and without empty ones at the end of all."""
    return [line.rstrip(b" \t\r") for line in content.rstrip(b"\r\n \t").split(b"\n")]


HEAD = b"From: d1@example.org\nMessage-ID: <1@x>\n"
MIXED = HEAD + b"Content-Type: multipart/mixed; boundary=b\n\n"
PLAIN, FILE = (b"--b\nContent-Type: %s\n\n" % kind for kind in (b"text/plain", b"application/octet-stream"))


def hostile_files(filled, message):
    """Mails with a form, and with a signed message under each of the names that gpg takes for one."""
    names = "MESSAGE", "SIGNATURE", "ARMORED FILE", "PUBLIC KEY BLOCK", "PRIVATE KEY BLOCK", "SECRET KEY BLOCK"
    for name in names:
        file = message.replace(b"PGP MESSAGE", b"PGP " + name.encode())
        yield f"a message as {name} in an attachment", MIXED + PLAIN + filled + FILE + file + b"--b--\n"
        yield f"a message as {name} below a form", filled + b"\n" + file


def hostile_mails(filled, signed):
    """Mails with the signed post of somebody else and a form that this one did not sign."""
    armour = [SIGNED.encode(), SIGNATURE.encode(), SIGNATURE_END.encode()]
    fake = b"\n".join([armour[0], b"Hash: SHA512", b"", filled + armour[1], b"", b"iHUEARYKAB0=", armour[2], b""])
    for odd in "\u00a0", "\u2003", "\x0b", "\x0c", "\x85", "\u2028":
        spoiled = fake
        for line in armour:
            spoiled = spoiled.replace(line, line + odd.encode())
        yield f"armour with {odd!r} around a form", spoiled + b"\n" + signed
    for odd in ("", *GPG_ALONE):
        hidden = signed
        for line in armour:
            hidden = hidden.replace(line, line + odd.encode())
        yield f"a post with {odd!r} below a form", filled + b"\n" + hidden
        yield f"a post with {odd!r} in an attachment", MIXED + PLAIN + filled + FILE + hidden + b"--b--\n"
        yield f"a post with {odd!r} in a preamble", MIXED + hidden + PLAIN + filled + b"--b--\n"
        yield f"a post with {odd!r} in an epilogue", MIXED + PLAIN + filled + b"--b--\n" + hidden
    digits = base64_of(fake)
    yield "a post behind the digits of base64", HEAD + b"Content-Transfer-Encoding: base64\n\n" + digits + signed
    lines = signed
    for line in armour:
        lines = lines.replace(line, b"x=\n" + line)
    quoted = fake.replace(b"-----", b"=2D----")
    yield "a post behind quoted-printable", HEAD + b"Content-Transfer-Encoding: quoted-printable\n\n" + quoted + lines


def base64_of(content):
    """Digits with a padding at their end, behind which nothing is decoded."""
    return base64.b64encode(content + b"\n" * (1 + (-len(content) - 2) % 3)) + b"\n"
