"""What is known of a mail: whether it is one, when it arrived, from whom it is, by what it is known, and which charset
it is in. Whatever a stranger wrote into it, that mail alone is not read, and soon."""
import base64
import binascii
import random
import re
import sys
import time
from email.mime.application import MIMEApplication
from unittest import mock

from tests.modules.ballots.reading_case import FORM, ReadingCase, line_of, mail_of
from tests.support.ballot_cases import FILLED, LONG, attached_encoded, changed, keys, mail, parts, plain
from tests.support.called import CALLED
from tests.support.program import TOP

sys.path.insert(0, str(TOP / "tools"))
from grdesk.ballots.form_reader import read_form  # noqa: E402
from grdesk.error import NotRead  # noqa: E402
from grdesk.mail_head import ALIASES  # noqa: E402

HOST = "vote.example.org"
DATE = "Thu, 15 Jan 2026 02:00:00 +0000"
AT = CALLED + 2 * 3_600
# What takes longer holds up a run, in seconds of a processor.
SOON = 10
IS_UNUSUAL = "refused the field Content-Type in the mail is unusual, and mail programs read it in different ways"


def received(*values, before="", after="Subject: x"):
    """A mail with these fields Received."""
    head = f"{before}" + "".join(f"Received: {value}\r\n" for value in values) + f"{after}\r\n"
    return mail_of(f"{head}\r\n{FILLED}".encode())


class Arrivals(ReadingCase):
    """When HOST received a mail."""

    def arrived(self, moment, *values, **more):
        with self.subTest(values=values, **more):
            self.assertEqual(received(*values, **more).received(HOST), moment)

    def test_the_field_at_the_top_tells_when_its_host_received_a_mail(self):
        self.arrived(AT, f"from x by {HOST}; {DATE}")
        self.arrived(AT, f"from x (by y)\r\n\tby VOTE.example.org. (Postfix)\r\n\tid 1; {DATE} (UTC)")
        self.arrived(None, f"from x by mx.example.net; {DATE}", f"from x by {HOST}; {DATE}")
        self.arrived(None, f"from x by {HOST}")
        self.arrived(None, f"from x by {HOST}; soon")
        self.arrived(None)

    def test_an_unusual_line_of_the_head_takes_no_arrival_from_it(self):
        for line in "Subject : x", ">From voter@example.org", "   ", "broken", "From x Thu", "\0", "x\u0085y: z":
            for where in "before", "after":
                self.arrived(AT, f"from x by {HOST}; {DATE}", **{where: f"X-First: 1\r\n{line}\r\n"})
        self.arrived(AT, f"from x\r\n \r\n by {HOST}; {DATE}")

    def test_neither_the_helo_of_a_voter_nor_the_address_decides(self):
        for helo in ("by", "by (..)", f"by {HOST}", f"x by {HOST};", f"x by {HOST}; {DATE}", "(by x)", "x)", '"by x"',
                     "<by x>"):
            with self.subTest(helo=helo):
                self.arrived(AT, f"from {helo} ([192.0.2.1]) by {HOST} (Postfix) with SMTP id 1; {DATE}")
                self.arrived(None, f"from {helo} ([192.0.2.1]) by mx.example.net (Postfix) with SMTP id 1; {DATE}")
        for address in (f"<by {HOST}@example.net>", f"<x by {HOST} >", f'<"x> by {HOST} <"@example.net>',
                        f"(by {HOST})",
                        f'"by {HOST}"'):
            self.arrived(None, f"from x by mx.example.net for {address}; {DATE}")
            self.arrived(AT, f"from x by {HOST} for {address.replace(HOST, 'x')}; {DATE}")

    def test_a_comment_or_a_quote_may_have_anything_in_it(self):
        self.arrived(AT, f"from x by {HOST} (a (b) \\) c; by y); {DATE}")
        self.arrived(AT, f'from "a \\" by y; z" by {HOST} ; {DATE}')
        self.arrived(AT, f"from x by {HOST} <a;b>; {DATE} (a;b)")

    def test_one_that_has_no_end_makes_the_field_tell_nothing(self):
        for helo in f"x by {HOST} (", f'x by {HOST} "', f"x by {HOST} <", f"x by {HOST} <<":
            self.arrived(None, f"from {helo} ([192.0.2.1]) by mx.example.net for <d1@example.org>; {DATE}")
            self.arrived(None, f"from {helo} ([192.0.2.1]) by mx.example.net; {DATE}")

    def test_a_mail_that_a_server_wrote_into_says_so_whatever_its_head_is(self):
        for name in "Received:", "RECEIVED:", "Received :":
            for before in "", "broken\r\n", ">From x\r\n", "\r\n", "Subject : x\r\n":
                with self.subTest(name=name, before=before):
                    self.assertTrue(mail_of(f"{before}{name} from x by y; {DATE}\r\n\r\n{FILLED}").has_received)
        self.assertFalse(mail_of(mail(FILLED)).has_received)
        self.assertFalse(mail_of(FILLED).has_received)

    def test_a_date_that_is_none_tells_nothing_and_takes_no_time(self):
        for date in ("", "x", "1" * 1_000_000, "Thu, 99 Jan 2026 02:00:00 +0000", f"{DATE} (",
                     "Thu, 15 Jan 2026 02:00:00"):
            with self.subTest(date=date[:40]):
                self.assertIsNone(mail_of(f"Date: {date}\n\n").date())
        self.assertEqual(mail_of(f"Date: {DATE} (UTC)\n\n").date(), AT)
        self.assertEqual(mail_of("Date: Thu, 15 Jan 2026 02:00:00 -0000\n\n").date(), AT)


class Mails(ReadingCase):
    def test_a_file_with_one_field_of_a_mail_is_one_whatever_stands_beside_it(self):
        for head in "Subject : x", "subject: x", "broken\nDATE: x", ">From x\nTo: y", "From x\n \nReceived: y":
            with self.subTest(head=head):
                self.assertTrue(mail_of(f"{head}\n\n{FILLED}").is_mail)
                self.assertEqual(line_of(f"{head}\n\n{FILLED}"), "ok 21- unsigned")
        for text in FILLED, "", "\nSubject: x\n\n", "X-Note: x\n\n", "> From: x\n\n", "Subject\n\n":
            with self.subTest(text=text):
                self.assertFalse(mail_of(text).is_mail)

    def test_it_is_known_by_its_message_id_if_it_has_one(self):
        known = {
            "Message-ID: <1@x>": "<1@x>",
            "Message-ID:\r\n\t<1@x>": "<1@x>",
            "message-id : <1@x>": "<1@x>",
            "broken\r\nMessage-ID: <1@x>\r\nMessage-Id: <1@x>": "<1@x>",
            "Message-ID: <\xff@x>": "<\ufffd@x>",
        }
        for head, key in known.items():
            with self.subTest(head=head):
                came = mail_of(f"From: x\r\n{head}\r\n\r\n{FILLED}".encode("latin-1"))
                self.assertEqual((came.key(), came.source()["message_id"]), (key, key))
                self.assertEqual(line_of(came.content), "ok 21- unsigned")
        for head in ("Message-ID: <1@x>\r\nMessage-ID: <2@x>", "Message-ID:", "X: y",
                     f"Message-ID: <{'1' * 997}>"):
            with self.subTest(head=head):
                came = mail_of(f"From: x\r\n{head}\r\n\r\n{FILLED}")
                self.assertEqual(list(came.source()), ["sha256"])
                self.assertEqual(came.key(), came.source()["sha256"])

    def test_its_senders_are_the_addresses_in_its_fields_from(self):
        for said, senders in {
            "D1@Example.org": ["d1@example.org"],
            "The Name <d1@example.org>": ["d1@example.org"],
            '"d2@example.org" <d1@example.org>': ["d1@example.org"],
            "(d2@example.org) d1@example.org": ["d1@example.org"],
            "d2@example.org <d1@example.org>": ["d1@example.org"],
            "d1@example.org, X <d2@example.org>": ["d1@example.org", "d2@example.org"],
            "All: d1@example.org, d2@example.org;": ["d1@example.org", "d2@example.org"],
            "X <d1@example.org>\r\nFrom: d2@example.org": ["d1@example.org", "d2@example.org"],
            "X\r\n <d1@example.org>": ["d1@example.org"],
            '<"d1"@example.org>': ["d1@example.org"],
            '"X <d1@example.org>': ["d1@example.org"],
            # Of all that may be the address of a sender, each is one.
            "<d1@example.org> <d2@example.org>": ["d1@example.org", "d2@example.org"],
            "<d1@example.org> d2@example.org": ["d1@example.org", "d2@example.org"],
            "<d1(d2@example.org)@example.org>": ["d1@example.org"],
            "d1 (X) @ (Y) example.org": ["d1@example.org"],
            "<@relay.example.net,@b:d1@example.org>": ["d1@example.org"],
            "All:d1@example.org;, <d2@example.org>": ["d1@example.org", "d2@example.org"],
            # An encoded name is no address, also if it looks like one.
            "=?utf-8?q?d2=40example.org?= <d1@example.org>": ["d1@example.org"],
            "=?utf-8?q?=3Cd2=40example.org=3E?= <d1@example.org>": ["d1@example.org"],
            "=?utf-8?b?ZDJAZXhhbXBsZS5vcmc=?=": [],
            "nobody": [],
            "": [],
        }.items():
            with self.subTest(said=said):
                self.assertEqual(mail_of(f"From: {said}\r\n\r\n").senders(), tuple(senders))
        self.assertEqual(mail_of(FILLED).senders(), ())

    def test_its_sender_is_shown_in_a_hundred_characters_with_the_address(self):
        for said, shown in {
            "X <d1@example.org>": "X <d1@example.org>",
            "=?utf-8?q?J=C3=B6rg?= =?ISO-8859-1?b?/A==?= <d1@example.org>": "J\u00f6rg\u00fc <d1@example.org>",
            "=?punycode?q?x?= =?utf-8?b?!?=": "=?punycode?q?x?= =?utf-8?b?!?=",
            f"{'x' * 200} <d1@example.org>": "d1@example.org",
            f"{'x' * 200}": "x" * 98 + "..",
            "\u00fc": "\u00fc",
        }.items():
            with self.subTest(said=said):
                self.assertEqual(mail_of(f"From: {said}\r\n\r\n").sender_text(), shown)
        self.assertEqual(mail_of(FILLED).sender_text(), "")

    def test_each_charset_of_the_list_is_read(self):
        form = changed("Choice 2: Green", "Choice 2: Gr\u00fcn")
        for charset in sorted(ALIASES):
            with self.subTest(charset=charset):
                content = mail(FILLED, f'Content-Type: text/plain; charset="{charset.upper()}"')
                self.assertEqual(line_of(content), "ok 21- unsigned")
        for charset in "latin1", "cp1252", "utf8", "iso8859-15":
            with self.subTest(charset=charset):
                content = mail(form.encode(charset), f"Content-Type: text/plain; charset={charset}")
                self.assertIn('and is "[ 1 ] Choice 2: Gr\u00fcn,', line_of(content))

    def test_a_charset_that_is_not_on_the_list_is_refused_at_once(self):
        others = "punycode", "utf-16", "utf-7", "idna", "unicode_escape", "hex", "rot13", "big5", "iso-8859-12", ""
        for charset in others:
            with self.subTest(charset=charset):
                began = time.process_time()
                content = mail("x" * 600_000 + FILLED, f'Content-Type: text/plain; charset="{charset}"')
                line = f'refused the mail is written in "{charset}", which is no charset that is known here'
                self.assertEqual(line_of(content), line)
                self.assertLess(time.process_time() - began, SOON)

    def test_a_charset_with_a_nul_in_it_is_refused(self):
        content = mail(FILLED, 'Content-Type: text/plain; charset="utf-8\0"')
        said = 'refused the mail is written in "utf-8<U+0000>", which is no charset that is known here'
        self.assertEqual(line_of(content), said)

    def test_parameters_that_parsers_stumble_over_are_refused_by_name(self):
        for said in ("charset*=x; charset*0=y", "charset*=u\0tf'x", "charset*1=a; charset*0=b", "charset=a; charset=b",
                     'charset="a', 'boundary="a "', 'boundary="a\t"', 'charset="a"b', "charset*=utf-8''utf-8",
                     "charset=(a"):
            with self.subTest(said=said):
                self.assertEqual(line_of(mail(FILLED, f"Content-Type: text/plain; {said}")), IS_UNUSUAL)
        for said in ("name=a b (1).txt", 'name*=utf-8\'\'x; name*0="y"', "format=flowed; charset=utf-8;",
                     "charset=utf-8 (x)"):
            with self.subTest(said=said):
                self.assertEqual(line_of(mail(FILLED, f"Content-Type: text/plain; {said}")), "ok 21- unsigned")


def asked_all(came):
    """Asks a mail for all that never fails."""
    return [came.received(HOST), came.date(), came.source(), came.key(), came.senders(), came.sender_text()]


def time_of(work):
    began = time.process_time()
    work()
    return time.process_time() - began


# No mail takes more steps, in millions, each of which changes a byte of a text.
MOST_STEPS = 6


def large_mails():
    """Mails that are about as large as may be, of which each byte or each few bytes once cost a step or more."""
    size = 9_990_000
    key, end = "-----BEGIN PGP PUBLIC KEY BLOCK-----\n\n", "-----END PGP PUBLIC KEY BLOCK-----\n"
    signed, signature = "-----BEGIN PGP SIGNED MESSAGE-----\n\n", "-----BEGIN PGP SIGNATURE-----\n"
    in_base64, in_quoted = (f"Content-Transfer-Encoding: {each}" for each in ("base64", "quoted-printable"))
    kind = 'Content-Type: multipart/mixed; boundary="{0}"\n\n--{0}\n'
    levels = b"From: x\n" + "".join(kind.format("a" + " " * blanks) for blanks in range(28, -1, -1)).encode()
    in_parts = mail("", 'Content-Type: multipart/signed; boundary="b"') + b"--b\n\nx\n--b\n"
    many_keys = keys(99, 4_999).encode()
    return {
        "keys": mail(many_keys * 7),
        "keys in base64": mail(base64.encodebytes(many_keys * 5), in_base64),
        "a key that is too large": mail(keys(1, size // 3)),
        "a key of empty lines": mail(key + "\n" * size + "?\n" + end),
        "signed lines that are empty": mail(signed + "\n" * size + signature + "\n-----END PGP SIGNATURE-----\n"),
        "armour lines in a signature": in_parts + f"Content-Type: application/pgp-signature\n{in_quoted}\n\n".encode()
        + b"x\n" * (size // 2 - 2_000) + signature.encode() * 101 + b"--b--\n",
        "padding in base64": mail("Q=" * (size // 2), in_base64),
        "lines in base64": mail("\n" * size + "!", in_base64),
        "marks in base64": mail("!" * size, in_base64),
        "attached mails": attached_encoded(29, size - 3_000),
        "lines that are almost between parts": levels + (b"--a" + b" " * 100 + b"x\n") * 95_000,
        "senders": mail("", *['From: "' + "x" * 9_990] * 10),
    }


class Hostile(ReadingCase):
    """Mails that are to take long, or to make something fail."""

    def ends_soon(self, name, content):
        """Looks at all of a mail. It may be read or refused, and nothing fails."""
        began = time.process_time()
        with self.subTest(mail=name):
            line_of(content)
            asked_all(mail_of(content))
            self.assertLess(time.process_time() - began, SOON)

    def test_no_mail_takes_long(self):
        many = 100_000
        kind = b"Content-Type: multipart/mixed; boundary=%s\n\n--%s\n"
        levels = b"From: x\n" + b"".join(kind % (b"a" * each, b"a" * each) for each in range(1, 29))
        signed_lines = "-----BEGIN PGP SIGNED MESSAGE-----\n\nx\n-----BEGIN PGP SIGNATURE-----\n\n"
        nl = "\n"
        mails = {
            "marks that are composed": FILLED + "a" + "\u0316\u0300" * many,
            "marks in an option": changed("[ 1 ] Choice 2", "[ 1 ] a" + "\u0316\u0300" * many),
            "brackets": f"From: {'(' * many}\nReceived: {'(<' * many}\n\n",
            "quotes": "From: " + '"a"' * many + "\n\n",
            "encoded words": "From: " + "=?" * many + "\n\n",
            "continuations": "From: x\n" + " y\n" * 3 * many + "\n",
            "fields": "From: x\n" * 3 * many + "\n",
            "parts": b"From: x\nContent-Type: multipart/mixed; boundary=a\n\n" + b"--a\n" * 3 * many,
            "lines that are almost between parts": levels + (b"--" + b"a" * 28 + b" x\n") * many,
            "keys": "-----BEGIN PGP PUBLIC KEY BLOCK-----\n" * many,
            "signed texts": signed_lines * many,
            "padding in base64": b"From: x\nContent-Transfer-Encoding: base64\n\n" + b"Q=" * 15 * many,
            "blanks in base64": b"From: x\nContent-Transfer-Encoding: base64\n\n" + b"\n" * 3 * many + b"!",
            "blanks behind armour": b"-----BEGIN PGP SIGNATURE-----" + b" " * 3 * many + b"x\n",
            "a wrapped option": changed(LONG, "\n".join(LONG.replace(" ", "")) + "\nx" * 3 * many),
            "forms": changed("[ 1 ]", "[ ]", changed("[ 2 ]", "[ ]")) * 2_000,
            "digits": changed("[ 1 ]", f"[{'1' * 3 * many}]"),
            "packets": f"{signed_lines}{('iACIAIgA' * 9 + nl) * 17_000}-----END PGP SIGNATURE-----\n",
        }
        for name, content in mails.items():
            self.ends_soon(name, content)

    def test_a_mail_of_ten_megabytes_takes_no_longer_than_some_million_small_steps(self):
        steps = time_of(lambda: re.sub(b"x", b"", b"x" * 1_000_000))
        for name, content in large_mails().items():
            with self.subTest(mail=name):
                took = time_of(lambda: [line_of(content), *asked_all(mail_of(content))])
                self.assertLess(took, MOST_STEPS * steps, f"it takes as long as {took / steps:.1f} million small steps")

    def test_what_is_too_large_or_too_deep_is_refused_by_name(self):
        why = "refused the mail has more than 10,000,000 bytes; send only the form"
        self.assertEqual(line_of(b"x" * 10_000_001), why)
        self.assertEqual(line_of(mail(FILLED + "x" * (9_999_000 - len(FILLED)))), "ok 21- unsigned")
        many = parts("mixed", *[plain()] * 501)
        self.assertEqual(line_of(many), "refused the mail has more than 500 parts")
        self.assertEqual(line_of(parts("mixed", *[plain("x")] * 498, plain())), "ok 21- unsigned")

    def test_whatever_a_parser_raises_it_is_that_mail_alone_that_is_not_read(self):
        for error in (TypeError, ValueError, RecursionError, KeyError, LookupError, AttributeError, binascii.Error,
                      MemoryError):
            with self.subTest(error=error), mock.patch("grdesk.ballots.mail.written_in_mail", side_effect=error("x")):
                try:
                    line = line_of(mail(FILLED))
                except Exception as met:
                    self.fail(f"{type(met).__name__} ends the run")
                self.assertEqual(line, f"refused it cannot be read as a mail: {error.__name__}")

    def test_whatever_a_mail_has_it_is_read_or_refused_by_name(self):
        chance = random.Random(1)
        seeds = [parts("mixed", plain(), MIMEApplication(b"x" * 200)), parts("alternative", plain(), plain()),
                 mail(FILLED, "Content-Type: text/plain; charset=utf-8")]
        for number in range(2_000):
            content = bytearray(chance.choice(seeds))
            for _ in range(chance.randrange(1, 12)):
                place = chance.randrange(len(content))
                content[place : place + chance.randrange(3)] = chance.choice(
                    [b"\0", b"\r", b"\n", b"*", b";", b"=", b'"', b"(", b"\x80", b"multipart/", b"--", b" :", b"\n\n"])
            with self.subTest(number=number, content=bytes(content)):
                came = mail_of(bytes(content))
                asked_all(came)
                try:
                    filled = read_form(FORM, came.written().text)
                except NotRead as why:
                    self.assertNotIn("cannot be read as a mail", str(why))
                else:
                    self.assertRegex(filled.ranks, "^[1-9a-z-]{3}$")
