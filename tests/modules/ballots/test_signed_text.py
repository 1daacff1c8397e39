"""Which text of a mail is read where something in it is signed. It is the text that gpg gives of the file, and nothing
else that stands in the mail; a mail in which that may be one of several is refused. The keys of these tests are made
anew, in a folder of their own."""
import base64
import re
import shutil
import subprocess
import tempfile
import unittest
from email.mime.application import MIMEApplication
from email.mime.multipart import MIMEMultipart
from functools import cache
from pathlib import Path

from tests.modules.ballots.reading_case import ReadingCase, line_of, mail_of
from tests.support.ballot_cases import (
    ASCII,
    FILLED,
    POST,
    attached_part,
    encoded,
    forged,
    html,
    keys,
    mail,
    parts,
    plain,
    quoted,
    signed,
    signed_part,
)
from tests.support.case import Case

from grdesk.ballots.armour import Armour, ArmourReader  # noqa: E402

OUTSIDE = "refused the form stands outside what is signed; send only the form, signed or not"
MORE_THAN_ONE = "refused more than one text in the mail is signed; send only the signed form"
BESIDE = "refused the mail has something signed besides the text that would be read; send only the form"
NO_SIGNATURE_IN_IT = "refused the signed text has something else in the place of its signature"
TOO_MANY_KEYS = "refused the mail has too many OpenPGP keys, or one that is too large; send only the form"
PACKETS = "refused the text begins as a signed message without armour does; send the form as plain text"
# Texts that a voter may sign, as the bytes before they are signed. gpg takes no blanks at the end of a line for signed.
TEXTS = {
    "the form": FILLED.encode(),
    "nothing": b"",
    "an empty line": b"\n",
    "no line end": b"I vote",
    "CR LF": FILLED.replace("\n", "\r\n").encode(),
    "hyphens": b"-\n- x\n--\n-- \n- -----BEGIN PGP SIGNATURE-----\n-----BEGIN PGP SIGNATURE-----\n" + FILLED.encode(),
    "blanks at ends": b"x \n y\t\n \n\t\n",
    "From": b"From me to you\n>From him\n",
    "other line ends": "a\u0085b\u2028c\x0bd\x0ce\x1cf\n\u00a0\n- \u00a0x\n".encode(),
    "latin-1": "Grüße\n".encode("latin-1"),
}


class Texts(ReadingCase):
    """What is read of mails that have a signed text, or what looks like one."""

    def test_a_form_between_armour_lines_that_gpg_takes_for_text_is_refused_beside_a_signed_post(self):
        for end in "\u00a0", "\u2003", "\x0b", "\x0c", "\u0085", "\u2028", "\x1c", "\u3000", "\ufeff", "x":
            with self.subTest(end=ascii(end)):
                self.assertEqual(line_of(forged().replace("\u00a0", end) + POST), OUTSIDE)

    def test_such_a_form_is_unsigned_where_no_post_is_beside_it(self):
        indented = quoted(signed(), " ")
        self.is_read_as("ok 21- unsigned", forged=forged(), quoted=quoted(signed()), indented=indented)

    def test_a_form_in_an_unsigned_part_is_refused_beside_a_signed_one(self):
        post = POST.encode()
        self.is_read_as(
            OUTSIDE,
            octets=parts("mixed", plain(), MIMEApplication(post)),
            octets_before=parts("mixed", MIMEApplication(post), plain()),
            text=parts("mixed", plain(), plain(POST)),
            page=parts("mixed", plain(), html(POST)),
            attached=parts("mixed", plain(), attached_part(POST)),
            preamble=parts("mixed", plain()).replace(b"\n--", b"\n" + post + b"\n--", 1),
            epilogue=parts("mixed", plain()) + post,
            head=mail(FILLED, "X-Note: " + POST.replace("\n\n", "\n")),
            key=parts("mixed", plain(), MIMEApplication(renamed(MESSAGE, "PUBLIC KEY BLOCK"), _encoder=as_it_is)),
        )

    def test_a_signed_form_is_refused_beside_another_signed_text(self):
        post = POST.encode()
        of_form = signed_part(plain())
        self.is_read_as(
            MORE_THAN_ONE,
            before=POST + signed(),
            behind=signed() + POST,
            octets=parts("mixed", plain(signed()), MIMEApplication(post)),
            post_as_it_is=parts("mixed", of_form, plain(POST, ASCII)),
            both_signed=parts("mixed", of_form, signed_part(plain("tea\n"))),
            post_behind=parts("mixed", of_form, plain(POST)),
            post_within=parts("mixed", signed_part(plain(FILLED + POST))),
            preamble=parts("mixed", of_form).replace(b"\n--", b"\n" + post + b"\n--", 1),
            signature=parts("signed", plain(), MIMEApplication(post, "pgp-signature", _encoder=as_it_is)),
            signature_in_base64=parts("signed", plain(), MIMEApplication(post, "pgp-signature")),
        )

    def test_an_unsigned_form_is_refused_beside_a_signed_part(self):
        self.is_read_as(
            OUTSIDE,
            behind=parts("mixed", signed_part(plain("tea\n")), plain()),
            before=parts("mixed", plain(), signed_part(plain("tea\n"))),
            as_a_page=parts("mixed", signed_part(plain()), html(FILLED.replace("\n", "<br>\n"))),
            in_base64=parts("mixed", signed_part(plain()), MIMEApplication(FILLED.encode())),
            in_the_same_text=FILLED + POST,
        )

    def test_armour_that_only_shows_in_the_file_or_only_once_it_is_decoded_is_refused(self):
        hidden = "x=\n" + POST.replace("tea.", "tea=").replace("iAEE", "iAE=")
        shown = signed().replace("-----BEGIN", "=2D----BEGIN").replace("-----END", "=2D----END")
        head = "Content-Transfer-Encoding: quoted-printable"
        for content in mail(shown + hidden, head), mail(hidden + shown, head):
            with self.subTest(content=content):
                self.assertTrue(line_of(content).startswith("refused "), line_of(content))
        self.assertEqual(line_of(mail(shown, head)), "ok 21- signed")
        in_base64 = base64.encodebytes(signed().encode()) + POST.encode()
        self.assertEqual(line_of(mail(in_base64, "Content-Transfer-Encoding: base64")), BESIDE)

    def test_a_mark_before_an_armour_line_at_the_top_of_a_text_makes_it_damaged(self):
        damaged = "refused a line that begins or ends the signed text is damaged"
        self.is_read_as(damaged, text="\ufeff" + signed(), mail=mail("\ufeff" + signed()),
                        part=parts("mixed", plain("\ufeff" + signed())))
        self.is_read_as(MORE_THAN_ONE, within=parts("mixed", signed_part(plain("\ufeff" + signed()))),
                        within_as_it_is=mail(WITHIN, 'Content-Type: multipart/signed; boundary="b"'))

    def test_a_mark_before_the_armour_of_a_detached_signature_makes_it_none(self):
        armour = "\ufeff" + POST[POST.index("-----BEGIN PGP SIGNATURE") :]
        signature = MIMEApplication(armour.encode(), "pgp-signature", _encoder=as_it_is)
        self.is_read_as(NO_SIGNATURE_IN_IT, mail=parts("signed", plain(), signature))

    def test_a_lone_cr_in_quoted_printable_hides_nothing(self):
        content = mail("x=\rhidden\ny", "Content-Transfer-Encoding: quoted-printable")
        self.assertEqual(mail_of(content).written().text, "x=\rhidden\ny")

    def test_an_armour_line_that_only_the_file_shows_is_not_passed_over(self):
        content = mail(f"x=\n-----BEGIN PGP SIGNATURE-----\n{FILLED}", "Content-Transfer-Encoding: quoted-printable")
        self.assertEqual(line_of(content), OUTSIDE)

    def test_a_mail_has_keys_of_as_many_packets_as_voters_have_and_no_more(self):
        encoded_field = "Content-Transfer-Encoding: quoted-printable"
        for field, mark in ("X-Note: as it is", "="), (encoded_field, "=3D"):
            some, many, large = (keys(*each).replace("=", mark) for each in ((2, 4_999), (5, 4_999), (1, 5_000)))
            with self.subTest(field=field):
                self.assertEqual(line_of(mail(FILLED + some, field)), "ok 21- unsigned")
                self.assertEqual(line_of(mail(FILLED + many, field)), TOO_MANY_KEYS)
                self.assertTrue(line_of(mail(FILLED + large, field)).startswith("refused "))

    def test_a_key_beside_a_form_is_no_signed_text(self):
        key = MIMEApplication(KEY, "pgp-keys", _encoder=as_it_is)
        self.is_read_as("ok 21- unsigned", beside=parts("mixed", plain(), key), in_the_text=FILLED + KEY.decode())
        within = MIMEMultipart("mixed", _subparts=[plain(), key])
        self.is_read_as("ok 21- signed", within=parts("mixed", signed_part(within)),
                        beside=parts("mixed", signed_part(plain()), key), before=KEY.decode() + signed())

    def test_a_line_with_a_nul_or_a_cr_behind_it_is_armour_as_it_is_for_gpg(self):
        for end in "\0", "\0x", "\r", " \t\r \r":
            with self.subTest(end=ascii(end)):
                line = line_of(FILLED + POST.replace("-----\n", f"-----{end}\n"))
                self.assertTrue(line.startswith("refused "), line)


# A multipart/signed of which the text begins with the mark U+FEFF and an armour line.
WITHIN = f"--b\n\n\ufeff-----BEGIN PGP SIGNED MESSAGE-----\n\n{FILLED}\n--b\n"
WITHIN += "Content-Type: application/pgp-signature\n\n\n--b--\n"


def as_it_is(part):
    """Encodes nothing."""


# A message that is signed, and a key: what armour says that it is, gpg does not look at.
MESSAGE = b"-----BEGIN PGP MESSAGE-----\n\nkA0DAAgBqqqqqqqqqqoBrBJiAGlvbGQgcG9zdAo=\n-----END PGP MESSAGE-----\n"
KEY = b"-----BEGIN PGP PUBLIC KEY BLOCK-----\n\nmAYEAAAAABY=\n=aaaa\n-----END PGP PUBLIC KEY BLOCK-----\n"


def packet(tag, body):
    """A packet of this tag, whose length is in four bytes."""
    return bytes([0xC0 | tag, 255, *len(body).to_bytes(4, "big")]) + body


def digits_of(content):
    """The digits of packets, with padding at their end. Without it gpg takes the last line of armour for digits too."""
    return base64.encodebytes(content + (packet(61, b"x") if len(content) % 3 == 0 else b""))


def below_a_form(armour):
    """A form, and what has the name of a key below it."""
    begin, end = (f"-----{name} PGP PUBLIC KEY BLOCK-----\n".encode() for name in ("BEGIN", "END"))
    return FILLED.encode() + b"\n" + begin + armour + end


def in_quoted_printable(content):
    """As Thunderbird does: no line has more than 73 characters before its soft end."""
    lines = content.replace(b"=", b"=3D").split(b"\n")
    return b"\n".join(re.sub(rb"(.{73})(?=[^\r])", rb"\1=\n", line) for line in lines)


def armour_in(content):
    return ArmourReader().lines(content)


def renamed(armour, name):
    return armour.replace(b"PGP MESSAGE", f"PGP {name}".encode())


class ArmourLines(Case):
    def test_armour_is_a_signed_message_under_each_name_that_gpg_takes_it_under(self):
        for name in "MESSAGE", "ARMORED FILE", "PUBLIC KEY BLOCK", "PRIVATE KEY BLOCK", "SECRET KEY BLOCK":
            with self.subTest(name=name):
                self.assertEqual(len(armour_in(renamed(MESSAGE, name))), 1)

    def test_a_key_is_none(self):
        self.assertEqual(armour_in(KEY), [])

    def test_a_line_has_its_place(self):
        [line] = armour_in(b"a\n-----BEGIN PGP SIGNATURE----- \t\r\nb")
        self.assertEqual(line, (Armour.SIGNATURE, 2, 34, True))


@cache
def why_no_gpg():
    missing = [name for name in ("gpg", "gpgv", "gpgconf") if not shutil.which(name)]
    return f"{', '.join(missing)} is not installed" if missing else None


class Gpg(ReadingCase):
    """What gpg says of the same files."""

    @classmethod
    def setUpClass(cls):
        if why := why_no_gpg():
            raise unittest.SkipTest(why)
        # The name of a socket has no more than 108 bytes.
        home = tempfile.TemporaryDirectory(dir="/tmp")
        cls.addClassCleanup(home.cleanup)
        cls.home = home.name
        cls.addClassCleanup(cls.ran, "gpgconf", "--kill", "gpg-agent")
        made = cls.gpg("--passphrase", "", "--quick-gen-key", "Voter <voter@example.org>", "ed25519", "sign", "never")
        if made.returncode:
            raise AssertionError(f"no key was made: {made.stderr}")
        cls.post = cls.clear_signed(b"I prefer tea.\n")

    @classmethod
    def ran(cls, *line, given=b""):
        own = {"GNUPGHOME": cls.home, "PATH": "/usr/bin:/bin:/usr/local/bin", "LC_ALL": "C"}
        return subprocess.run(line, env=own, input=given, capture_output=True, timeout=300, check=False)

    @classmethod
    def gpg(cls, *words, given=b""):
        return cls.ran("gpg", "--batch", "--pinentry-mode", "loopback", *words, given=given)

    @classmethod
    def clear_signed(cls, text, *words):
        made = cls.gpg("--clearsign", *words, given=text)
        if made.returncode:
            raise AssertionError(f"nothing was signed: {made.stderr}")
        return made.stdout

    def verified(self, content):
        """Whether gpg calls the signature of a file good, and what text it gives of it."""
        file = Path(self.home) / "file"
        file.write_bytes(content)
        ran = self.gpg("--decrypt", str(file))
        return b"Good signature" in ran.stderr and not ran.returncode, ran.stdout

    def test_what_is_read_of_a_signed_text_is_what_gpg_gives_of_it(self):
        for name, text in TEXTS.items():
            for how in "LF", "CR LF", "after text":
                content = self.clear_signed(text)
                if how == "CR LF":
                    content = content.replace(b"\r\n", b"\n").replace(b"\n", b"\r\n")
                elif how == "after text":
                    content = b"Hello,\n\n" + content + b"\n-- \nme\n"
                with self.subTest(text=name, how=how):
                    is_good, given = self.verified(content)
                    self.assertTrue(is_good)
                    written = mail_of(content).written()
                    self.assertTrue(written.is_signed)
                    self.assertEqual(trimmed(written.text), trimmed(given.decode(errors="replace")))

    def test_a_mail_of_which_gpg_verifies_another_text_than_the_form_is_refused(self):
        post = self.post
        mails = {
            "no-break spaces": forged().encode() + post,
            "NUL": FILLED.encode() + post.replace(b"MESSAGE-----", b"MESSAGE-----\0"),
            "octets": parts("mixed", plain(), MIMEApplication(post, _encoder=as_it_is)),
            "signed part": parts("mixed", signed_part(plain()), plain(post.decode(), ASCII)),
            "a key": FILLED.encode() + self.inline("PUBLIC KEY BLOCK"),
            "a message": FILLED.encode() + self.inline("MESSAGE"),
            "a signature": FILLED.encode() + self.inline("SIGNATURE"),
            "a message without armour": self.message() + b"\n" + FILLED.encode(),
            "a signature of a part": parts(
                "signed", plain(), MIMEApplication(self.inline("SIGNATURE"), "pgp-signature", _encoder=as_it_is)),
        }
        self.are_refused(mails)

    def are_refused(self, mails):
        """Each of these mails is refused, and gpg verifies the post in it."""
        for name, content in mails.items():
            with self.subTest(mail=name):
                is_good, given = self.verified(content)
                self.assertTrue(is_good)
                self.assertIn(b"tea", given)
                line = line_of(content)
                self.assertTrue(line.startswith("refused "), line)

    def message(self, *words):
        """The post as a message with its signature, in bytes."""
        return self.gpg("--sign", *words, given=b"I prefer tea.\n").stdout

    def test_a_block_of_a_key_with_padding_before_a_signed_message_is_refused(self):
        message = digits_of(self.message("--compress-algo", "none"))
        self.are_refused({
            "empty lines": below_a_form(b"\n" * 10_001 + message),
            "blanks": below_a_form(b"\n" + (b" " * 70 + b"\n") * 10_000 + message),
        })
        self.assertEqual(line_of(below_a_form(b" " * 9_000 + b"\nmAYEAAAAABY=\n")), "ok 21- unsigned")
        for head in b" " * 20_001, b"Version: " + b"1" * 20_001 + b"\n":
            with self.subTest(head=head[:20]):
                line = line_of(below_a_form(head + b"\nmAYEAAAAABY=\n"))
                self.assertTrue(line.startswith("refused "), line)

    def test_a_form_in_lines_that_gpg_passes_over_in_the_head_of_a_signed_text_is_refused(self):
        def with_form(post, blank):
            """A post with a form in its head, of which each line is longer than gpg reads."""
            lines = [line + blank for line in ("", *FILLED.splitlines())]
            return post.replace(b"\n\n", "\n".join(["", *lines, "", ""]).encode(), 1)

        self.are_refused({"text": with_form(self.post, " " * 20_001), "mail": mail(with_form(self.post, " " * 20_001))})
        # In quoted-printable the lines are as long in the file, and a third of that once they are decoded.
        shortened = with_form(self.post_as_in_quoted_printable(), "=20" * 6_700)
        self.are_refused({"quoted-printable": mail(shortened, "Content-Transfer-Encoding: quoted-printable")})

    def test_a_form_in_a_line_of_the_head_in_quoted_printable_is_refused(self):
        """For gpg that line is no head. It says so, and verifies the post behind it."""
        for line_end in b"=0A", b"=0D=0A", b"=0a":
            form_line = b"Hash: x" + line_end * 2 + FILLED.encode().replace(b"\n", line_end) + b"\n"
            content = self.post_as_in_quoted_printable().replace(b"\n\n", b"\n" + form_line, 1)
            content = mail(content, "Content-Transfer-Encoding: quoted-printable")
            with self.subTest(line_end=line_end):
                ran = self.gpg("--decrypt", given=content)
                self.assertIn(b"Good signature", ran.stderr)
                self.assertIn(b"tea", ran.stdout)
                self.assertEqual(line_of(content), BESIDE)

    def post_as_in_quoted_printable(self):
        """The post, of which the armour has one = that stands before no byte in quoted-printable."""
        for more in range(60):
            made = self.clear_signed(b"I prefer tea.\n", "--sig-notation", f"x@example.org={'x' * more}")
            if re.search(rb"[^=]\n=(?![0-9A-Fa-f]{2})", made):
                return made
        raise AssertionError("each signature has a padding, or a checksum that is a byte in quoted-printable")

    def test_a_block_with_a_signed_message_behind_a_packet_of_a_key_is_refused(self):
        message, key = self.message("--compress-algo", "none"), self.gpg("--export").stdout
        other = key[2 : 2 + key[1]]
        packets = {"a key of tag 14": bytes([0xC0 | 14, len(other)]) + other}
        packets |= {f"tag {tag}, version {version}": packet(tag, bytes([version, *[0] * 12]))
                    for tag in (5, 6, 7, 14) for version in (2, 3)}
        self.are_refused({name: below_a_form(b"\n" + digits_of(each + message)) for name, each in packets.items()})

    def test_a_block_with_a_digit_in_quoted_printable_is_refused(self):
        message = digits_of(self.message("--compress-algo", "none"))
        spoilt = b"=%02X\n" % message[0] + message[1:]
        for content in below_a_form(b"\n" + spoilt), mail(below_a_form(b"\n" + spoilt)):
            with self.subTest(content=content):
                # It ends with a warning, and so with a status.
                ran = self.gpg("--decrypt", given=content)
                self.assertIn(b"Good signature", ran.stderr)
                self.assertIn(b"tea", ran.stdout)
                line = line_of(content)
                self.assertTrue(line.startswith("refused "), line)

    def test_a_signature_with_a_signed_message_behind_its_digits_is_refused(self):
        post = self.gpg("--detach-sign", given=b"x").stdout
        content = base64.b64encode(post + self.message())
        for place in range(len(post) * 4 // 3 - 2, len(post) * 4 // 3 + 3):
            digits = content[:place] + b"=%02X\n" % content[place] + content[place + 1 :]
            armour = b"-----BEGIN PGP SIGNATURE-----\n\n" + digits + b"\n-----END PGP SIGNATURE-----\n"
            clear = b"-----BEGIN PGP SIGNED MESSAGE-----\nHash: SHA512\n\n" + FILLED.encode() + armour
            of_part = parts("signed", plain(), MIMEApplication(armour, "pgp-signature", _encoder=as_it_is))
            for name, each in {"clear": clear, "a mail": mail(clear), "a part": of_part}.items():
                with self.subTest(place=place, mail=name):
                    self.assertEqual(line_of(each), NO_SIGNATURE_IN_IT)

    def test_a_file_that_begins_with_a_packet_is_refused(self):
        message, form = self.message("--compress-algo", "none"), packet(61, b"\n" + FILLED.encode())
        texts = {f"tag {tag}": packet(tag, b"\n") + message + form for tag in (12, 16, 61)}
        within = self.message("--compress-algo", "none", "--set-filename", "\nFrom: x\n\n")
        self.assertIn(b"\nFrom: x\n\n", within)
        texts |= {"a name in a mail": within + form}
        # The length of the packet must be no line end, which would end the head.
        mails = {f"a mail, tag {tag}": packet(tag, b"\nFrom: voter\n\n") + message + form for tag in (12, 16, 61)}
        for content in mails.values():
            self.assertTrue(mail_of(content).is_mail)
        texts |= mails
        self.are_refused(texts)
        for name, content in texts.items():
            with self.subTest(text=name):
                self.assertEqual(line_of(content), PACKETS)

    def test_a_real_key_is_no_signed_text_however_a_program_writes_it(self):
        self.gpg("--passphrase", "", "--quick-gen-key", "Other <other@example.org>", "rsa2048", "default", "never")
        signed_form = self.clear_signed(FILLED.encode())
        for name in "voter@example.org", "other@example.org":
            key = self.gpg("--armor", "--export", name).stdout
            head, digits = key.split(b"\n\n")
            bare, _, checksum = digits.partition(b"\n=")
            bare = bare.replace(b"\n", b"")
            ways = {
                "as gpg does": key,
                "CR LF": key.replace(b"\n", b"\r\n"),
                "with a comment": key.replace(b"\n\n", b"\nVersion: GnuPG v2\nComment: mine\n\n", 1),
                "without a checksum": b"\n".join(each for each in key.split(b"\n") if each[:1] != b"="),
                "long lines": head + b"\n\n" + b"".join(
                    bare[place : place + 76] + b"\n" for place in range(0, len(bare), 76)) + b"=" + checksum,
            }
            self.assertEqual(self.gpg("--import", given=ways["long lines"]).returncode, 0)
            for way, each in ways.items():
                self.is_read_beside_a_form(f"{name}, {way}", each, signed_form)

    def is_read_beside_a_form(self, name, key, signed_form):
        with self.subTest(key=name):
            self.assertEqual(armour_in(key), [])
            self.assertEqual(line_of(FILLED.encode() + key), "ok 21- unsigned")
            self.assertEqual(line_of(key + signed_form), "ok 21- signed")
            for encoding, of_part in {"": key, "quoted-printable": in_quoted_printable(key),
                                      "base64": base64.encodebytes(key)}.items():
                part = MIMEApplication(of_part, "pgp-keys", _encoder=as_it_is)
                if encoding:
                    part["Content-Transfer-Encoding"] = encoding
                within = MIMEMultipart("mixed", _subparts=[plain(), part])
                self.is_read_as("ok 21- unsigned", **{f"beside {encoding}": parts("mixed", plain(), part)})
                self.is_read_as("ok 21- signed", **{f"signed {encoding}": parts("mixed", signed_part(within))})

    def test_a_text_that_begins_with_a_letter_beyond_ascii_is_read(self):
        self.is_read_as("ok 21- unsigned", umlaut=f"Ä\n{FILLED}", mark=f"\ufeff{FILLED}", cyrillic=f"Да\n{FILLED}",
                        japanese=f"票\n{FILLED}", control=f"Да\x0c\x1b\x07\n{FILLED}", ascii=f"x\0\1\3\n{FILLED}")
        # Compressed, a message may be UTF-8. What then begins a packet is the version of a signature, or a method.
        self.is_read_as(PACKETS, **{f"U+000{code}": f"Да{chr(code)}\n{FILLED}" for code in range(7)})

    def inline(self, name):
        """The post as a message with its signature, in armour that calls it something else."""
        made = self.gpg("--armor", "--sign", "--compress-algo", "none", given=b"I prefer tea.\n")
        return renamed(made.stdout, name)

    def test_a_form_that_gpg_verifies_in_a_mail_is_read(self):
        content = mail(self.clear_signed(FILLED.encode()))
        self.assertTrue(self.verified(content)[0])
        self.assertEqual(line_of(content), "ok 21- signed")
        in_base64 = encoded(self.clear_signed(FILLED.encode()).decode(), "utf-8", "base64")
        self.assertEqual(line_of(in_base64), "ok 21- signed")

    def test_the_key_of_a_voter_may_stand_beside_a_form(self):
        key = self.gpg("--armor", "--export").stdout
        self.assertEqual(line_of(FILLED.encode() + key), "ok 21- unsigned")


def trimmed(text):
    """A text without what a signature does not cover: how lines end, blanks before that, and the last end."""
    return "\n".join(line.rstrip(" \t\r") for line in text.split("\n")).rstrip("\n")
