"""Forms for ballots that were filled in, as mail programs send them: what stands under each row of the table in
docs/formats.md ("Ballots in mails"), of a vote with three places."""
import base64
import hashlib
import quopri
from email.message import EmailMessage
from email.mime.application import MIMEApplication
from email.mime.message import MIMEMessage
from email.mime.multipart import MIMEMultipart
from email.mime.text import MIMEText

from tests.support.called import CALLED, DAYS, LONG
from tests.support.program import fail

PLACES = ["Red", LONG, "None of the above"]
BEGIN, END = "+++++ ballot begins +++++", "+++++ ballot ends +++++"


def option_lines(boxes):
    return [f"[{box}] Choice {place}: {name}" for place, (box, name) in enumerate(zip(boxes, PLACES), start=1)]


def identifier():
    """As docs/formats.md says that it is made."""
    text = "\n".join(["1", str(CALLED), str(DAYS), "4", *option_lines(["   "] * 3), ""])
    return hashlib.sha256(text.encode()).hexdigest()


def lines_with(*boxes, token=""):
    """The lines of a form with these boxes."""
    token_line = f"Token: {token}".rstrip()
    return [BEGIN, f"Identifier: {identifier()}", *option_lines(boxes), token_line, END]


def form(*boxes, token=""):
    return "".join(f"{line}\n" for line in lines_with(*boxes, token=token))


FILLED = form(" 2 ", " 1 ", "   ")
EMPTY = form("   ", "   ", "   ")


def changed(old, new, text=FILLED):
    if old not in text:
        fail(f"the form has no {old!r}")
    return text.replace(old, new, 1)


def quoted(text, mark="> "):
    return "".join(f"{mark}{line}\n" for line in text.splitlines())


def wrapped(text, breadth=40, mark=""):
    """A text whose long lines are cut at a blank, as mail programs cut them."""
    lines = []
    for line in text.splitlines():
        while len(line) > breadth and " " in line[8:breadth]:
            cut = line.rindex(" ", 8, breadth)
            lines.append(line[:cut])
            line = line[cut + 1 :]
        lines.append(line)
    return "".join(f"{mark}{line}\n" for line in lines)


HEAD = b"From: Voter <voter@example.org>\r\nMessage-ID: <1@example.org>\r\n"


def mail(body, *more):
    """A mail of this body, with these lines in its head."""
    head = HEAD + b"".join(f"{line}\r\n".encode() for line in more)
    return head + b"\r\n" + (body if isinstance(body, bytes) else body.encode())


def encoded(text, charset, how):
    """A mail whose text is in this charset, and encoded so."""
    content = text.encode(charset)
    body = base64.encodebytes(content) if how == "base64" else quopri.encodestring(content)
    return mail(body, "MIME-Version: 1.0", f"Content-Type: text/plain; charset={charset}",
                f"Content-Transfer-Encoding: {how}")


def parts(kind, *parts, **parameters):
    whole = MIMEMultipart(kind, _subparts=list(parts), **parameters)
    whole["From"] = "voter@example.org"
    return whole.as_bytes()


def plain(text=FILLED, charset="utf-8"):
    """A part with a text, in base64, or as it is if the charset is us-ascii."""
    return MIMEText(text, "plain", charset)


def html(text="<p>[ 1 ] Choice 1: Red</p>"):
    return MIMEText(text, "html", "utf-8")


def signed(text=FILLED, around=""):
    """A text that is signed in its midst."""
    inner = "".join(f"- {line}\n" if line.startswith("-") else f"{line}\n" for line in text.splitlines())
    head = "-----BEGIN PGP SIGNED MESSAGE-----\nHash: SHA512\n\n"
    return f"{around}{head}{inner}-----BEGIN PGP SIGNATURE-----\n\niAEE\n-----END PGP SIGNATURE-----\n"


def uuencoded():
    part = plain("x")
    part.replace_header("Content-Transfer-Encoding", "x-uuencode")
    return part


def doubled(name):
    """A part that has a field twice."""
    part = plain("x")
    part[name] = "text/html"
    return part


def attached_part(text):
    inner = EmailMessage()
    inner.set_content(text)
    return MIMEMessage(inner)


def attached():
    return parts("mixed", plain("See the mail that is attached.\n"), attached_part(FILLED))


def nested(depth):
    """A mail with a part in a part, and so on."""
    head = "Content-Type: multipart/mixed; boundary={}\n\n--{}\n"
    return "From: voter@example.org\n" + "".join(head.format(each, each) for each in range(depth)) + f"\n{FILLED}"


SIGNATURE = MIMEApplication(b"iAEE", "pgp-signature")
NO_BREAK, ASCII = "\u00a0", "us-ascii"


def signed_part(*parts):
    return MIMEMultipart("signed", _subparts=[*parts, SIGNATURE], protocol="application/pgp-signature")


def forged(text=FILLED):
    """A text with armour lines around it that have a no-break space behind them, which gpg takes for text."""
    begin = f"-----BEGIN PGP SIGNED MESSAGE-----{NO_BREAK}\nHash: SHA512\n\n"
    return f"{begin}{text}-----BEGIN PGP SIGNATURE-----{NO_BREAK}\n\n"


def spoilt(old, new):
    """A signed text that is damaged in one place."""
    return changed(old, new, signed())


POST = signed("I prefer tea.\n")
BEGIN_SIGNATURE = "-----BEGIN PGP SIGNATURE-----"
NO_FORM = f'refused there is no ballot: a line "{BEGIN}" is missing'
NO_END = f'refused a form has no end: the line "{END}" is missing'

def keys(count, packets):
    """Armour of keys that have so many packets each: a key, and names that are empty."""
    content = base64.encodebytes(b"\x98\x01\x04" + b"\xcd\0" * (packets - 1)).decode()
    begin, end = (f"-----{name} PGP PUBLIC KEY BLOCK-----\n" for name in ("BEGIN", "END"))
    return f"{begin}\n{content}{end}" * count


def attached_encoded(levels, size):
    """A mail with lines of so many bytes, in quoted-printable, in one that is attached so in another one, and so on."""
    field = b"Content-Type: message/rfc822\r\nContent-Transfer-Encoding: quoted-printable\r\n"
    return HEAD + (field + b"\r\n") * levels + b"\r\n" + b"x" * size


# What stands under each row of the page: files of this content, each of which gives the line of the row.
CASES = {
    "the form alone, after U+FEFF or not, in a text, a mail, an mbox or a Maildir": [
        FILLED, f"\ufeff{FILLED}", mail(f"\ufeff{FILLED}"), mail(FILLED), mail(FILLED, "Content-Type: text/plain")],
    "it is quoted to any depth, with other text around": [
        quoted(FILLED), quoted(FILLED, ">>> "), quoted(FILLED, "> > "), f"Hello,\n\n{quoted(FILLED)}\nBest\n-- \nV\n",
        f"Mine is\n{FILLED}\n> Votes are taken\n"],
    "lines end in CR LF, or in blanks; blank lines stand between; a box has other blanks, or none": [
        FILLED.replace("\n", "\r\n"), FILLED.replace("\n", " \t\n"), FILLED.replace("\n", "\n\n"),
        changed("[   ] Choice 3", "[] Choice 3", changed("[ 2 ]", "[2]", changed("[ 1 ]", "[1]")))],
    "a box with a blank that is none of ASCII": [
        changed("[ 1 ]", f"[{NO_BREAK}1{NO_BREAK}]"), quoted(changed("[ 1 ]", f"[{NO_BREAK}1{NO_BREAK}]"))],
    "long lines are wrapped": [
        wrapped(FILLED), wrapped(FILLED, mark="> "), wrapped(FILLED, 30), changed(": ", ":\n", FILLED),
        changed(LONG, LONG[:50] + "\n" + LONG[50:])],
    "a text in base64 or quoted-printable, in ASCII, UTF-8, ISO 8859-1 to -16, or Windows 1250 to 1258": [
        encoded(FILLED, "utf-8", "base64"), encoded(FILLED, "us-ascii", "quoted-printable"),
        encoded("Grüße!\n" + FILLED, "latin-1", "quoted-printable"), encoded(FILLED, "windows-1252", "base64"),
        encoded("Zażółć!\n" + FILLED, "ISO-8859-2", "quoted-printable"), encoded(FILLED, "cp1251", "base64"),
        mail("Grüße!\n".encode("latin-1") + FILLED.encode())],
    "a text beside HTML": [parts("alternative", plain(), html()), parts("mixed", plain(), html())],
    "lines in the head that are no fields, or have a blank before the colon": [
        mail(FILLED, "Subject : Vote"), mail(FILLED, ">From voter"), mail(FILLED, "broken"),
        mail(FILLED, "Subject: x", " "), b"From voter\r\n" + mail(FILLED)],
    "a signed mail (`multipart/signed`), of which the signed part is read": [
        parts("signed", plain(), SIGNATURE, protocol="application/pgp-signature"),
        parts("mixed", signed_part(plain()), plain("-- \nA list\n")),
        parts("mixed", signed_part(MIMEMultipart("alternative", _subparts=[plain(), html(FILLED)])))],
    "a text that is signed in its midst, with hyphens put before others": [
        signed(), mail(signed()), signed(f"-- \nme\n{FILLED}-----\n"), signed(around="Hello\n\n"),
        parts("mixed", plain(signed(), ASCII), plain("-- \nA list\n")), spoilt("Hash: SHA512\n", ""),
        signed().replace("\n", "\r\n"), encoded(signed(), "utf-8", "base64")],
    "armour lines that are quoted, or end in another character, which are text": [
        forged(), quoted(POST) + FILLED, FILLED + quoted(POST, " ")],
    "a form outside of what is signed, in the same text or in another part": [
        FILLED + signed("Nothing.\n"), forged() + POST, FILLED + POST, POST + quoted(FILLED),
        parts("mixed", plain(), MIMEApplication(POST.encode())),
        parts("mixed", signed_part(plain("x")), plain()),
        parts("mixed", signed_part(plain("x", ASCII)), plain(FILLED, ASCII)),
        parts("mixed", plain(signed("x\n")), html(FILLED)),
        parts("mixed", plain(), attached_part(POST)), parts("mixed", plain(), MIMEText(POST, "x-note")),
        mail(signed("x\n"), f"Subject: {BEGIN}")],
    "more than one signed text, in the same text or in two parts": [
        signed() + POST, POST + signed(), parts("mixed", plain(signed()), plain(POST)),
        parts("mixed", plain(signed(), ASCII), plain(POST, ASCII)),
        parts("mixed", plain(signed()), MIMEApplication(POST.encode())),
        parts("mixed", signed_part(plain()), plain(POST)),
        parts("mixed", signed_part(plain(signed()))),
        parts("mixed", signed_part(plain()), signed_part(plain("I prefer tea.\n"))),
        spoilt(BEGIN_SIGNATURE, f"{BEGIN_SIGNATURE}\n{BEGIN_SIGNATURE}")],
    "a signature beside a signed text, and not of it": [
        parts("mixed", signed_part(plain()), MIMEText(POST[POST.index(BEGIN_SIGNATURE) :], "x-note")),
        parts("mixed", plain(signed()), MIMEApplication(POST[POST.index(BEGIN_SIGNATURE) :].encode()))],
    "a signed text without its end": [signed().split("-----BEGIN PGP SIGNATURE")[0]],
    "one whose signature has no end": [signed().split("-----END PGP SIGNATURE")[0]],
    "one without its beginning": [FILLED + POST[POST.index(BEGIN_SIGNATURE) :]],
    "one without the empty line before it": [
        f"-----BEGIN PGP SIGNED MESSAGE-----\nHash: SHA512\n{BEGIN_SIGNATURE}\n\niAEE\n-----END PGP SIGNATURE-----\n"],
    "one with a line before it that is not of its head": [spoilt("Hash: SHA512", "Comment: x")],
    "one with a hyphen that has no other before it": [
        spoilt("+++++ ballot ends", "-- \n+++++ ballot ends"), spoilt("Identifier", "-Identifier")],
    "one with a line of more than 10,000 bytes, which gpg may pass over": [
        spoilt("Hash: SHA512\n", f"Hash: SHA512\n{' ' * 10_001}\n"), signed("x" * 10_001 + f"\n{FILLED}"),
        mail(signed().replace("SHA512", "SHA512" + "=20" * 3_400), "Content-Transfer-Encoding: quoted-printable")],
    "one in quoted-printable with an encoded LF, if the file shows its armour lines": [
        mail(spoilt("Hash: SHA512\n\n", "Hash: SHA512=0A=0A"), "Content-Transfer-Encoding: quoted-printable")],
    "one whose signature has a text in it": [spoilt("\niAEE\n", "\nkA0DAAgBqqqqqqqqqqoBrBJiAGlvbGQgcG9zdAo=\n")],
    "a `multipart/signed` that has not a text and its signature alone": [
        parts("signed", plain()), parts("signed", plain(), plain(), SIGNATURE), parts("signed", SIGNATURE, plain())],
    "an encrypted mail, or an encrypted text in it": [
        parts("encrypted", MIMEApplication(b"Version: 1", "pgp-encrypted"), MIMEApplication(b"x")),
        mail("", "Content-Type: application/pkcs7-mime; smime-type=enveloped-data"),
        "-----BEGIN PGP MESSAGE-----\n\nhQ==\n-----END PGP MESSAGE-----\n"],
    "HTML alone, or no text at all": [
        html().as_bytes(), parts("alternative", html()), parts("mixed", MIMEApplication(FILLED.encode()))],
    "the form in a mail that is attached, or none": [attached(), b"", "Red, please.\n", mail("I vote for Red.\n")],
    "a charset that is none of these": [
        mail(FILLED, "Content-Type: text/plain; charset=x-klingon"),
        mail(FILLED, 'Content-Type: text/plain; charset="X-Klingon" (a comment); format=flowed')],
    "one whose name would move the line": [mail(FILLED, 'Content-Type: text/plain; charset="x\x1b[1m\n ok 123"')],
    "an encoding that is none of these": [
        mail(FILLED, "Content-Transfer-Encoding: x-uuencode"), parts("mixed", plain(), uuencoded())],
    "base64 that is damaged": [mail(base64.b64encode(FILLED.encode()) + b"!", "Content-Transfer-Encoding: base64")],
    "two fields `Content-Type` in a head": [
        mail(FILLED, "Content-Type: text/plain", "Content-Type: text/html"),
        parts("mixed", plain(), doubled("Content-Type"))],
    "two fields `Content-Transfer-Encoding` in a head": [
        mail(FILLED, "Content-Transfer-Encoding: 7bit", "Content-Transfer-Encoding: 8bit")],
    "a field `Content-Type` that programs read in different ways": [
        mail(FILLED, "Content-Type : text/plain"), mail(FILLED, "Content-Type: text/plain; charset*=x; charset*0=y"),
        mail(FILLED, "Content-Type: text/plain; charset*=u\0tf'x"), mail(FILLED, f"Content-Type{NO_BREAK}: text/plain"),
        mail(FILLED, 'Content-Type: multipart/mixed; boundary=a; boundary="b"'), mail(FILLED, "Content-Type: text"),
        mail(f"--a\n\n{FILLED}--a--\n", 'Content-Type: multipart/mixed; boundary="a "')],
    "two fields `Message-ID` that differ": [mail(FILLED, "Message-ID: <2@example.org>")],
    "parts with no line between them": [mail(FILLED, "Content-Type: multipart/mixed")],
    "parts in one another, a thousand deep": [nested(1_000)],
    "more than 500 parts": [parts("mixed", *(plain("x") for _ in range(501)))],
    "more than 10,000,000 bytes": [mail(FILLED + "x" * 10_000_000)],
    "attached mails of more than 30,000,000 bytes, one encoded in another": [attached_encoded(4, 7_600_000)],
    "OpenPGP keys of tens of thousands of packets": [
        FILLED + keys(5, 4_200), parts("mixed", plain(), MIMEApplication(keys(5, 4_200).encode(), "pgp-keys"))],
    "a second form with all boxes empty": [FILLED + quoted(EMPTY), EMPTY + FILLED, quoted(EMPTY + EMPTY) + FILLED],
    "a second form that is filled in": [FILLED + FILLED, FILLED + form(" 1 ", "   ", "   "), FILLED + quoted(FILLED)],
    "all boxes empty": [EMPTY, quoted(EMPTY), EMPTY + EMPTY, form("", " ", "\t", token="tokenA01")],
    "a `-` in each box, or in some and nothing in the others": [form(" - ", "-", " -"), form("   ", " - ", "   ")],
    "ranks above 9": [form(" 35 ", "10", "9")],
    "a letter in a box": [form(" a ", " 1 ", "   ")],
    "a 0 in a box": [form(" 0 ", " 1 ", "   ")],
    "a number with a 0 in front": [form(" 01 ", " 1 ", "   ")],
    "a number above 35": [form(" 36 ", " 1 ", "   ")],
    "two ranks in a box": [form(" 1 2 ", " 1 ", "   ")],
    "a rank before a box": [changed("[ 2 ] Choice 1", "2 [ ] Choice 1")],
    "a rank after a box": [changed("[ 2 ] Choice 1", "[ ] 2 Choice 1")],
    "an option line that is missing": [changed("[ 2 ] Choice 1: Red\n", "")],
    "the last option line that is missing": [changed("[   ] Choice 3: None of the above\n", "")],
    "an option line that was changed": [changed("Choice 1: Red", "Choice 1: Blue")],
    "one that stands twice": [changed("[ 2 ] Choice 1: Red\n", "[ 2 ] Choice 1: Red\n[ 2 ] Choice 1: Red\n")],
    "another line among them": [changed("[ 1 ] Choice 2", "Blue would be better.\n[ 1 ] Choice 2")],
    "an identifier that was changed, or is of another vote": [
        changed(identifier(), hashlib.sha256(b"another").hexdigest()), changed(identifier(), identifier()[:-1])],
    "no identifier": [changed(f"Identifier: {identifier()}\n", "")],
    "a form without its last line": [changed(f"{END}\n", "")],
    "a form without its first line": [changed(f"{BEGIN}\n", "")],
    "a token": [form(" 2 ", " 1 ", "   ", token="tokenA01"), changed("Token:", f"Token:\n{'a1B2' * 16}")],
    "a token that is no such word": [
        form(" 2 ", " 1 ", "   ", token="secret"), form(" 2 ", " 1 ", "  ", token="ä" * 9)],
    "more than a word after the last choice": [
        form(" 2 ", " 1 ", "   ", token="two words"), changed("Token:", "Token: a\nb")],
    "no line for a token": [changed("Token:\n", "")],
}
