"""The trees of parts of mails that are made from a seed: plain ones, signed ones, and those by which somebody would
have a form read that nobody signed."""
import base64
import re
from dataclasses import dataclass, field

from tests.support.made_heads import HOST, Head
from tests.support.made_parts import (
    Attached, Leaf, Multi, attachment, boundary_of, html_of, in_base64, other_transfer, quoted_printable,
    signature_leaf, spoil_fields, text_leaf, type_line)
from tests.support.made_texts import (
    BEGIN, ENCRYPTED, END, IDENTIFIER, PIECES, SIGNATURE, SIGNATURE_END, SIGNED, TOKEN, UNCLEAR, Ballot, Luck, Reason,
    Text, beside, joined, made_text, post, right_form, signed_well, stray_armour, with_armour_of_gpg, with_odd_armour)


@dataclass
class Maker:
    """What the makers of trees share: the luck, the vote, the end of a line, and the head of the mail."""

    luck: Luck
    form: object
    eol: bytes
    head: Head
    boundaries: list = field(default_factory=list)

    def text(self, text=None, kind="text/plain"):
        """A part with a text that a voter may have written, or with this one."""
        made = made_text(self.luck, self.form) if text is None else text
        odd = kind == "text/plain" and self.luck.chance(0.04)
        leaf = text_leaf(self.luck, made, self.eol, kind, odd)
        if self.luck.chance(0.02):
            other_transfer(self.luck, leaf)
        if self.luck.chance(0.05):
            spoil_fields(self.luck, leaf)
        return leaf

    def note(self, text=None):
        """A plain text without a form."""
        return text_leaf(self.luck, text or Text(["_______", "A list", "https://lists.example.org"]), self.eol)

    def right(self):
        return right_form(self.luck, self.form)

    def multi(self, *children, **more):
        boundary = boundary_of(self.luck, *self.boundaries)
        self.boundaries.append(boundary)
        made = Multi(list(children), boundary=boundary, **more)
        if self.luck.chance(0.2):
            self.luck.kinds.add("a preamble and an epilogue")
            made.preamble, made.epilogue = Text(["This is a message in parts."]), Text(["", "The end."])
        if self.luck.chance(0.05):
            self.luck.kinds.add("blanks behind a boundary")
            made.blanks = self.luck.choice([" ", "\t", "  "])
        if self.luck.chance(0.05):
            self.luck.kinds.add("what is like a boundary")
            mark = f"--{boundary}"
            # No boundary is another one with an underscore behind it.
            made.preamble = Text([f" {mark}", f"{mark}_x", f"> {mark}", mark[:-1], f"x\r{mark}\rx", f"{mark}-"])
        if self.luck.chance(0.1):
            made.name = "Multipart"
        return made

    def signed(self, first, kind="application/pgp-signature", **more):
        """A multipart/signed as PGP/MIME or S/MIME has it."""
        end = signature_leaf(self.luck, self.eol, kind)
        more.setdefault("parameters", f'micalg="pgp-sha512"; protocol="{kind}"')
        return self.multi(first, end, subtype="signed", **more)

    def attached(self, node, is_in_digest=False):
        """A mail that is attached."""
        head = ["From: d7@example.org", "Message-ID: <inner@x>",
                f"Received: from x by {HOST}; 1 Jan 2026 00:00:00 +0000"]
        return Attached(head[: self.luck.randint(1, 3)], node, is_in_digest)

    def old_post(self):
        """A right clear-signed text without a form."""
        return signed_well(self.luck, post(self.luck))

    def file_of(self, text, kind=None):
        return attachment(self.luck, text, self.eol, kind)


def alternative(maker):
    text = made_text(maker.luck, maker.form)
    children = [maker.text(text), maker.text(html_of(text), "text/html")]
    return maker.multi(*children, subtype="alternative")


def several_texts(maker):
    children = [maker.text() for _ in range(maker.luck.randint(2, 4))]
    return maker.multi(*children)


def with_attachments(maker):
    texts = [maker.luck.choice([Text([]), maker.right(), Text(["some text"])]) for _ in range(maker.luck.randint(1, 3))]
    return maker.multi(maker.text(), *map(maker.file_of, texts))


def nested(maker):
    node = maker.text()
    for _ in range(maker.luck.randint(2, 10)):
        subtype = maker.luck.choice(["mixed", "related", "alternative", "report", "x-odd"])
        others = [maker.note()] if maker.luck.chance(0.3) else []
        node = maker.multi(*maker.luck.sample([node, *others], k=1 + len(others)), subtype=subtype)
    return node


def html_alone(maker):
    leaf = maker.text(html_of(maker.right()), "text/html")
    return leaf if maker.luck.chance(0.5) else maker.multi(leaf, subtype="alternative")


def beside_attached(maker):
    inner = maker.text() if maker.luck.chance(0.5) else maker.multi(maker.text(), maker.note())
    clean(inner)
    return maker.multi(maker.text(), maker.attached(inner))


def attached_alone(maker):
    return maker.attached(clean(maker.text()))


def digest(maker):
    return maker.multi(maker.attached(clean(maker.text()), True), subtype="digest")


def clean(node):
    """A tree without faults of its fields, as its reader need not see those of an attached mail."""
    for each in [node] if isinstance(node, Leaf) else node.children:
        each.field_faults.clear()
        each.lines = [line for line in each.lines if " :" not in line and "\t:" not in line]
        each.lines = list({line.split(":")[0].lower(): line for line in each.lines}.values())
        each.may |= {Reason.CHARSET, Reason.TRANSFER, Reason.UNREADABLE, Reason.FIELD}
    return node


def no_boundary(maker):
    return maker.multi(maker.text(), maker.note(), has_boundary=False)


def no_last_boundary(maker):
    return maker.multi(maker.text(), maker.text(), is_closed=False)


def many_parts(maker):
    right = maker.text(maker.right())
    count = maker.luck.randint(50, 400)
    others = [Leaf(Text([]), ["Content-Type: image/png"], b"x", "image/png") for _ in range(count)]
    return maker.multi(*others, right)


def too_many_parts(maker):
    node = many_parts(maker)
    count = maker.luck.choice([600, 2_000, 5_000])
    node.children += [Leaf(Text(["x"]), [], b"x") for _ in range(count)]
    node.field_faults.add(Reason.TOO_MUCH)
    return node


def too_many_levels(maker):
    """One in another, with boundaries that are short."""
    text = maker.right()
    count = maker.luck.choice([40, 200, 2_000, 20_000])
    line = b"Content-Type: multipart/mixed; boundary=b%d"
    levels = [maker.eol.join([b"--b%d" % number, line % (number + 1), b"", b""]) for number in range(count)]
    body = b"".join(levels) + maker.eol.join([b"--b%d" % count, b"", *[each.encode() for each in text.lines], b""])
    return Leaf(text, [(line % 0).decode()], body, "multipart/mixed", field_faults={Reason.TOO_MUCH, Reason.UNREADABLE})


# Encrypted mails.


def pgp_encrypted(maker):
    first = Leaf(Text([]), ["Content-Type: application/pgp-encrypted"], b"Version: 1" + maker.eol,
                 "application/pgp-encrypted")
    lines = [ENCRYPTED, "", "hQIMA0", "-----END PGP MESSAGE-----"]
    second = maker.file_of(Text(lines, is_encrypted=True), "application/octet-stream")
    return maker.multi(first, second, subtype="encrypted", parameters='protocol="application/pgp-encrypted"')


def smime_enveloped(maker):
    kind = maker.luck.choice(["application/pkcs7-mime", "application/x-pkcs7-mime"])
    lines = [type_line(maker.luck, kind, ["smime-type=enveloped-data"]), "Content-Transfer-Encoding: base64"]
    leaf = Leaf(Text([]), lines, in_base64(maker.luck, b"0123456789" * 20, maker.eol), kind)
    return leaf if maker.luck.chance(0.6) else maker.multi(maker.text(), leaf)


def encrypted_text(maker):
    text = Text([ENCRYPTED + maker.luck.choice(["", " ", " \t"]), "", "hQIMA0", "-----END PGP MESSAGE-----"],
                is_encrypted=True)
    around = maker.luck.choice([text, joined(maker.right(), text), joined(text, maker.right())])
    return maker.text(around)


def encrypted_beside(maker):
    """A message in an attachment, which gpg takes for one."""
    text = Text([ENCRYPTED, "", "owEB", "-----END PGP MESSAGE-----"], is_encrypted=True)
    return maker.multi(maker.text(maker.right()), maker.file_of(text))


ENCRYPTED_TREES = {
    "encrypted by PGP/MIME": pgp_encrypted,
    "encrypted by S/MIME": smime_enveloped,
    "an encrypted text": encrypted_text,
    "a PGP message in an attachment": encrypted_beside,
}


# Signed by MIME, as programs do it.


def by_mutt(maker):
    node = maker.signed(maker.text(), parameters='micalg=pgp-sha512; protocol="application/pgp-signature"')
    node.lines_before = ["Content-Disposition: inline"]
    return node


def by_thunderbird(maker):
    inner = maker.multi(maker.multi(maker.text(), subtype="mixed", parameters='protected-headers="v1"'))
    return maker.signed(inner)


def by_evolution(maker):
    return maker.signed(alternative(maker), parameters='micalg="pgp-sha512"; protocol="application/pgp-signature"')


def by_k9(maker):
    node = maker.signed(maker.multi(maker.text()))
    node.boundary = "----" + maker.luck.word(20, 30).upper()
    return node


def by_smime(maker):
    kind = maker.luck.choice(["application/pkcs7-signature", "application/x-pkcs7-signature"])
    return maker.signed(maker.text(), kind)


def with_key(maker):
    """The first part has a public key beside the text."""
    key = Text(["-----BEGIN PGP PUBLIC KEY BLOCK-----", "", "mAYEAAAAABY=", "-----END PGP PUBLIC KEY BLOCK-----"])
    return maker.signed(maker.multi(maker.text(), maker.file_of(key, "application/pgp-keys")))


def by_any(maker):
    return maker.luck.choice([by_mutt, by_thunderbird, by_evolution, by_k9, by_smime, with_key])(maker)


def through_a_list(maker):
    return maker.multi(by_any(maker), maker.note())


def broken_by_a_list(maker):
    """The multipart/signed became a multipart/mixed."""
    return maker.multi(maker.text(maker.right()), signature_leaf(maker.luck, maker.eol), maker.note())


def signed_of_three(maker):
    node = maker.signed(maker.text())
    node.children.insert(maker.luck.randint(0, 2), maker.luck.choice([maker.note(), maker.file_of(Text(["x"]))]))
    return node


def signed_of_one(maker):
    node = maker.signed(maker.text())
    del node.children[maker.luck.randint(0, 1)]
    return node


def signed_by_another_type(maker):
    node = maker.signed(maker.text())
    second = node.children[1]
    second.type = maker.luck.choice(["application/octet-stream", "text/plain", "application/pgp-keys"])
    second.lines[0] = f"Content-Type: {second.type}"
    return node


def signed_turned_round(maker):
    node = maker.signed(maker.text())
    node.children.reverse()
    return node


def signed_without_boundary(maker):
    return maker.signed(maker.text(), has_boundary=False)


def form_beside_signed(maker):
    """A form stands somewhere outside of what a multipart/signed signs."""
    luck = maker.luck
    node = maker.signed(maker.text(luck.choice([post(luck), maker.right()])))
    where = luck.one(places("before", "after", "in HTML", "in an attachment", "in an attached mail", "in a preamble",
                            "in an epilogue", "in the head", "in the signature part"),
                     "a form beside multipart/signed, ")
    return put_beside(maker, node, where, maker.right())


def places(*names):
    """A table of places, which are kinds by their names."""
    return {name: name for name in names}


def put_beside(maker, node, where, text):
    """A tree with another one and with a text, which stands there."""
    if where == "in the head":
        maker.head.fields.append("X-Note: see\n " + "\n ".join(text.lines))
        maker.head.around.append(text)
        return node
    if where in ("in a preamble", "in an epilogue"):
        # The inner one or one around it.
        node = node if isinstance(node, Multi) and maker.luck.chance(0.5) else maker.multi(node)
        name = "preamble" if "preamble" in where else "epilogue"
        setattr(node, name, text)
        return node
    if where == "in the signature part":
        second = node.children[1]
        second.text = joined(second.text, text)
        second.body += maker.eol + maker.eol.join(line.encode() for line in text.lines)
        return node
    parts = {
        "before": lambda: [text_leaf(maker.luck, text, maker.eol), node],
        "after": lambda: [node, text_leaf(maker.luck, text, maker.eol)],
        "in HTML": lambda: [node, text_leaf(maker.luck, html_of(text), maker.eol, "text/html")],
        "in an attachment": lambda: [node, maker.file_of(text)],
        "in an attached mail": lambda: [node, maker.attached(text_leaf(maker.luck, text, maker.eol))],
    }
    return maker.multi(*parts[where](), subtype=maker.luck.choice(["mixed", "alternative", "related"]))


def two_signed(maker):
    first, second = by_any(maker), maker.signed(maker.note())
    return maker.multi(*maker.luck.sample([first, second], k=2))


def signed_in_signed(maker):
    return maker.signed(maker.luck.choice([by_any(maker), maker.multi(by_any(maker), maker.note())]))


def clear_signed_in_signed(maker):
    return maker.signed(maker.text(signed_well(maker.luck, made_text(maker.luck, maker.form))))


def attached_in_signed(maker):
    """A mail is attached inside of what is signed, and is not read."""
    return maker.signed(maker.multi(maker.text(), maker.attached(clean(maker.text()))))


SIGNED_TREES = {
    "multipart/signed by Mutt": by_mutt,
    "multipart/signed by Thunderbird": by_thunderbird,
    "multipart/signed by Evolution": by_evolution,
    "multipart/signed by K-9": by_k9,
    "multipart/signed by S/MIME": by_smime,
    "multipart/signed with a public key": with_key,
    "multipart/signed through a list": through_a_list,
    "multipart/signed that a list broke": broken_by_a_list,
    "multipart/signed of three parts": signed_of_three,
    "multipart/signed of one part": signed_of_one,
    "multipart/signed by another type": signed_by_another_type,
    "multipart/signed turned round": signed_turned_round,
    "multipart/signed without a boundary": signed_without_boundary,
    "a form beside multipart/signed": form_beside_signed,
    "two multipart/signed": two_signed,
    "multipart/signed in another": signed_in_signed,
    "clear-signed in multipart/signed": clear_signed_in_signed,
    "an attached mail in multipart/signed": attached_in_signed,
}


# Clear-signed texts.


def clear(maker):
    """A clear-signed text, right or not, with other lines around it."""
    text = maker.luck.one(PIECES)(maker.luck, made_text(maker.luck, maker.form))
    return maker.text(joined(beside(maker.luck), text, beside(maker.luck)))


def clear_and_footer(maker):
    return maker.multi(clear(maker), maker.note())


def clear_and_html(maker):
    """The HTML has the form too, which nothing signs."""
    text = made_text(maker.luck, maker.form)
    children = [maker.text(signed_well(maker.luck, text)), maker.text(html_of(text), "text/html")]
    return maker.multi(*children, subtype="alternative")


def form_beside_clear(maker):
    """A form in the same text as a clear-signed piece, or elsewhere."""
    luck = maker.luck
    piece = signed_well(luck, luck.choice([post(luck), maker.right()]))
    where = luck.one(places("above", "below", "before", "after", "in HTML", "in an attachment", "in an attached mail",
                            "in a preamble", "in an epilogue", "in the head"), "a form beside a clear-signed text, ")
    if where in ("above", "below"):
        return maker.text(joined(maker.right(), piece) if where == "above" else joined(piece, maker.right()))
    return put_beside(maker, text_leaf(luck, piece, maker.eol), where, maker.right())


def two_pieces(maker):
    """Two clear-signed texts, of which one may have the form."""
    luck = maker.luck
    pieces = luck.sample([signed_well(luck, made_text(luck, maker.form)), maker.old_post()], k=2)
    if luck.chance(0.4):
        return maker.text(joined(*pieces))
    return maker.multi(*[maker.text(piece) for piece in pieces])


def armour_in_head(maker):
    """Lines of armour stand in the head of the mail, where they are no fields."""
    luck = maker.luck
    line = luck.choice([SIGNED, SIGNATURE, SIGNATURE_END])
    maker.head.fields.append(line + luck.choice(["", " ", "\t "]))
    maker.head.around.append(Text([line], is_stray=True))
    node = text_leaf(luck, maker.right(), maker.eol)
    return luck.choice([node, maker.signed(node), text_leaf(luck, signed_well(luck, maker.right()), maker.eol)])


def armour_beside(maker):
    """Armour somewhere beside what would be read: an old post, a signature alone, or a line of armour."""
    luck = maker.luck
    read_first = luck.choice([lambda: text_leaf(luck, maker.right(), maker.eol),
                              lambda: text_leaf(luck, signed_well(luck, maker.right()), maker.eol),
                              lambda: maker.signed(text_leaf(luck, maker.right(), maker.eol))])()
    armour = luck.choice([maker.old_post(), stray_armour(luck), with_armour_of_gpg(luck, post(luck))])
    where = luck.one(places("before", "after", "in HTML", "in an attachment", "in an attached mail", "in a preamble",
                            "in an epilogue", "in the signature part"), "armour ")
    if where == "in the signature part" and not isinstance(read_first, Multi):
        where = "in an attachment"
    if where == "in HTML":
        leaf = text_leaf(luck, joined(Text(["<pre>"]), armour, Text(["</pre>"])), maker.eol, "text/html")
        return maker.multi(read_first, leaf)
    if where == "in the signature part":
        encrypted = Text([ENCRYPTED, "", "owEB", "-----END PGP MESSAGE-----"], is_encrypted=True)
        armour = luck.choice([maker.old_post(), encrypted])
    return put_beside(maker, read_first, where, armour)


def attached_signed(maker):
    """A mail is attached that was signed, beside a text that was not."""
    inner = maker.luck.choice([
        lambda: text_leaf(maker.luck, maker.old_post(), maker.eol),
        lambda: maker.signed(maker.note()),
        lambda: maker.signed(maker.note(), "application/pkcs7-signature")])()
    return maker.multi(text_leaf(maker.luck, made_text(maker.luck, maker.form), maker.eol), maker.attached(inner))


def odd_armour(maker):
    """What looks clear-signed for a reader that takes odd blanks for blanks, and beside it an old post at times."""
    fake = with_odd_armour(maker.luck, made_text(maker.luck, maker.form))
    return maker.text(joined(fake, maker.old_post()) if maker.luck.chance(0.4) else fake)


def armour_of_gpg(maker):
    """Armour that gpg alone takes for some, in the same text as a form."""
    hidden = with_armour_of_gpg(maker.luck, post(maker.luck))
    form = maker.luck.choice([maker.right(), signed_well(maker.luck, maker.right())])
    return maker.text(joined(*maker.luck.sample([form, hidden], k=2)))


def hidden_armour(maker):
    """The bytes of the file have an old post, which gpg sees, and the part has other ones once it is decoded."""
    luck, eol = maker.luck, maker.eol
    text = luck.choice([maker.right(), signed_well(luck, maker.right())])
    content = "\n".join([*text.lines, ""]).encode()
    raw = maker.old_post().lines
    leaf = Leaf(text, is_identity=False)
    leaf.field_faults |= UNCLEAR | {Reason.UNREADABLE, Reason.TRANSFER}
    if luck.chance(0.5):
        luck.kinds.add("raw armour behind base64")
        # Nothing behind the last digits is decoded.
        content += b"\n" * (1 + (-len(content) - 2) % 3)
        body = base64.b64encode(content)
        leaf.body = eol.join([body, *[line.encode() for line in raw], b""])
        leaf.lines = ["Content-Type: text/plain; charset=utf-8", "Content-Transfer-Encoding: base64"]
    else:
        luck.kinds.add("raw armour behind quoted-printable")
        body = quoted_printable(luck, content.replace(b"\n-----", b"\n=2D----").replace(b"=2D", b"-"), eol)
        body = re.sub(rb"(?m)^-(?=----)", b"=2D", body)
        leaf.body = eol.join([body, *[b"x=" + eol + line.encode() if line.startswith("-----") else line.encode()
                                      for line in raw], b""])
        leaf.lines = ["Content-Type: text/plain; charset=utf-8", "Content-Transfer-Encoding: quoted-printable"]
    return leaf


def message_in_piece(maker):
    """A line of armour of an encrypted text, in what is signed or beside it."""
    line = Text([ENCRYPTED], is_maybe_encrypted=True)
    inner = made_text(maker.luck, maker.form)
    if maker.luck.chance(0.5):
        return maker.text(joined(line, signed_well(maker.luck, inner)))
    piece = signed_well(maker.luck, joined(inner, line))
    piece.is_maybe_encrypted = True
    return maker.text(piece)


CLEAR_TREES = {
    "a clear-signed text": clear,
    "a clear-signed text through a list": clear_and_footer,
    "a clear-signed text beside HTML": clear_and_html,
    "a form beside a clear-signed text": form_beside_clear,
    "two clear-signed texts": two_pieces,
    "armour beside what is read": armour_beside,
    "armour in the head": armour_in_head,
    "an attached mail that is signed": attached_signed,
    "armour with odd blanks": odd_armour,
    "armour that gpg alone takes for some": armour_of_gpg,
    "armour that is hidden from readers of parts": hidden_armour,
    "a line of an encrypted text beside a signed one": message_in_piece,
}

PLAIN_TREES = {
    "a plain text": lambda maker: maker.text(),
    "a text beside HTML": alternative,
    "several plain texts": several_texts,
    "a text with attachments": with_attachments,
    "parts in parts": nested,
    "HTML alone": html_alone,
    "attachments alone": lambda maker: maker.multi(maker.file_of(maker.right())),
    "a text through a list": lambda maker: maker.multi(maker.text(), maker.note()),
    "a text beside an attached mail": beside_attached,
    "an attached mail alone": attached_alone,
    "a digest": digest,
    "a multipart without a boundary": no_boundary,
    "a multipart without its last boundary": no_last_boundary,
    "hundreds of parts": many_parts,
}
RARE_TREES = {
    "more parts than may be": too_many_parts,
    "more levels than may be": too_many_levels,
}


# What hardly anybody sends. Where the rules are silent, `may` has all reasons: if it is read, then rightly.


def behind_the_last_boundary(maker):
    """Nothing behind the last boundary is a part."""
    node = maker.multi(maker.text())
    node.epilogue = joined(Text([f"--{node.boundary}", "Content-Type: text/plain", ""]), maker.right())
    return node


def same_boundary(maker):
    inner = Multi([maker.text()], boundary="same")
    return Multi([inner, maker.note()], boundary="same", may=set(Reason))


def boundary_without_quotes(maker):
    node = maker.multi(maker.text())
    node.boundary = maker.luck.word(1, 30)
    node.boundary_field = f"{maker.luck.choice(['boundary', 'BOUNDARY', 'Boundary'])}={node.boundary}"
    return node


def boundary_with_escapes(maker):
    node = maker.multi(maker.text())
    node.boundary = 'a"b\\c' + maker.luck.word(1, 9)
    escaped = node.boundary.replace("\\", "\\\\").replace('"', '\\"')
    node.boundary_field = f'boundary="{escaped}"'
    node.may |= {Reason.FIELD, Reason.UNREADABLE}
    return node


def two_boundaries(maker):
    make = maker.luck.choice([maker.multi, maker.signed])
    node = make(maker.text(), field_faults={Reason.FIELD, Reason.UNREADABLE})
    others = ["boundary=other", "boundary*0=other", "boundary*=us-ascii''other"]
    fields = maker.luck.sample([f'boundary="{node.boundary}"', maker.luck.choice(others)], k=2)
    node.boundary_field = "; ".join(fields)
    return node


def multipart_in_base64(maker):
    node = maker.multi(maker.text(), may=set(Reason))
    name = maker.luck.choice(["base64", "quoted-printable", "x-uuencode"])
    node.lines_before = [f"Content-Transfer-Encoding: {name}"]
    return node


def fields_of_a_mail_in_a_part(maker):
    leaf = maker.text()
    leaf.lines += ["Message-ID: <part@x>", "From: d9@example.org", "Subject : x", "no field at all",
                   f"Received: from x by {HOST}; 1 Jan 2026 00:00:00 +0000"]
    return maker.multi(leaf)


def no_empty_line_in_a_part(maker):
    empty = Leaf(Text([]), ["Content-Type: text/plain"], may=set(Reason))
    return maker.multi(empty, maker.text(), may=set(Reason))


def odd_type(maker):
    leaf = text_leaf(maker.luck, maker.right(), maker.eol)
    kinds = ["text/plain x", "text", "text/", "/plain", "text/plain/x", "", ";", "text/plain;;charset=utf-8",
             "text / plain", "(x) text/plain", "text/plain (x)", '"text/plain"', "text/plain; charset",
             "text/plain, text/html", "*/*",
             "text/plain; charset=utf-8 x", "text/plain; (;", 'text/plain; "', "text/pl\0ain", "text/plain\r; x=y"]
    kind = maker.luck.choice(kinds)
    leaf.lines = [line for line in leaf.lines if not line.lower().startswith("content-type")]
    leaf.lines.append(f"Content-Type: {kind}")
    leaf.may |= set(Reason)
    return leaf if maker.luck.chance(0.5) else maker.multi(leaf)


def junk_signature(maker):
    """What stands as a signature is none."""
    text = signed_well(maker.luck, made_text(maker.luck, maker.form))
    place = next(place for place, line in enumerate(text.lines) if line.startswith(SIGNATURE))
    text.lines[place + 1 :] = ["", *maker.luck.choice([["iQ=="], ["AAAA", "=AAAA"], [], ["?"]]), SIGNATURE_END]
    text.may |= set(UNCLEAR)
    return maker.text(text)


def broken_encoding(maker):
    """Digits of base64, or pairs of quoted-printable, that are none, beside a form."""
    text = maker.right()
    leaf = Leaf(text, is_identity=False, may=set(Reason))
    content = "\n".join([*text.lines, ""]).encode()
    if maker.luck.chance(0.5):
        digits = base64.b64encode(content).rstrip(b"=")
        leaf.body = digits + maker.luck.choice([b"", b"=", b"====", b"\n!!", b"A", b"\0"])
        leaf.lines = ["Content-Transfer-Encoding: base64"]
    else:
        end = maker.luck.choice([b"=", b"=Z", b"=zz", b"=\0", b"\xff"])
        leaf.body = quoted_printable(maker.luck, content, maker.eol) + end
        leaf.lines = ["Content-Transfer-Encoding: quoted-printable"]
    return leaf


STRANGE_TREES = {
    "parts behind the last boundary": behind_the_last_boundary,
    "one boundary in another": same_boundary,
    "a boundary without quotes": boundary_without_quotes,
    "a boundary with escapes": boundary_with_escapes,
    "two boundaries": two_boundaries,
    "a multipart in base64": multipart_in_base64,
    "fields of a mail in the head of a part": fields_of_a_mail_in_a_part,
    "a part without an empty line": no_empty_line_in_a_part,
    "an odd content type": odd_type,
    "a signature that is none": junk_signature,
    "a broken encoding": broken_encoding,
}


# What may take long.


def long_text(*lines):
    def make(maker):
        return maker.text(joined(Text(list(lines)), maker.right()))

    return make


def long_form(maker):
    lines = [BEGIN, f"{IDENTIFIER} {maker.form.identifier()}", *["[ 1 ] Choice 1: Red"] * 20_000, TOKEN, END]
    return maker.text(Text(lines, [Ballot("", None, faults=frozenset({Reason.OPTION}))]))


def long_token(maker):
    text = maker.right()
    place = next(place for place, line in enumerate(text.lines) if END in line)
    text.lines[place:place] = ["a"] * 20_000
    text.ballots = [each._replace(faults=frozenset({Reason.TOKEN, Reason.OPTION})) for each in text.ballots]
    return maker.text(text)


def many_forms(maker):
    lines = [BEGIN, END] * 20_000
    return maker.text(Text(lines, [Ballot("", None, faults=frozenset({Reason.IDENTIFIER, Reason.OPTION}))]))


def many_boundaries(maker):
    node = maker.multi(maker.text(maker.right()), field_faults={Reason.TOO_MUCH})
    node.preamble = Text([])
    node.children += [Leaf(Text([]), [], b"")] * 50_000
    return node


def long_received(maker):
    """A comment within comments at the top, which hides nothing but itself."""
    date = "Thu, 15 Jan 2026 02:00:00 +0000"
    deep = maker.luck.choice(["(" * 50_000 + ")" * 50_000, "(x)" * 50_000, "<x>" * 50_000, '"x" ' * 50_000])
    maker.head.fields.insert(0, f"Received: from x {deep} by {HOST} {deep}; {date}")
    # So long a field need not be looked at.
    maker.head.received, maker.head.has_received = (1_768_442_400, None), True
    return maker.text()


def many_fields(maker):
    """They may stand above all that says that it is a mail."""
    more = ["X-A: b"] * 20_000 + ["no field"] * 20_000 + ["X-B: c" + "\n d" * 20_000]
    place = maker.luck.choice([0, len(maker.head.fields)])
    maker.head.fields[place:place] = more
    return maker.text()


def many_parameters(maker):
    leaf = text_leaf(maker.luck, maker.right(), maker.eol)
    leaf.lines = [line for line in leaf.lines if not line.lower().startswith("content-type")]
    more = maker.luck.choice(["; a=b" * 20_000, ";" * 100_000, "; a*0=b" * 20_000, "; x=" + '"' + "\\a" * 100_000 + '"',
                              "; " + "(" * 100_000, "; charset*0*=x" * 10_000])
    leaf.lines.append(f"Content-Type: text/plain{more}")
    leaf.may |= set(Reason)
    return leaf


def long_sender(maker):
    more = maker.luck.choice(["a@b, " * 20_000, "=?utf-8?q?a?= " * 20_000, "<" * 100_000, '"' * 99_999, "(" * 100_000,
                              "a" * 300_000, "=?utf-8?b?" + "A" * 100_000 + "?="])
    maker.head.fields.append(f"From: {more}")
    maker.head.senders = None
    return maker.text()


LONG_TREES = {
    "a line of quote marks": long_text(">" * 300_000, " " * 300_000, "\t" * 300_000),
    "a line of brackets": long_text("[" * 200_000, "]" * 200_000, "+" * 200_000, "-" * 200_000),
    "many quoted lines": long_text(*["> > > > x"] * 30_000),
    "many empty lines": long_text(*[""] * 100_000),
    "many lone CRs": long_text("a\r" * 100_000),
    "many lines of hyphens": long_text(*["-----"] * 30_000),
    "a form of many lines": long_form,
    "many words behind a token": long_token,
    "many forms": many_forms,
    "many boundaries": many_boundaries,
    "a long Received": long_received,
    "many fields": many_fields,
    "many parameters": many_parameters,
    "a long From": long_sender,
    "many pieces of armour": lambda maker: maker.text(Text([SIGNED, SIGNATURE, SIGNATURE_END] * 10_000, is_stray=True)),
}


def tree_of(maker):
    luck = maker.luck
    share = luck.random()
    if share < 0.01:
        return luck.one(RARE_TREES)(maker)
    if share < 0.02:
        return luck.one(LONG_TREES)(maker)
    if share < 0.06:
        return luck.one(STRANGE_TREES)(maker)
    if share < 0.10:
        return luck.one(ENCRYPTED_TREES)(maker)
    if share < 0.32:
        return luck.one(SIGNED_TREES)(maker)
    if share < 0.62:
        return luck.one(CLEAR_TREES)(maker)
    return luck.one(PLAIN_TREES)(maker)
