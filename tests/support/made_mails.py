"""Mails that are made from a seed, as bytes, with what a reader must say of each: the ranks and the token that it
reads, or why it refuses the mail; whether that is signed; Message-ID, From, and when HOST received it. All this is
known from how the mail was made. The reader, tools/grdesk/ballots/mail.py with tools/grdesk/ballots/form_reader.py, is
then compared with it.

    python3 -m tests.support.made_mails [--count N] [--seed S]

makes N mails with the seeds from S on, and an mbox or a Maildir for every twentieth seed. It prints each difference
with its seed, then how many there were of each kind. `--show` prints the bytes of mails that differ, in base64. It ends
with status 1 if there was a difference.
"""
import argparse
import base64
import re
import sys
import tempfile
import time
import traceback
from collections import Counter
from pathlib import Path
from typing import NamedTuple, Optional

from tests.support.made_boxes import box_differences
from tests.support.made_heads import HOST, Head, made_head
from tests.support.made_parts import Attached, Inventory, Leaf, Verdict, head_bytes, judged, rendered
from tests.support.made_texts import (
    ENCRYPTED, PIECES, UNCLEAR, Luck, Reason, Text, beside, joined, made_form, made_text, post, signed_well,
    with_armour_of_gpg, with_odd_armour)
from tests.support.made_trees import Maker, tree_of

from grdesk.ballots import mail as mails
from grdesk.ballots.form_reader import read_form
from grdesk.error import NotRead

# How long a mail may take, in seconds of this process.
PATIENCE = 1.0
# A head with more characters may be refused.
LONG_HEAD = 200_000
SEPARATOR_DATE = "Thu Jan 15 02:00:00 2026"
BOX = re.compile(rb"\[[^\[\]\n]{0,40}\]")


class Made(NamedTuple):
    """A mail, and what is known of it. `verdict` is None if bytes of it were changed; then only `ballots`, those in it,
    are known, and `is_mixed` says that one of them may have lines of another one."""

    seed: int
    form: object
    content: bytes
    head: Head
    verdict: Optional[Verdict]
    kinds: frozenset
    ballots: tuple = ()
    is_mixed: bool = False
    is_bare: bool = False


def has_bare_ballots(node):
    """Whether each ballot of a tree stands in the file as it is."""
    if isinstance(node, Leaf):
        return node.is_identity or not node.text.all_ballots()
    if isinstance(node, Attached):
        return has_bare_ballots(node.node)
    return all(map(has_bare_ballots, node.children))


def made_text_file(luck, form):
    """A file that is no mail."""
    text = made_text(luck, form)
    kind = luck.choice(["plain"] * 3 + ["clear"] * 3 + ["odd", "two", "gpg", "encrypted"])
    luck.kinds.add(f"a text that is no mail, {kind}")
    if kind == "clear":
        text = joined(beside(luck), luck.one(PIECES)(luck, text), beside(luck))
    elif kind == "odd":
        text = with_odd_armour(luck, text)
    elif kind == "two":
        text = joined(*luck.sample([signed_well(luck, text), signed_well(luck, post(luck))], k=2))
    elif kind == "gpg":
        text = joined(text, with_armour_of_gpg(luck, post(luck)))
    elif kind == "encrypted":
        text = joined(text, Text([ENCRYPTED, "", "x"], is_encrypted=True))
    eol = luck.choice(["\n", "\n", "\r\n"])
    lines = list(text.lines)
    if luck.chance(0.1):
        luck.kinds.add("a text that begins with From")
        first = ["From me to you", "From ", "From d1@example.org", f"From the desk {SEPARATOR_DATE}"]
        lines[:0] = [luck.choice(first)]
    elif luck.chance(0.1):
        luck.kinds.add("a text with what is no field of a mail")
        lines[:0] = [luck.choice(["Note: mine", "Choice: 1", "X-Foo: bar", "date", "from me"]), ""]
    content = eol.join([*lines, ""]).encode()
    if luck.chance(0.1):
        luck.kinds.add("U+FEFF before a text")
        # Before armour it makes a difference for gpg, so a line stands there.
        content = b"\xef\xbb\xbf" + (eol.encode() if text.is_armoured else b"") + content
    verdict = judged(Inventory(Leaf(text, type="text/plain")))
    if content[:1] >= b"\x80" and b"\0" in content:
        # It may be taken for packets.
        verdict = verdict._replace(may=verdict.may | UNCLEAR)
    return content, Head(), verdict, True, text.all_ballots()


def made_whole(luck, form):
    """The bytes of a mail or a text, its head, its verdict, whether its ballots stand there as they are, and which."""
    if luck.chance(0.08):
        return made_text_file(luck, form)
    eol = luck.choice([b"\n", b"\n", b"\r\n"])
    luck.kinds.add("CR LF" if eol == b"\r\n" else "LF")
    head = made_head(luck, form)
    node = tree_of(Maker(luck, form, eol, head))
    lines, body = rendered(node, eol)
    fields = list(head.fields)
    for line in ["MIME-Version: 1.0"][: luck.randint(0, 1)] + list(lines):
        # Received stand at the top.
        fields.insert(luck.randint(count_of_received(fields), len(fields)), line)
    if luck.chance(0.03):
        luck.kinds.add("From at the top of a mail")
        first = ["From voter", "From me to you", "From d1@example.org", f"From d1@x {SEPARATOR_DATE} I was away"]
        fields.insert(0, luck.choice(first))
    elif luck.chance(0.05):
        luck.kinds.add("a separator of an mbox at the top")
        first = [f"From d1@example.org {SEPARATOR_DATE}", "From - Thu Jan  1 02:00:00 2026"]
        fields.insert(0, luck.choice(first))
    end = eol
    if luck.chance(0.05):
        luck.kinds.add("LF and CR LF after the head")
        end = b"\n" if eol == b"\r\n" else b"\r\n"
    content = eol.join([*head_bytes(fields, eol), end + body])
    inventory = Inventory(node, head.around)
    verdict = judged(inventory)
    if sum(map(len, fields)) > LONG_HEAD:
        # It is still a mail that was received.
        head.may.add(Reason.TOO_MUCH)
        head.received, head.message_ids, head.senders = (*head.received, None), (), None
    verdict = verdict._replace(must=verdict.must | head.must, may=verdict.may | head.may)
    ballots = [ballot for place in inventory.places for ballot in place.text.all_ballots()]
    return content, head, verdict, has_bare_ballots(node), ballots


def count_of_received(fields):
    """How many fields at the top of a head are Received."""
    for place, line in enumerate(fields):
        if not line.lower().startswith("received"):
            return place
    return len(fields)


def made(seed):
    """The mail of a seed."""
    luck = Luck(seed)
    form = made_form(luck)
    content, head, verdict, is_bare, ballots = made_whole(luck, form)
    mail = Made(seed, form, content, head, verdict, frozenset(), tuple(ballots), is_bare=is_bare)
    if luck.chance(0.25):
        mail = mangled(luck, mail)
    elif luck.chance(0.002):
        luck.kinds.add("more bytes than may be")
        mail = mail._replace(content=mail.content + b"\n" + b"x" * 10_000_001, verdict=Verdict(
            (), False, frozenset({Reason.TOO_MUCH}), frozenset(Reason)))
    return mail._replace(kinds=frozenset(luck.kinds))


# Bytes that are changed.


def places_outside_boxes(luck, content, count):
    """Some places of bytes, none of them in a box of a form."""
    boxes = [each.span() for each in BOX.finditer(content)] if len(content) < 200_000 else []
    found = sorted(luck.randrange(len(content) + 1) for _ in range(count))
    return [place for place in found if not any(begin < place < end for begin, end in boxes)]


def flipped(luck, content):
    made_bytes = bytearray(content)
    boxes = [each.span() for each in BOX.finditer(content)]
    for _ in range(luck.choice([1, 1, 2, 5, 20])):
        place = luck.randrange(len(content)) if content else 0
        if content and not any(begin <= place < end for begin, end in boxes):
            turned = made_bytes[place] ^ 1 << luck.randrange(8)
            made_bytes[place] = luck.choice([luck.randrange(256), turned, 0, 10, 13, 32])
    return bytes(made_bytes)


def cut(luck, content):
    places = places_outside_boxes(luck, content, 2)
    return content[: places[0]] + content[places[1] :] if len(places) == 2 else content


def cut_at_end(luck, content):
    places = places_outside_boxes(luck, content, 1)
    return content[: places[0]] if places else content


def cut_at_beginning(luck, content):
    places = places_outside_boxes(luck, content, 1)
    return content[places[0] :] if places else content


def doubled(luck, content):
    places = places_outside_boxes(luck, content, 3)
    if len(places) < 3:
        return content
    first, second, third = places
    return content[:third] + content[first:second] + content[third:]


def mangled(luck, mail):
    """A mail of which bytes are changed, or into which bytes of another one are put."""
    kind = luck.choice(["flips of bytes", "flips of bytes", "a cut", "a cut at its end", "a cut at its beginning",
                        "bytes twice", "bytes of two mails"])
    luck.kinds.add(kind)
    changes = {"flips of bytes": flipped, "a cut": cut, "a cut at its end": cut_at_end,
               "a cut at its beginning": cut_at_beginning, "bytes twice": doubled}
    ballots, is_bare = list(mail.ballots), mail.is_bare
    if kind in changes:
        content = changes[kind](luck, mail.content)
    else:
        other, _, _, other_is_bare, more = made_whole(luck, mail.form)
        first = places_outside_boxes(luck, mail.content, 1) or [0]
        second = places_outside_boxes(luck, other, 2)
        piece = other[second[0] :] if len(second) == 1 else other[second[0] : second[1]] if second else b""
        rest = mail.content[first[0] :] if luck.chance(0.5) else b""
        content = mail.content[: first[0]] + piece + rest
        ballots += more
        is_bare &= other_is_bare
    return mail._replace(content=content, verdict=None, ballots=tuple(ballots), is_mixed=kind != "flips of bytes",
                         is_bare=is_bare)


# The comparison.


def mails_in(path):
    """The mails that the reader finds in a file."""
    return mails.mails_at(path).mails


def outcome(mail, form):
    """The ranks, the token and whether they are signed, or the sentence of the refusal."""
    try:
        written = mail.written()
        filled = read_form(form, written.text)
    except NotRead as why:
        return str(why)
    return filled.ranks, filled.token, written.is_signed


def differences(made_mail, path):
    """What the reader says of a mail, and is not so, as sentences. It uses this path for the file."""
    path.write_bytes(made_mail.content)
    began = time.process_time()
    try:
        found = mails_in(path)
        said = [outcome(each, made_mail.form) for each in found]
        heads = [(each.received(HOST), each.source(), each.key(), each.senders(), each.has_received,
                  each.received(None), each.is_mail, each.sender_text(), each.received(f"{HOST.upper()}."), each.date())
                 for each in found]
    except Exception:  # pylint: disable=broad-except
        return [f"it raises {traceback.format_exc(limit=-3)}"]
    took = time.process_time() - began
    slow = [f"it takes {took:.1f} s"] if took > PATIENCE else []
    if made_mail.verdict is None:
        return slow + [each for one in said for each in of_changed(made_mail, one)]
    if len(found) != 1:
        return [*slow, f"there are {len(found)} mails in it"]
    return slow + of_verdict(made_mail.verdict, said[0]) + of_head(made_mail.head, heads[0])


def of_changed(made_mail, said):
    """What is wrong with what was read of a mail whose bytes were changed."""
    if isinstance(said, str) or not made_mail.is_bare:
        return []
    whole = {ballot.ranks for ballot in made_mail.ballots}
    if said[0] in whole:
        return []
    columns = [set(column) | {"-"} for column in zip(*whole)]
    if made_mail.is_mixed and len(columns) == len(said[0]) and all(map(set.__contains__, columns, said[0])):
        return []
    return [f"it reads {said[0]}, and the forms have {sorted(whole)}"]


def of_verdict(verdict, said):
    faults = {fault for ballot in verdict.ballots for fault in ballot.faults}
    filled = [ballot for ballot in verdict.ballots if ballot.is_filled]
    if len(filled) > 1:
        faults.add(Reason.TWO_FORMS)
    if not filled:
        faults.add(Reason.ALL_EMPTY if verdict.ballots else Reason.NO_FORM)
    must = verdict.must | faults
    wanted = " or ".join(sorted(reason.name for reason in must)) or f"{filled[0].ranks} {filled[0].token}"
    if isinstance(said, str):
        fits = any(re.search(reason.value, said) for reason in must | verdict.may)
        return [] if fits else [f"it is refused by {said!r}, and should be by {wanted}" if must else
                                f"it is refused by {said!r}, and should be read: {wanted}"]
    if must:
        return [f"it is read, {said}, and should be refused by {wanted}"]
    right = filled[0].ranks, filled[0].token, verdict.is_signed
    return [] if said == right else [f"it is read as {said}, and should be as {right}"]


def of_head(head, said):
    received, source, key, senders, has_received, without_host, is_mail, sender, received_again, _ = said
    found = []
    if is_mail != head.is_mail:
        return [f"it is {'a mail' if is_mail else 'no mail'}, and should be the other"]
    if received not in head.received:
        found.append(f"{HOST} received it at {received}, and should have at {head.received}")
    if received_again != received:
        found.append(f"{HOST} received it at {received}, and {HOST.upper()}. at {received_again}")
    if without_host is not None:
        found.append("no host received it, and it has a moment of that")
    if has_received != head.has_received:
        found.append(f"has_received is {has_received}")
    if len(sender) > 100 or bool(sender) and not is_mail:
        found.append(f"it is said to come from {sender!r}")
    identifier = source.get("message_id")
    if head.message_ids and identifier not in head.message_ids:
        found.append(f"its Message-ID is {identifier!r}, and should be {head.message_ids}")
    if head.message_ids and key != (identifier or source["sha256"]):
        found.append(f"its key is {key!r}")
    if head.senders is not None and tuple(senders) != head.senders:
        found.append(f"its senders are {senders}, and should be {head.senders}")
    return found


def main():
    words = argparse.ArgumentParser(description="Makes mails from seeds, and compares what the reader says of them.")
    words.add_argument("--count", type=int, default=2_000, help="how many mails")
    words.add_argument("--seed", type=int, default=1, help="the seed of the first one")
    words.add_argument("--show", action="store_true", help="prints the bytes of mails that differ, in base64")
    given = words.parse_args()
    kinds, wrong = Counter(), 0
    for seed in range(given.seed, given.seed + given.count):
        with tempfile.TemporaryDirectory() as folder:
            mail = made(seed)
            found = differences(mail, Path(folder) / "mail")
            wrong += report(f"seed {seed}", found, mail.kinds, kinds)
            if found and given.show:
                print(base64.b64encode(mail.content).decode(), flush=True)
        if seed % 20 == 0:
            with tempfile.TemporaryDirectory() as folder:
                wrong += report(f"box of seed {seed}", *box_differences(seed, Path(folder)), kinds)
    for kind, count in sorted(kinds.items()):
        print(f"{count:7} {kind}")
    print(f"{given.count} mails and {given.count // 20} boxes of {len(kinds)} kinds, {wrong} with a difference")
    return 1 if wrong else 0


def report(name, found, its_kinds, kinds):
    """Prints what differs, counts the kinds, and gives whether something differs."""
    kinds.update(its_kinds)
    for each in found:
        print(f"{name}: {each}\n    of {', '.join(sorted(its_kinds))}", flush=True)
    return bool(found)


if __name__ == "__main__":
    sys.exit(main())
