"""A desk on which a vote was called, for tests that look at what stands around a vote: ballots, lists and pages.
Another resolution of it is under discussion."""
from urllib.parse import quote

from tests.support.program import DAY, T0, TOP, Ran, make_desk, run, serve, expect

CALLED, DAYS = T0 + 14 * DAY, 7
ENDED = CALLED + DAYS * DAY
# A summary of 80 characters.
LONG = "Green, as long as the rooms are not too small for it, and else a colour of oaks."


class Called:
    """A desk in a file: resolution 1 is in voting, with so many voters d1, d2 and so on, and 2 under discussion. It has
    accepted `count` acts."""

    top = TOP

    def __init__(self, file, count):
        self.file = file
        self.count = count

    @classmethod
    def made(cls, work, voters=4, name="called", summaries=("Red", LONG), begin=T0):
        """A new one. Its discussion begins at a moment, and is over two weeks later, when it is called."""
        file, csv = work / f"{name}.db", work / f"{name}.csv"
        make_desk(file)
        rows = "".join(f"d{number},The Name of {number},current\n" for number in range(1, voters + 1))
        csv.write_text(f"login,name,status\n{rows}")
        line = f"ok 1 added {voters} changed 0 same 0\n".encode()
        expect("import", run("import", file, csv, "--at", begin), Ran(0, line, b""))
        desk = cls(file, 1)
        text = quote("The desk is red.\n\n> With a quote.\n")
        form = f"author=d1&summary={quote(summaries[0], safe='')}&text={text}&ratio=3"
        desk.enter(begin, ("/resolutions", form, " resolution 1"))
        # As many as are required (Constitution, 4.2.7).
        sponsors = next(count for count in range(6) if count >= 5 or 4 * count * count >= voters)
        for number in range(2, sponsors + 2):
            desk.enter(begin, ("/resolutions/1/sponsor", f"choice=1&login=d{number}", ""))
        for number, summary in enumerate(summaries[1:], start=2):
            form = f"author=@leader&summary={quote(summary, safe='')}&text=Long it is.&ratio=1"
            desk.enter(begin, ("/resolutions/1/choice", form, f" choice {number}"))
        called = begin + CALLED - T0
        desk.enter(
            called,
            ("/resolutions", "author=@leader&summary=Other&text=x&ratio=1", " resolution 2"),
            ("/resolutions/1/call", f"days={DAYS}", f" places {len(summaries) + 1} until {called + DAYS * DAY}"),
        )
        return desk

    def vote(self, number, login, ranks, token):
        """Enters a vote, so many seconds after the call."""
        body = f"login={login}&ranks={ranks}&token={token}".encode()
        head = b"POST /resolutions/1/vote HTTP/1.1\r\nContent-Length: %d\r\n\r\n" % len(body)
        expect("a vote", run("once", self.file, "--at", CALLED + number, given=head + body).status, 0)
        self.count += 1

    def enter(self, at, *acts):
        """Enters acts at one moment, each of which is accepted with what is noted after the count."""
        with serve(self.file, len(acts), "--at", at) as desk:
            for path, form, noted in acts:
                self.count += 1
                desk.accepts(path, form, f"ok {self.count}{noted}")
            expect("the end of serve", desk.ended(), Ran(0, b"", b""))
