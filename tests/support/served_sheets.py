"""A port on which something gives the sheets of a closed vote as a desk does: its tally and its result as they are
kept, and a status that goes with them."""
import re
from contextlib import contextmanager
from http.server import BaseHTTPRequestHandler, HTTPServer
from threading import Thread

from tests.support.program import LOCAL


def status_for(result):
    """The status of the resolution that has this result, where each text is the summary."""
    text = result.decode()
    head = re.search(r"^Result of resolution (.*)\n(Voting: .*\nDevelopers: .*)\n", text)
    times = "Discussion: 2026-01-01T00:00:00Z to 2026-01-15T00:00:00Z"
    lines = [f"Resolution {head[1]}", "Stage: Closed", times, head[2]]
    for place, summary in re.findall(r"^Option (\d+): (.*)$", text, re.M)[:-1]:
        lines += [f"Choice {place}: {summary}", "Ratio: 1", "Proposer: leader", "Sponsors: 0"]
        lines += ["Introduced: 2026-01-01T00:00:00Z", "Short since: no", f"Place: {place}", f"| {summary}"]
    return "\n".join([*lines, ""]).encode()


@contextmanager
def served(tally, result):
    """A port on which something gives these two sheets, as a desk does."""

    class Handler(BaseHTTPRequestHandler):
        def do_GET(self):
            sheets = {"tally": tally, "result": result, "status": status_for(result)}
            body = sheets.get(self.path.split("/")[1], b"Developers: 0\nCurrent: 0\n")
            self.send_response(200)
            self.send_header("Content-Length", str(len(body)))
            self.end_headers()
            self.wfile.write(body)

        def log_message(self, *_):
            pass

    server = HTTPServer((LOCAL, 0), Handler)
    Thread(target=server.serve_forever, daemon=True).start()
    try:
        yield server.server_address[1]
    finally:
        server.shutdown()
        server.server_close()
