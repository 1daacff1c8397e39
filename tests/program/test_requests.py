"""Sends the program a request a run, each to a desk of its own with nothing on it, and compares every byte of the
response. Each route has a right request and a wrong one; what else may be wrong with one is in gr_http_tests."""
from tests.support.case import Case
from tests.support.program import Ran, response, run

# A roll file that begins with U+FEFF, with lines that end in CR LF.
MARKED = b'\xef\xbb\xbflogin,name,status\r\nalice,Alice Adams,current\r\nbob,"Brown, Bob",retired\r\n'

# The method and the path, the body, the status, the body of the response without its line feed, and after status 405
# the method that the path requires.
REQUESTS = [
    ("GET /roll", b"", 200, "Developers: 0\nCurrent: 0"),
    ("GET /roll?all", b"abc", 200, "Developers: 0\nCurrent: 0"),
    ("GET /status/1", b"", 409, "refused 9 NoResolution"),
    ("GET /tally/1", b"", 409, "refused 9 NoResolution"),
    ("GET /result/999999999", b"", 409, "refused 9 NoResolution"),
    ("GET /result/1000000000", b"", 404, "not found"),
    ("GET /status/01", b"", 404, "not found"),
    ("DELETE /roll", b"", 405, "method not allowed", "GET"),
    ("POST /tally/1", b"", 405, "method not allowed", "GET"),
    ("post /resolutions/1/close", b"", 405, "method not allowed", "POST"),
    ("POST /developers", b"login=alice&name=Alice+Adams&status=current", 200, "ok 1"),
    ("POST /developers", b"login=alice&name=Alice&status=current\xff", 400, "bad field status"),
    ("POST /import", MARKED, 200, "ok 1 added 2 changed 0 same 0"),
    ("POST /import", b"login,name,status\nalice,A,current\nbob,\xff,current\n", 400, "bad roll 3"),
    ("POST /resolutions", b"author=@leader&summary=Red&text=First\nSecond\n&ratio=3", 200, "ok 1 resolution 1"),
    ("POST /resolutions", b"author=@leader&summary=Red&text=a&ratio=x", 400, "bad field ratio"),
    ("POST /resolutions/1/choice", b"author=@committee&summary=Red&text=a&ratio=1", 409, "refused 9 NoResolution"),
    ("POST /resolutions/1/choice", b"author=@committee&summary=Red&ratio=1", 400, "bad field text"),
    ("POST /resolutions/1/sponsor", b"choice=1&login=alice", 409, "refused 9 NoResolution"),
    ("POST /resolutions/1/sponsor", b"choice=01&login=alice", 400, "bad field choice"),
    ("POST /resolutions/1/unsponsor", b"choice=1&login=alice", 409, "refused 9 NoResolution"),
    ("POST /resolutions/1/unsponsor", b"choice=1", 400, "bad field login"),
    ("POST /resolutions/1/withdraw", b"choice=1", 409, "refused 9 NoResolution"),
    ("POST /resolutions/1/withdraw", b"choice=1\x00", 400, "bad field choice"),
    ("POST /resolutions/1/adopt", b"choice=1&author=@leader", 409, "refused 9 NoResolution"),
    ("POST /resolutions/1/adopt", b"choice=1&author=@Leader", 409, "refused 3 BadLogin"),
    ("POST /resolutions/1/amend", b"choice=1&minor=1&summary=Red&text=a", 409, "refused 9 NoResolution"),
    ("POST /resolutions/1/amend", b"choice=1&minor=2&summary=Red&text=a", 400, "bad field minor"),
    ("POST /resolutions/1/vary", b"days=-0", 409, "refused 9 NoResolution"),
    ("POST /resolutions/1/vary", b"days=+7", 400, "bad field days"),
    ("POST /resolutions/1/call", b"days=21", 409, "refused 9 NoResolution"),
    ("POST /resolutions/1/call", b"days=7&days=7", 400, "bad field days"),
    ("POST /resolutions/1/vote", b"login=alice&ranks=12&token=tokenA01", 409, "refused 9 NoResolution"),
    ("POST /resolutions/1/vote", b"ranks=12&token=tokenA01", 400, "bad field login"),
    ("POST /resolutions/1/close", b"", 409, "refused 9 NoResolution"),
    ("POST /resolutions/1/cast", b"place=1", 409, "refused 9 NoResolution"),
    ("POST /resolutions/1/cast", b"place", 400, "bad field place"),
]


def request_of(head, body):
    return f"{head} HTTP/1.1\r\nContent-Length: {len(body)}\r\n\r\n".encode() + body


class Requests(Case):
    def test_each_route_has_its_response_to_a_right_request_and_to_a_wrong_one(self):
        for head, body, status, text, *allow in REQUESTS:
            with self.subTest(head, body=body):
                ran = run(given=request_of(head, body))
                expected = response(status, f"{text}\n", *allow)
                self.assertEqual(ran, Ran(0 if status == 200 else 1, expected, b""))

    def test_a_long_roll_file_is_refused_within_seconds(self):
        # It takes a part of a second. A reading that went back over its records would take minutes.
        too_many = "".join(f"d{number},Dora Dean,current\n" for number in range(1, 2_002))
        for words, rows in [
            ("a body as long as may be, of empty rows", ",,\n" * 349_519),
            ("a developer more than a roll has room for", too_many),
        ]:
            with self.subTest(words):
                given = request_of("POST /import", f"login,name,status\n{rows}".encode())
                ran = run(given=given, seconds=5)
                self.assertEqual(ran, Ran(1, response(409, "refused 8 Full\n"), b""))
