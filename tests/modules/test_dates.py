"""How the tools read dates: each form is the seconds that it is, and a wrong one is reported. Every text of a wrong
date is compared whole."""
from tests.support.case import Case
from tests.support.one_developer import date, fails
from tests.support.program import T0, tool

FORMS = "a DATE is as 2026-01-14T21:07:00Z or '2026-01-14 21:07 +01:00', or in seconds since 1970, and not "
NO_OFFSET = " does not say its offset from UTC: put Z after it for UTC, or one as +01:00"
NO_DATE = " is no date of the calendar"
FAR = " lies before 1970, or too far ahead"
OTHER_FORMS = (
    "x",
    "",
    "-1",
    "+5",
    "99999999999",
    "1.5",
    "2026-01-14",
    "2026-01-14T21Z",
    "2026-1-14T0:00Z",
    "2026-01-14T21:07:00.5Z",
    "2026-01-14T21:07+0100",
)
WITHOUT_OFFSET = "2026-01-14T21:07:00", "2026-01-14 21:07"
OF_NO_CALENDAR = (
    "2026-02-29T00:00Z",
    "2026-01-14T24:00Z",
    "2026-13-01T00:00Z",
    "2026-01-14T21:07+24:00",
    "2026-01-14T21:07:60Z",
    "0000-01-01T00:00Z",
)
TOO_FAR = "1969-12-31T23:59:59Z", "1970-01-01T00:59:59+01:00", "2286-11-20T17:46:40Z", "0001-01-01T00:00+23:59"
WRONG_DATES = {
    **{text: f"{FORMS}{text!r}" for text in OTHER_FORMS},
    **{text: f"{text!r}{NO_OFFSET}" for text in WITHOUT_OFFSET},
    **{text: f"{text!r}{NO_DATE}" for text in OF_NO_CALENDAR},
    **{text: f"{text!r}{FAR}" for text in TOO_FAR},
}
# Dates, and the seconds that they are.
DATES = {
    "0": 0,
    "0000000005": 5,
    "9999999999": 9_999_999_999,
    "2026-01-01T00:00:00Z": T0,
    "2026-01-01T00:00Z": T0,
    "2026-01-01 00:00 Z": T0,
    "2026-01-01T01:30:07+01:30": T0 + 7,
    "2025-12-31 19:00:00 -05:00": T0,
    "2024-02-29T12:00Z": 1_709_208_000,
    "1970-01-01T00:00:00Z": 0,
    "2286-11-20T17:46:39Z": 9_999_999_999,
}


class Dates(Case):
    def test_a_date_of_each_form_is_printed_with_the_seconds_that_it_is(self):
        none = self.folder() / "none"
        for text, seconds in DATES.items():
            with self.subTest(text=text):
                line = f"--at     {date(seconds)} ({seconds})\n"
                self.assertIn(line, tool("clock", none, "--at", text).out.decode())

    def test_a_wrong_date_is_reported_with_status_2(self):
        for text, why in WRONG_DATES.items():
            for name in "clock", "agenda":
                with self.subTest(text=text, name=name):
                    self.assertEqual(tool(name, "a", "--at", text), fails(name, 2, why))
