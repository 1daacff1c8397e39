"""Tokens, logins and receipts, as the tools and examples/check_receipt know them. That script has nothing of the tools,
so that a voter can read all of it; here both get the same words, and must agree."""
import re
import subprocess
import sys

from tests.support.case import Case
from tests.support.program import TOP, receipt

sys.path.insert(0, str(TOP / "tools"))
from grdesk.ballots.arrival import LOGIN  # noqa: E402
from grdesk.desk.receipt import receipt_of  # noqa: E402
from grdesk.desk.token import TOKEN_FORM, new_token  # noqa: E402

ARE_TOKENS = ["tokenA01", "0" * 8, "Z" * 64, "azAZ09azAZ09"]
ARE_NOT = ["", "tokenA0", "t" * 65, "tokenA0.", "tokenA0-", "tokenA0_", "tokenA0@", "tokenA0[", "tokenA01 ",
           "token A01", "tökenA01"]
# The characters beside those of a login: / and :, ` and {.
ARE_LOGINS = ["d", "0", "d1", "z.-_9", "d" * 32]
ARE_NO_LOGINS = ["", "D1", "-d", ".d", "_d", "d/", "d:", "d`", "d{", "d1@debian.org", "dé"]


class Agreement(Case):
    @classmethod
    def setUpClass(cls):
        cls.tally = cls.shared_folder() / "tally"
        cls.tally.write_text("Tally of resolution 1\nBallots: 0\n")

    def looked_for(self, login, token):
        """What the script says of a ballot. With status 1 no ballot has the receipt, and with 2 no vote can."""
        line = [TOP / "examples" / "check_receipt", self.tally, "1", login]
        return subprocess.run(line, input=f"{token}\n", capture_output=True, text=True, check=False)

    def test_both_take_the_same_tokens(self):
        for are_tokens, words in (True, ARE_TOKENS), (False, ARE_NOT):
            for word in words:
                with self.subTest(token=word):
                    self.assertEqual(bool(TOKEN_FORM.fullmatch(word)), are_tokens)
                    self.assertEqual(self.looked_for("d1", word).returncode, 1 if are_tokens else 2)

    def test_both_take_the_same_logins(self):
        for are_logins, words in (True, ARE_LOGINS), (False, ARE_NO_LOGINS):
            for word in words:
                with self.subTest(login=word):
                    self.assertEqual(bool(LOGIN.fullmatch(word)), are_logins)
                    self.assertEqual(self.looked_for(word, "tokenA01").returncode, 1 if are_logins else 2)

    def test_both_make_the_receipt_of_the_same_three_lines(self):
        for login, token in ("d1", "tokenA01"), ("z.-_9", "Z" * 64):
            with self.subTest(login=login, token=token):
                self.assertEqual(receipt_of(1, login, token), receipt(1, login, token))
                said = self.looked_for(login, token).stdout.split("\n")[0]
                self.assertEqual(said, f"no ballot has the receipt {receipt_of(1, login, token)}")


class NewTokens(Case):
    def test_a_new_one_has_the_form_of_a_token_and_32_digits(self):
        made = {new_token() for _ in range(20)}
        self.assertEqual(len(made), 20)
        for token in made:
            self.assertTrue(TOKEN_FORM.fullmatch(token))
            self.assertTrue(re.fullmatch("[0-9a-f]{32}", token), token)
