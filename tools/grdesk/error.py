"""Why a command ends, or a form is not read."""


class Stop(Exception):
    """Why a tool ends without having done what it was to do."""

    status = 3


class Refused(Stop):
    """What is there stands in the way. Nothing was changed."""

    status = 1


class Wrong(Stop):
    """The words are wrong, or what was to be read."""

    status = 2


class Failed(Stop):
    """Something failed."""


class Unsent(Failed):
    """An act was not sent, and `why`. Whoever sent others before it says so, and does not print this as it is."""

    def __init__(self, why):
        super().__init__(f"nothing was sent: {why}")
        self.why = str(why)


class NotRead(Exception):
    """Why a form is not read, as a sentence without its end."""
