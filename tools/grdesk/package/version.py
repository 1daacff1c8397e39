"""The version of the desk, which one file says."""
import re

from grdesk.error import Failed
from grdesk.inventory import TOP

FILE = TOP / "VERSION"


def version():
    try:
        text = FILE.read_text().strip()
    except OSError as error:
        raise Failed(f"{FILE} cannot be read: {error.strerror}") from None
    if not re.fullmatch(r"[0-9]+\.[0-9]+\.[0-9]+", text, re.ASCII):
        raise Failed(f"{FILE} has no version of three numbers")
    return text
