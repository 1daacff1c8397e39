"""A voter's token: which form it has, and how one is made for a voter who gave none."""
import re
import secrets

TOKEN_FORM = re.compile("[A-Za-z0-9]{8,64}", re.ASCII)


def new_token():
    """32 digits of the system's random numbers."""
    return secrets.token_hex(16)
