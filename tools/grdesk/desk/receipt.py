"""What a receipt is: by it a voter finds a ballot in the tally."""
import hashlib


def receipt_of(number, login, token):
    return hashlib.sha256(f"{number}\n{login}\n{token}\n".encode()).hexdigest()
