"""Whether a desk has changed since a copy of it was made."""
from grdesk.desk.copy import copied_again, log_of
from grdesk.desk.digest import check_digests, read_digests
from grdesk.desk.row import read_from, rows_in
from grdesk.error import Failed


def is_whole(copy):
    """Whether a copy is as its digests say."""
    try:
        check_digests(copy, copy, log_of(copy))
    except Failed:
        return False
    return True


def is_changed(copy, kept):
    """Whether a new copy has other rows than one that is kept, or that one is damaged. Where the two are the same bytes
    no rows are looked at, as of a desk of an earlier version."""
    if not is_whole(kept):
        return True
    digests = read_digests(kept)
    if digests is not None and digests == read_digests(copy):
        return False
    try:
        return rows_in(copied_again(copy), copy) != read_from(rows_in, kept, kept)
    except Failed:
        return True
