"""The limits of docs/rules.md by which the tools reckon, in seconds. The desk has them for itself."""

DAY = 86_400
# How long a discussion lasts, and how long after a change at least, as long as nothing varies that (Constitution, A.1.1
# and A.1.4).
SHORTEST, LONGEST, CHANGE = 14 * DAY, 21 * DAY, 7 * DAY
# How far away the end is at least that a variation sets, and the days that one may have (Constitution, A.1.6).
NOTICE = 2 * DAY
VARIATIONS = range(-7, 8)
# How long a short choice may be remedied (Constitution, A.2.3), and how long a call may wait (A.3.1).
REMEDY, CALL = DAY, 7 * DAY
# The first and the last moment that a desk takes.
EARLIEST, LATEST = 1, 4_102_444_799
