"""A table whose keys are set between two batches of one apply: what a session is asked and what it answers, for the scripts beside this
one. Keys hold for rows that come after they are set, whenever these are applied, so the replies stay the same where the program is
stopped and its folder opened again between any two requests."""
from checks import batch, query

ONES = b"t v=1i 1000000000\nt v=2i 1000000000\n"
TWOS = b"t v=3i 2000000000\nt v=4i 2000000000\n"
FIVE = b"t v=5i 1000000000\n"
ENABLE = "ALTER TABLE t DEDUP ENABLE UPSERT KEYS(timestamp)"
VALUES = "SELECT v FROM t"


def rows(n, *values):
    """The reply that gives these values over the first n transactions."""
    text = b"v\n" + b"".join(b"%d\n" % value for value in values)
    return b"R %d %d\n" % (n, len(text)) + text


# each frame with its reply
STEPS = [
    (batch(ONES), b"K 1\n"),
    (query(ENABLE), b"K 2\n"),
    (batch(TWOS), b"K 3\n"),
    (b"A\n", b"A 3\n"),
    (query(VALUES), rows(3, 1, 2, 4)),
    (batch(FIVE), b"K 4\n"),
    (b"A\n", b"A 4\n"),
    (query(VALUES), rows(4, 5, 4)),
    (query("ALTER TABLE t DEDUP ENABLE UPSERT KEYS(v)"), b"E 36 34\n"),
    (query("ALTER TABLE t ADD COLUMN v LONG"), b"E 19 25\n"),
    (query("ALTER TABLE t DROP COLUMN v"), b"E 31 14\n"),
]
FRAMES = b"".join(frame for frame, _ in STEPS)
REPLIES = b"".join(reply for _, reply in STEPS)
