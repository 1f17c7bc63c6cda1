"""Rows of `tests/keys`: the places of a class's own."""
from config_texts import FIXED, LIVE_OF_TWO, PLAIN

BATCH = '[[class]]\nname = "batch"\nshare = 4\n'
# Places of a class's own: what stands before the limit, and behind the class `live`.
OF_PLACES = [
    ("", "", "ok"),
    ("", "places = 0\n", "ok"),
    ("", "places = 9_900\n", "ok"),
    ("", "places = 9_901\n", "value class.places"),
    ("backlog = 0\n", "places = 10_000\n", "ok"),
    ("backlog = 0\n", "places = 10_001\n", "value class.places"),
    ("backlog = 10_000\n", "places = 0\n", "ok"),
    ("backlog = 10_000\n", "places = 1\n", "value class.places"),
    ("backlog = 4_000\n", "places = 3_500\n" + BATCH + "places = 2_500\n", "ok"),
    ("backlog = 4_000\n", "places = 3_500\n" + BATCH + "places = 2_501\n", "value class.places"),
    ("backlog = 4_000\n", BATCH + "places = 6_000\n", "ok"),
    ("backlog = 10_000\n", "places = 0\n" + BATCH + "places = 1\n", "value class.places"),
    ("wait = false\n", "places = 10\n", "ok"),
    ("", "places = -1\n", "value class.places"),
    ("", 'places = "1"\n', "kind class.places"),
    ("", "places = 1.0\n", "kind class.places"),
    ("", "places = true\n", "kind class.places"),
    ("", "places = 1\nplaces = 1\n", "toml"),
    ("", "place = 1\n", "unknown class.place"),
    # The order of the keys: the backlog, then of each class its share and its places, then what stands behind classes.
    ("backlog = 10_001\n", "places = 10_001\n", "value backlog"),
    ("", "places = -1\n" + '[[class]]\nname = "b"\nshare = 0\n', "value class.places"),
    ("", '[[class]]\nname = "b"\nshare = 401\nplaces = -1\n', "value class.share"),
    ("", '[[class]]\nname = "b"\nplaces = -1\n', "missing class.share"),
    ("", "places = 10_000\n[[resolver]]\n", "value class.places"),
    ("", "places = 10_000\nzebra = 1\n", "value class.places"),
    ("", "places = 1\nzebra = 1\n", "unknown class.zebra"),
]

# As the ranges of `tests/keys`.
ONE_CLASS = PLAIN + '[[class]]\nname = "a"\nshare = 1\n'
PLACES = [
    (ONE_CLASS, "", "class.places", 0, 9_900),
    ("backlog = 7\n" + ONE_CLASS, "", "class.places", 0, 9_993),
    ("backlog = 7\n" + ONE_CLASS + "places = 9_000\n" + BATCH, "", "class.places", 0, 993),
    ("backlog = 0\n" + ONE_CLASS + "places = 10_000\n" + BATCH, "", "class.places", 0, 0),
]

# Lines of version 2, and the backlog that the line of an accepted configuration has: all who may wait.
ACCEPTED = [
    (FIXED, 100),
    ("backlog = 5\n" + FIXED + LIVE_OF_TWO, 5),
    ("backlog = 5\n" + FIXED + LIVE_OF_TWO + "places = 10\n", 15),
    ("backlog = 5\n" + FIXED + LIVE_OF_TWO + "places = 10\n" + BATCH + "places = 2\n", 17),
    ("backlog = 0\n" + FIXED + LIVE_OF_TWO + BATCH + "places = 10_000\n", 10_000),
]
