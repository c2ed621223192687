"""Movement sheets as a tablet that died leaves them (document 02, P11), and what is written of them."""
from sheets import encode_movements as movements

LANDED = movements([0, 0, 0, 0])
LONGEST = 8192


def claiming(length, sheet):
    """The same bytes under another length."""
    return length.to_bytes(4, "big") + sheet[4:]


SHEETS = {
    "no_bytes": b"",
    "four_bytes": LANDED[:4],
    "four_bytes_of_0": bytes(4),
    "five_bytes_of_0": bytes(5),
    "version_2_of_nothing": b"\0\0\0\1\2",
    "landed_in_version_2": LANDED[:4] + b"\2" + LANDED[5:],
    "none_left": LANDED[:5],
    "a_byte_left": LANDED[:6],
    "one_left": LANDED[:7],
    "one_and_a_half_left": LANDED[:8],
    "three_left": LANDED[:11],
    "three_and_a_half_left": LANDED[:12],
    "claims_none": claiming(1, LANDED),
    "claims_a_byte": claiming(2, LANDED),
    "claims_two": claiming(5, LANDED),
    "claims_two_and_a_half": claiming(6, LANDED),
    "claims_five": claiming(11, LANDED),
    "claims_the_most": claiming(2**32 - 1, LANDED),
    "claims_the_most_and_a_half": claiming(2**32 - 1, LANDED[:12]),
    "landed_and_more": LANDED + bytes(3),
    "mode_missing": movements([0, 1, 0, 0]),
    "mode_far_missing": movements([65535, 0]),
    "waits_8192": movements([1] * LONGEST),
    "waits_8193": claiming(1 + 2 * (LONGEST + 1), movements([1] * LONGEST) + b"\0\1"),
    "waits_then_missing": claiming(1 + 2 * (LONGEST + 1), movements([1] * LONGEST) + b"\0\2"),
    "last_is_missing": movements([1] * (LONGEST - 1) + [2]),
    "waits_8191": movements([1] * (LONGEST - 1)),
}
