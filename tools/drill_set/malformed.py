"""Captures whose form is wrong: every tag, every length byte, cut short at many places, too long, and files that are no captures at all."""
from . import uplink
from .case import unsearched
from .dice import Dice
from .frames import drawn
from .reception import Reception


def good(length=20):
    dice = Dice("malformed", length)
    return Reception(drawn(dice, length), lambda: dice.between(1, 127)).capture()


def put(name, offset, value, what):
    """A good capture of 20 bytes with one byte changed."""
    data = bytearray(good())
    assert data[offset] != value, "nothing is changed"
    data[offset] = value
    return unsearched(name, data, what)


CHANGED = (
    ("tag_01_is_00", 0, 0, "The first tag is 00."),
    ("length_of_01_high_byte", 1, 1, "The first field's length has 1 as its high byte."),
    ("length_of_01_is_2", 2, 2, "The first field's length is 2."),
    ("tag_02_is_03", 4, 3, "The second tag is 03."),
    ("length_of_02_high_byte", 5, 1, "The marks' length has 1 as its high byte."),
    ("length_of_02_is_23", 6, 23, "The marks' length is 23."),
    ("length_of_02_is_25", 6, 25, "The marks' length is 25."),
    ("first_tag_03_is_04", 31, 4, "The first values' tag is 04."),
    ("last_tag_03_is_02", 679 - 27, 2, "The last values' tag is 02."),
    ("first_length_of_03_high_byte", 32, 1, "The first values' length has 1 as its high byte."),
    ("first_length_of_03_is_23", 33, 23, "The first values' length is 23."),
    ("last_length_of_03_is_25", 679 - 25, 25, "The last values' length is 25."),
    ("told_21_is_20", 3, 21, "Length 21 is told, and the rest is that of 20."),
)


def cut():
    """Cut short at many places: within each kind of field and between fields."""
    for size in (0, 1, 3, 4, 7, 31, 652, 678):
        yield unsearched(f"cut_at_{size:03}", good()[:size], f"Only the first {size} of 679 bytes." if size else "Nothing at all.")
    yield unsearched("cut_at_7258", good(255)[:-1], "A capture of 255 bytes without its last byte.")


def longer():
    yield unsearched("one_byte_more", good() + b"\x00", "One byte 00 behind the end.")
    yield unsearched("one_field_more", good() + good()[-27:], "One sub-packet more than the length has.")
    yield unsearched("twice", good() + good(), "Two good captures, one behind the other.")
    yield unsearched("size_7260", good(255) + b"\x00", "A capture of 255 bytes and one byte behind it: 7,260 bytes.")
    yield unsearched("size_20000", good(255) + bytes(12741), "A capture of 255 bytes and zeros behind it: 20,000 bytes.")


def rearranged():
    data = good()
    head, marks, packets = data[:4], data[4:31], data[31:]
    last = packets[-24:]
    yield unsearched("last_field_of_23", head + marks + packets[:-27] + uplink.field(3, last[:23]), "The last field has 23 values, and says so.")
    yield unsearched("marks_behind_values", head + packets + marks, "The marks stand behind the values.")
    yield unsearched("no_marks", head + packets, "The marks are missing.")
    yield unsearched("length_of_02_low_byte_first", data[:5] + bytes([24, 0]) + data[7:], "The marks' length has its low byte first.")
    yield unsearched("told_20_is_21", good(21)[:3] + bytes([20]) + good(21)[4:], "Length 20 is told, and the rest is that of 21.")


def other_files():
    data = good()
    yield unsearched("sent_as_text", data.replace(b"\n", b"\r\n"), "A good capture that was sent as text: each byte 0a became 0d 0a.")
    yield unsearched("as_hex_digits", data.hex().encode(), "A good capture written out as hex digits.")
    yield unsearched("a_report_line", b"OK 20 1 0 00112233\n", "A report's line where a capture should be.")


def cases():
    for given in CHANGED:
        yield put(*given)
    yield from cut()
    yield from longer()
    yield from rearranged()
    yield from other_files()
