"""The library, called from Python: opens the archive, lends the slices, and gives the answers as lists.

The archive is the one that `rt lib` in crates/dresserduck writes, or that of the folder DRESSERDUCK_STATICLIB; gcc links it.
include/dresserduck.h says what the calls answer.
"""
import collections
import ctypes
import itertools
import os
import struct
import subprocess
import sys
import tempfile
import types

ROOT = os.path.dirname(os.path.dirname(os.path.abspath(__file__)))

Chart = collections.namedtuple("Chart", "letters deltas ratios")
Built = collections.namedtuple("Built", "letters starts deltas ratios")
Encoding = collections.namedtuple("Encoding", "streak streak_place pattern pattern_place hit interval")
Turns = collections.namedtuple("Turns", "previous next")
Lesson = collections.namedtuple("Lesson", "values means tenths")
Rhythm = collections.namedtuple("Rhythm", "group pattern groups pattern_groups")
Taps = collections.namedtuple("Taps", "pair group groups open")


def timed(letters, deltas):
    """A chart by its times: a ratio is a delta over the one before it, and 1 at the first object."""
    return Chart(letters, deltas, [1.0] + [after / before for before, after in zip(deltas, deltas[1:])])


# the chart that docs/GUIDE.md explains everything on
GUIDE = timed(
    "dkdkkdkknkkddkdkkdkk",
    [300, 150, 150, 150, 150, 300, 150, 150, 300, 300, 150, 150, 300, 150, 150, 150, 150, 300, 150, 150],
)


class Settings(ctypes.Structure):
    """The four numbers that every call on a chart takes."""
    _fields_ = [("margin", ctypes.c_double), ("search_limit", ctypes.c_uint64), ("threshold", ctypes.c_double), ("tolerance", ctypes.c_double)]


DEFAULT = Settings(5.0, 16, 0.1, 0.01)


def lent(element, values):
    """A slice as the calls take it: an array and how many elements it has."""
    return [(element * len(values))(*values), ctypes.c_size_t(len(values))]


def answer(name, *fields):
    """What a call returns, a struct of the header: `refusal`, `place`, then its own fields, u64 if no type is given."""
    typed = [field if isinstance(field, tuple) else (field, ctypes.c_uint64) for field in ("refusal", "place") + fields]
    return type(name, (ctypes.Structure,), {"_fields_": typed})


ANSWERS = {
    "build": answer("Built", "objects"),
    "encode": answer("Encoded", "hit_patterns"),
    "turns": answer("Turned"),
    "colour": answer("Coloured"),
    "stretch": answer("Stretched", ("mean", ctypes.c_double), ("tenths", ctypes.c_int64)),
    "lesson": answer("Lessoned"),
    "rhythm": answer("Grouped", "groups", "pattern_groups"),
    "record": answer("Recorded", "first_note", "note_count", "has_own", "own_bits", "ratio_bits", "interval_bits",
                     "penalty_bits", "pattern_group", "pattern_ratio_bits"),
    "taps": answer("Tapped", "open", "groups"),
}


def open_library():
    """The library, linked into a shared object, which may go once it is open."""
    folder = os.environ.get("DRESSERDUCK_STATICLIB", os.path.join(ROOT, "crates", "dresserduck", "out"))
    archive = os.path.join(folder, "libdresserduck.a")
    if not os.path.isfile(archive):
        sys.exit(archive + " is missing: run `rt lib` in crates/dresserduck first")
    with tempfile.TemporaryDirectory() as here:
        shared = os.path.join(here, "dresserduck.so")
        subprocess.run(["gcc", "-shared", "-Wl,--whole-archive", archive, "-Wl,--no-whole-archive", "-o", shared], check=True)
        library = ctypes.CDLL(shared)
    for name, returned in ANSWERS.items():
        getattr(library, "dresserduck_" + name).restype = returned
    return library


def kinds(letters):
    """The slice of an object's kind each."""
    return lent(ctypes.c_uint8, ["dkn".index(letter) for letter in letters])


def starts(chart):
    """When the objects start, the first at 0."""
    return list(itertools.accumulate(chart.deltas[1:], initial=0))


def asked(library, name, letters, *slices):
    """Calls dresserduck_`name` with these slices, which are to be accepted."""
    returned = getattr(library, "dresserduck_" + name)(*slices)
    if returned.refusal:
        sys.exit(f"{name} refuses {''.join(letters)}: {returned.refusal} at {returned.place}")
    return returned


def call(library, name, chart, *behind, deltas=None, settings=DEFAULT):
    """Calls dresserduck_`name` with the chart, the settings, what stands behind them, and the slices to work in.

    The chart's deltas are one list, or those that are given.
    """
    n = len(chart.letters)
    slices = kinds(chart.letters)
    for numbers in (starts(chart), *(deltas or [chart.deltas]), chart.ratios):
        slices += lent(ctypes.c_double, numbers)
    work = lent(ctypes.c_uint16, [0] * (8 * n)) + lent(ctypes.c_double, [0.0] * n)
    return asked(library, name, chart.letters, *slices, settings, *behind, *work)


def build(library, letters, times, rate):
    """The chart that is built of raw objects."""
    n = max(len(letters) - 2, 0)
    raw = kinds(letters) + lent(ctypes.c_double, times) + [ctypes.c_double(rate)]
    filled = [lent(ctypes.c_uint8, [0] * n)] + [lent(ctypes.c_double, [0.0] * n) for _ in range(3)]
    asked(library, "build", letters, *raw, *sum(filled, []))
    kind, *numbers = [list(values) for values, _ in filled]
    return Built("".join("dkn"[number] for number in kind), *numbers)


def encode(library, chart, settings=DEFAULT):
    """The six numbers of each object, a list of each."""
    n = len(chart.letters)
    filled = [lent(ctypes.c_uint16, [0] * n) for _ in range(5)] + [lent(ctypes.c_uint8, [0] * n)]
    call(library, "encode", chart, *sum(filled, []), settings=settings)
    return Encoding(*[list(numbers) for numbers, _ in filled])


def turns(library, chart):
    """The notes before and after each object's streak, a list of each; 65535 where there is none."""
    filled = [lent(ctypes.c_uint16, [0] * len(chart.letters)) for _ in range(2)]
    call(library, "turns", chart, *sum(filled, []))
    return Turns(*[list(notes) for notes, _ in filled])


def colour(library, chart):
    """The colour value of each object."""
    value = lent(ctypes.c_double, [0.0] * len(chart.letters))
    call(library, "colour", chart, *value)
    return list(value[0])


def stretch(library, chart, a, b):
    """Mean and tenths of the notes' values from object a up to b."""
    value = lent(ctypes.c_double, [0.0] * len(chart.letters))
    returned = call(library, "stretch", chart, ctypes.c_size_t(a), ctypes.c_size_t(b), *value)
    return returned.mean, returned.tenths


def lesson(library, chart, stretches):
    """The colour value of each object, and mean and tenths of each stretch, a list of each; a stretch is (a, b)."""
    pairs = [[a for a, _ in stretches], [b - a for a, b in stretches]]
    filled = [lent(ctypes.c_double, [0.0] * count) for count in (len(chart.letters), len(stretches))]
    filled.append(lent(ctypes.c_int64, [0] * len(stretches)))
    marked = [lent(ctypes.c_uint64, numbers) for numbers in pairs]
    call(library, "lesson", chart, *sum(marked + filled, []))
    return Lesson(*[list(numbers) for numbers, _ in filled])


def rhythm(library, chart, settings=DEFAULT):
    """The two numbers of each object, a list of each, and how many groups there are of both sorts."""
    filled = [lent(ctypes.c_uint16, [0] * len(chart.letters)) for _ in range(2)]
    returned = call(library, "rhythm", chart, *sum(filled, []), settings=settings)
    return Rhythm(*[list(numbers) for numbers, _ in filled], returned.groups, returned.pattern_groups)


def taps(library, chart, within, settings=DEFAULT):
    """The two numbers of each object where its delta is known to within so many milliseconds either way, and the groups' number or that they are open."""
    filled = lent(ctypes.c_uint8, [0] * len(chart.letters)) + lent(ctypes.c_uint16, [0] * len(chart.letters))
    ends = [[delta + side * within for delta in chart.deltas] for side in (-1, 1)]
    returned = call(library, "taps", chart, *filled, deltas=ends, settings=settings)
    return Taps(list(filled[0]), list(filled[2]), returned.groups, returned.open == 1)


def record(library, chart, group, window):
    """What is known of one rhythm group: the header's fields, those in bits turned into doubles and named without `_bits`."""
    returned = call(library, "record", chart, ctypes.c_size_t(group), ctypes.c_double(window))
    known = {}
    for name, _ in returned._fields_:
        number = getattr(returned, name)
        if name.endswith("_bits"):
            name, number = name.removesuffix("_bits"), struct.unpack("<d", struct.pack("<Q", number))[0]
        known[name] = number
    return types.SimpleNamespace(**known)
