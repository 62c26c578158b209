"""Which suction tip of a desktop placer picks which part: the proved library libtipshare, from Python.

    >>> import tipshare
    >>> plan = tipshare.plan([("R1", [0, 1]), ("C1", [1, 2, 3]), ("U1", [3, 4], 2)], rack=6)
    >>> plan.best
    {'R1': 0, 'C1': 3, 'U1': 3}
    >>> plan.best_pairs
    3

plan() takes parts by name. The other functions take a job file as bytes, which job() makes, and answer as the functions of
include/tipshare.h do; what is refused raises Refused. The shared library is the one that the environment variable
TIPSHARE_LIBRARY names, else the one installed beside this module, else the one that the loader finds.
"""

import collections
import ctypes
import operator
import os
import pathlib

__version__ = "3.0.0"
__all__ = [
    "Refused", "Plan", "Part", "plan", "job", "read", "common", "keep", "goal", "quick", "best", "along", "exact",
    "check", "junior", "merge", "alone", "mend", "order", "windows", "order_by_tips",
    "report", "words", "version",
]

MOST_TIPS = 64
MOST_LINES = 512
MOST_QUANTITY = 255
LONGEST_FILE = 4616
LONGEST_CHANGES = 3081
MOST_PARTS = 128
EXACT_TIPS = 20
_REPORT_SPACE = 16384
_NO_TIP = ctypes.c_size_t(-1).value
_NAME = "libtipshare.so.3"


class Refused(Exception):
    """A call was refused: number, the line, part or rule that it is about, and for 26 the margin."""

    def __init__(self, number, place=0, margin=0):
        self.number, self.place, self.margin = number, place, margin
        at = f", line {place}" if number in (2, 3, 15, 25) or (number == 30 and place) else ""
        at = f", part {place}" if number == 12 else f", rule {place}" if number == 13 else at
        at = f", margin {margin}" if number == 26 else at
        super().__init__(f"refused {number}: {words(number)}{at}")


Plan = collections.namedtuple("Plan", "rack off common quick quick_pairs best best_pairs no_run")
Plan.__doc__ = """What is planned: the rack size; the least number of placements off the tip used most, and the tips that
reach it; the tip of each part by name in the quick plan and in the best, and the pairs of each. Where a part is no run,
best and best_pairs are None, and no_run is the first such part's name."""

Part = collections.namedtuple("Part", "first last fine tall", defaults=(False, False))
Part.__doc__ = "A part to be placed: its first and last position, counted from 0, and whether it is fine, and tall."


def _found():
    """Where the shared library may be, the likeliest first."""
    if "TIPSHARE_LIBRARY" in os.environ:
        return [os.environ["TIPSHARE_LIBRARY"]]
    here = pathlib.Path(__file__).resolve().parent
    near = [here.parent / "target/lib"] + [here.parent.parent / name for name in (".", "x86_64-linux-gnu")]
    return [str(folder / _NAME) for folder in near if (folder / _NAME).is_file()] + [_NAME]


def _load():
    name = _found()[0]
    try:
        library = ctypes.CDLL(name)
    except OSError as error:
        raise ImportError(f"{error}; install the package tipshare, or name the file {_NAME} in TIPSHARE_LIBRARY") from None
    library.tipshare_words.argtypes = [ctypes.c_uint32]
    library.tipshare_words.restype = library.tipshare_version.restype = ctypes.c_char_p
    found = library.tipshare_version().decode()
    if found.partition(".")[0] != __version__.partition(".")[0]:
        raise ImportError(f"{name} is version {found}, and this module needs one as {__version__}")
    number, size = ctypes.c_uint32, ctypes.c_size_t
    lent = [ctypes.c_void_p, size]
    before = {
        "read": lent, "common": lent, "keep": lent + [ctypes.c_uint16] + lent, "goal": lent + [number] + lent,
        "quick": lent + [size] + lent, "best": lent + [size] + lent + lent,
        "along": lent + [size] + lent,
        "exact": lent + [size, number] + lent + lent, "check": lent + lent + [number] + lent, "junior": lent + lent, "merge": lent + lent + lent,
        "alone": lent + lent + lent, "mend": lent + lent + lent, "order": lent + lent + lent,
        "windows": lent + lent + lent + lent, "order_by_tips": lent + lent + lent + [size] + lent,
    }
    for call, types in before.items():
        function = getattr(library, f"tipshare_{call}")
        function.argtypes, function.restype = types + lent, number
    library.tipshare_report.argtypes, library.tipshare_report.restype = lent + lent, size
    return library


_library = _load()


def _lent(kind, count):
    """An array with this many places, at least one, so that its address is good."""
    return (kind * max(count, 1))()


def _given(data):
    """Bytes to be read, with their number. They are copied, because they may not change during a call."""
    if isinstance(data, int):
        # bytes(5) would be five zeros.
        raise TypeError(f"{data} is a number and no bytes; give the bytes of a job file, as job() makes them")
    data = bytes(data)
    array = _lent(ctypes.c_uint8, len(data))
    ctypes.memmove(array, data, len(data))
    return array, len(data)


def _in_range(what, value, most):
    if not 0 <= value <= most:
        raise ValueError(f"{what} is {value}, and may be 0 to {most}")
    return value


def _mounted(tip):
    # C's number for no tip is no tip here.
    return _NO_TIP if tip is None else _in_range("the mounted tip", tip, _NO_TIP - 1)


def _call(name, *arguments):
    """The answer of a call, or Refused."""
    answer = (ctypes.c_uint64 * 4)()
    number = getattr(_library, f"tipshare_{name}")(*arguments, answer, 4)
    if number:
        raise Refused(number, answer[0], ctypes.c_int64(answer[1]).value)
    return answer


def words(number):
    """A refusal's number in words."""
    return _library.tipshare_words(_in_range("the number of a refusal", number, 2**32 - 1)).decode()


def version():
    """The version of the library."""
    return _library.tipshare_version().decode()


def job(rack, lines):
    """A job file as bytes. A line is its tips, or a pair of its tips and its quantity: job(3, [[0], ([1, 2], 4)])."""
    pairs = [line if isinstance(line, tuple) else (line, 1) for line in lines]
    _in_range("the number of lines", len(pairs), 65535)
    is_counted = any(quantity != 1 for _, quantity in pairs)
    file = b"TIP\0" + bytes([2 if is_counted else 1, _in_range("the rack size", rack, 255)]) + len(pairs).to_bytes(2, "big")
    for line, (tips, quantity) in enumerate(pairs):
        tips = {_in_range(f"a tip of line {line}", tip, MOST_TIPS - 1) for tip in tips}
        file += sum(1 << tip for tip in tips).to_bytes(8, "big")
        if is_counted:
            file += bytes([_in_range(f"the quantity of line {line}", quantity, MOST_QUANTITY)])
    return file


def read(file):
    """The rack size and the number of lines of a job file."""
    answer = _call("read", *_given(file))
    return answer[1], answer[2]


def common(file):
    """The most placements that one tip can take, the least number off it, and the tips that can take that many."""
    answer = _call("common", *_given(file))
    return answer[1], answer[2], [tip for tip in range(MOST_TIPS) if answer[3] >> tip & 1]


def keep(file, k):
    """The job file without the tips that no plan within k placements uses, and the margin."""
    out = _lent(ctypes.c_uint8, LONGEST_FILE)
    answer = _call("keep", *_given(file), _in_range("k", k, 65535), out, len(out))
    return bytes(out[: answer[2]]), ctypes.c_int64(answer[1]).value


def goal(file, pairs):
    """The job file without the tips that no plan with at least this many pairs uses."""
    out = _lent(ctypes.c_uint8, LONGEST_FILE)
    answer = _call("goal", *_given(file), _in_range("the goal", pairs, 2**32 - 1), out, len(out))
    return bytes(out[: answer[1]])


def quick(file, mounted=None):
    """The tip of each line in the quick plan, and its pairs."""
    plan_, count = _lent(ctypes.c_uint8, MOST_LINES), read(file)[1]
    answer = _call("quick", *_given(file), _mounted(mounted), plan_, len(plan_))
    return list(plan_[:count]), answer[1]


def best(file, mounted=None):
    """The tip of each line in the best plan, its pairs, and the table that shows that no plan has more."""
    plan_, (rack, count) = _lent(ctypes.c_uint8, MOST_LINES), read(file)
    table = _lent(ctypes.c_uint32, rack * rack)
    answer = _call("best", *_given(file), _mounted(mounted), plan_, len(plan_), table, len(table))
    return list(plan_[:count]), answer[1], list(table)


def along(file, mounted=None):
    """The tip of each line in the plan with the fewest tip changes along the list, its changes, and its pairs."""
    plan_, count = _lent(ctypes.c_uint8, MOST_LINES), read(file)[1]
    answer = _call("along", *_given(file), _mounted(mounted), plan_, len(plan_))
    return list(plan_[:count]), answer[1], answer[2]


def _named_tips(file):
    """How many different tips the lines of a good job file have."""
    file, named = bytes(file), 0
    for at in range(8, len(file), 9 if file[4] == 2 else 8):
        named |= int.from_bytes(file[at : at + 8], "big")
    return bin(named).count("1")


def exact(file, price=0, mounted=None):
    """The tip of each line in the plan with the most pairs less the price of each tip that it uses, its pairs, and its number of
    tips; for lines that name 20 tips at most."""
    plan_, count = _lent(ctypes.c_uint8, MOST_LINES), read(file)[1]
    # With more tips than these the call is refused, whatever the table.
    table = _lent(ctypes.c_uint32, 2 << min(_named_tips(file), EXACT_TIPS))
    lent = plan_, len(plan_), table, len(table)
    answer = _call("exact", *_given(file), _mounted(mounted), _in_range("the price", price, 2**32 - 1), *lent)
    return list(plan_[:count]), answer[1], answer[2]


def check(file, tips, claim, table):
    """Checks a plan from other software, its pairs and its table; what raises nothing is a best plan."""
    numbers = _lent(ctypes.c_uint32, len(table))
    for place, value in enumerate(table):
        numbers[place] = _in_range("an entry of the table", value, 2**32 - 1)
    _call("check", *_given(file), *_given(tips), _in_range("the claim", claim, 2**32 - 1), numbers, len(table))


def junior(file):
    """The tip of each line in the plan for the Junior, its pairs, and its two tips."""
    plan_, count = _lent(ctypes.c_uint8, MOST_LINES), read(file)[1]
    answer = _call("junior", *_given(file), plan_, len(plan_))
    return list(plan_[:count]), answer[1], (answer[2], answer[3])


def merge(first, second):
    """The job file of two boards on one panel."""
    out = _lent(ctypes.c_uint8, LONGEST_FILE)
    answer = _call("merge", *_given(first), *_given(second), out, len(out))
    return bytes(out[: answer[1]])


def alone(first, second):
    """Two boards, each planned alone: for each the tips of its lines, and its pairs."""
    plan_ = _lent(ctypes.c_uint8, 2 * MOST_LINES)
    answer = _call("alone", *_given(first), *_given(second), plan_, len(plan_))
    count, others = read(first)[1], read(second)[1]
    return (list(plan_[:count]), answer[1]), (list(plan_[count : count + others]), answer[2])


def mend(file):
    """A good job file made of one that came back damaged, and its changes as pairs of line and number."""
    out, told = _lent(ctypes.c_uint8, LONGEST_FILE), _lent(ctypes.c_uint8, LONGEST_CHANGES)
    answer = _call("mend", *_given(file), out, len(out), told, len(told))
    changes = [(told[at] << 8 | told[at + 1], told[at + 2]) for at in range(0, answer[2], 3)]
    return bytes(out[: answer[1]]), changes


def _placing(parts, rules):
    """Parts and rules as the header has them, with the number of each."""
    most = 2**32 - 1
    numbers = [_in_range("a number of a part", int(value), most) for part in parts for value in Part(*part)]
    pairs = [_in_range("a part of a rule", value, most) for earlier, later in rules for value in (earlier, later)]
    lent = []
    for values in (numbers, pairs):
        array = _lent(ctypes.c_uint32, len(values))
        array[: len(values)] = values
        lent += [array, len(values)]
    return lent


def order(parts, rules=()):
    """The order in which parts are placed: a Part, or first, last, fine and tall, for each; rules are pairs of parts."""
    placed = _lent(ctypes.c_uint8, MOST_PARTS)
    answer = _call("order", *_placing(parts, rules), placed, len(placed))
    return list(placed[: answer[1]])


def windows(parts, rules=()):
    """For each part the first and the last position that it has in any order that obeys."""
    first, last = _lent(ctypes.c_uint8, MOST_PARTS), _lent(ctypes.c_uint8, MOST_PARTS)
    answer = _call("windows", *_placing(parts, rules), first, len(first), last, len(last))
    return list(zip(first[: answer[1]], last[: answer[1]]))


def order_by_tips(parts, tips, rules=(), mounted=None):
    """The order in which parts are placed, on one tip as long as it can be, given the tip of each part; and its tip changes."""
    placed = _lent(ctypes.c_uint8, MOST_PARTS)
    answer = _call("order_by_tips", *_placing(parts, rules), *_given(tips), _mounted(mounted), placed, len(placed))
    return list(placed[: answer[1]]), answer[2]


def report(file):
    """The text that the program tipshare prints for a job file."""
    out = _lent(ctypes.c_uint8, _REPORT_SPACE)
    return bytes(out[: _library.tipshare_report(*_given(file), out, len(out))]).decode()


def _part(line, part):
    """The name, the tips and the quantity of a part."""
    try:
        name, tips, quantity = part if len(part) == 3 else (*part, 1)
        return name, [operator.index(tip) for tip in tips], operator.index(quantity)
    except (TypeError, ValueError):
        example = "as ('R1', [0, 1]), or ('R1', [0, 1], 10) for ten of it"
        raise TypeError(f"part {line} is {part!r}; give a name, a list of tips and a quantity, {example}") from None


def plan(parts, rack=None, mounted=None):
    """Plans parts by name: each is a name and its tips, and a third value where it is placed more than once.

    The rack has the tips up to the highest that a part has, where none is given. What the library refuses raises Refused,
    with the number of the part in the list as its place.
    """
    parts = [_part(line, part) for line, part in enumerate(parts)]
    names = [name for name, _, _ in parts]
    if len(set(names)) < len(names):
        twice = next(name for at, name in enumerate(names) if name in names[:at])
        raise ValueError(f"{twice!r} stands twice in the list; give each part a name of its own")
    lines = [(tips, quantity) for _, tips, quantity in parts]
    if rack is None:
        rack = max((tip for tips, _ in lines for tip in tips), default=0) + 1
    file = job(rack, lines)
    _, off, tips = common(file)
    quick_tips, quick_pairs = quick(file, mounted)
    best_plan, best_pairs, no_run = None, None, None
    try:
        best_tips, best_pairs, _ = best(file, mounted)
        best_plan = dict(zip(names, best_tips))
    except Refused as refused:
        if refused.number != 25:
            raise
        no_run = names[refused.place]
    return Plan(rack, off, tips, dict(zip(names, quick_tips)), quick_pairs, best_plan, best_pairs, no_run)
