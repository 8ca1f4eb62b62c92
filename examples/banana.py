"""Prints the nearest smaller suffixes of banana, 6 for none, its tree, and its runs: start, end and period. The argument is the
shared library."""
import ctypes
import sys

U32, SIZE = ctypes.c_uint32, ctypes.c_size_t


class BuildReply(ctypes.Structure):
    _fields_ = [("refusal", U32), ("finished", U32), ("rows", SIZE), ("equal", SIZE), ("unequal", SIZE), ("reach", SIZE)]


class Reply(ctypes.Structure):
    _fields_ = [("refusal", U32), ("value", SIZE)]


def arguments(lists):
    """Each list and then its length."""
    return [argument for lent in lists for argument in (lent, SIZE(len(lent)))]


library = ctypes.CDLL(sys.argv[1])
library.lyndon_build.restype = BuildReply
library.lyndon_runs.restype = Reply
assert library.lyndon_version() == 7, "another version of the library than this program is written for"

letters = b"banana"
n = len(letters)
previous, following, previous_match, next_match = tables = [(U32 * n)() for _ in range(4)]
tree = (ctypes.c_uint8 * ((n + 3) // 4))()
built = library.lyndon_build(letters, SIZE(n), SIZE(n), *arguments([*tables, tree]))
if built.refusal != 0:
    sys.exit(f"refused {built.refusal}")
for i in range(n):
    print(i, previous[i], following[i])
print(bytes(tree).hex())

starts, ends, periods = lists = [(U32 * (n - 1))() for _ in range(3)]
work = [(U32 * n)() for _ in range(6)]
runs = library.lyndon_runs(letters, SIZE(n), *arguments([*lists, *work]))
if runs.refusal != 0:
    sys.exit(f"refused {runs.refusal}")
for k in range(runs.value):
    print("run", starts[k], ends[k], periods[k])
