"""Measures calls on roots that strangers could make, each of twice the bytes of the one before: growth.py FOLDER.

The roots are those of hostile_roots.py. The memory of a call may be at most 2.3 times what it is for half the bytes, and its
time, which caches and other programs change, at most 2.8 times. Memory is what Python allocates. What the library allocates is not counted, and c/clim.h says how much it is.
The last line is 'N passed, M failed'.
"""

import gc
import pathlib
import sys
import time
import tracemalloc

import clim

# How often the memory, or the time, for half the bytes that for all bytes may be. A square gives 4.
MOST_MEMORY = 2.3
MOST_TIME = 2.8
# A call is measured this number of times at most, until the least of each size show that it grows as it may.
RUNS = 100
# The number of signatures whose texts are read.
SIGNATURES = 2000


def opened(root):
    return clim.open(root, bare=True)


def read_texts(assembly):
    """The texts of some signatures. Those that are too long are errors."""
    for row in assembly["StandAloneSig"][:SIGNATURES]:
        try:
            row.Signature.text
        except OverflowError:
            pass


def read_names(assembly):
    return [row.full_name for row in assembly.types]


def read_row_names(assembly):
    return [assembly.name_of(row.token) for row in assembly.types]


def find_nested(assembly):
    """A type by its full name, which several types have as theirs but for those that enclose them; and none."""
    full_name = assembly.types[len(assembly.types) - 1].full_name
    return assembly.find_type(full_name), assembly.find_type(f"{full_name}/none")


def read_attributes(assembly):
    return [row.custom_attributes for row in assembly.types]


def read_arguments(assembly):
    return assembly.custom_attributes[0].arguments


def read_heaps(assembly):
    return assembly.heaps


def change(assembly):
    """Tables whose first row is changed, and their root."""
    tables = clim.Tables.of(assembly)
    for table in assembly:
        row = tables[table.name][0]
        row.update({"Name": "changed"} if "Name" in row else {})
    return tables.root()


def seconds(call, root):
    """The processor time of a call on an assembly that was opened before."""
    with opened(root) as assembly:
        gc.collect()
        begun = time.process_time()
        call(assembly)
        return time.process_time() - begun


def peak(call, root):
    """The largest number of bytes that Python has allocated during a call."""
    with opened(root) as assembly:
        tracemalloc.start()
        call(assembly)
        found = tracemalloc.get_traced_memory()[1]
        tracemalloc.stop()
    return found


# The canonical root of blobs that overlap has each of them, so that its length grows with the square.
CASES = [
    *[(peak, clim.Tables.of, name) for name in ("one_text", "endings", "one_plain_blob", "overlapping_blobs")],
    *[(peak, change, name) for name in ("one_text", "endings", "one_plain_blob")],
    (peak, read_heaps, "many_streams"),
    (seconds, read_heaps, "many_streams"),
    (seconds, read_names, "nested_in_one"),
    (seconds, read_names, "nested_out_of_order"),
    (seconds, read_row_names, "nested_in_one"),
    (seconds, read_row_names, "nested_out_of_order"),
    (seconds, find_nested, "nested_in_one"),
    (seconds, find_nested, "nested_out_of_order"),
    (seconds, read_attributes, "attributes_out_of_order"),
    (seconds, read_texts, "one_signature"),
    (seconds, read_arguments, "one_array"),
    (peak, read_arguments, "one_array"),
]


def judge(measure, call, name, folder):
    """Whether a call grows as it may. It prints what was measured."""
    roots = [(folder / f"{name}.{times}").read_bytes() for times in (1, 2, 4)]
    most = (MOST_TIME if measure is seconds else MOST_MEMORY) ** 2
    least = [float("inf")] * len(roots)
    for _ in range(RUNS):
        least = [min(it, measure(call, root)) for it, root in zip(least, roots)]
        if least[2] <= most * least[0]:
            break
    shown = ", ".join(f"{it:.3f} s" if measure is seconds else f"{it / 1e6:.2f} MB" for it in least)
    grows = least[2] > most * least[0]
    print(f"{call.__qualname__} of {name}: {shown}{', which grows too much' if grows else ''}")
    return not grows


def main():
    folder = pathlib.Path(sys.argv[1])
    passed = sum(judge(*it, folder) for it in CASES)
    print(f"{passed} passed, {len(CASES) - passed} failed")
    return passed < len(CASES)


if __name__ == "__main__":
    sys.exit(main())
