"""judge.py LIBRARY JOB PLAN [COSTS]: judges the plan in a file for the job in a file, by the class costs in a file or, where none is named, by the house's;
by a shared object made of the static library."""
import ctypes
import sys

COSTS_GIVEN = 1
WORDS = ["plan", "blocked", "unfinished", "missed", "least", "dearer"]


def judge(library, job, plan, costs=None):
    """The refusal's number, or 0, and the five numbers beside it."""
    given = 0 if costs is None else COSTS_GIVEN
    costs = costs or b""
    steps = (ctypes.c_uint16 * 4096)()
    table = (ctypes.c_uint64 * 1048576)()
    answer = (ctypes.c_uint64 * 5)()
    size = ctypes.c_size_t
    library.jesmovit_judge.restype = ctypes.c_uint32
    texts = [job, size(len(job)), plan, size(len(plan)), costs, size(len(costs)), ctypes.c_uint32(given)]
    refusal = library.jesmovit_judge(*texts, steps, size(len(steps)), table, size(len(table)), answer)
    return refusal, list(answer)


def main():
    if len(sys.argv) not in (4, 5):
        sys.exit("usage: judge.py LIBRARY JOB PLAN [COSTS]")
    library = ctypes.CDLL(sys.argv[1])
    try:
        texts = [open(path, "rb").read() for path in sys.argv[2:]]
    except OSError as error:
        sys.exit(f"{error.filename}: {error.strerror}")
    refusal, (first, _, outcome, value, least) = judge(library, *texts)
    if refusal:
        print(f"refused by {refusal} at {first}")
        sys.exit(1)
    if outcome == 1:
        print(f"blocked at {value}")
    elif outcome >= 4:
        print(f"{WORDS[outcome]}: cost {value}, least cost {least}")
    else:
        print(WORDS[outcome])


main()
