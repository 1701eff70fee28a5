# What bench/table and bench/figure share: the numbers of target/bench/numbers.tsv, and what is compared at every block length.
import os

RUNS = ["Prescott", "Nehalem"]

# what, beside what, floor, lower floors of single block lengths, goal, our call at block length b, their call, which may be at b too
BY_BLOCK = [
    ("blocked factor", "at b 64", 0.5, {2: 0.4}, 0.75, "factor_blocked_{b}", ("metsovary", "factor_blocked_64")),
    ("solver, one right side", "plain solver", 0.6, {}, 0.9, "solve_blocked_{b}_1", ("metsovary", "solve_plain_1")),
    ("solver, 100 right sides", "plain solver", 0.6, {}, 0.9, "solve_blocked_{b}_100", ("metsovary", "solve_plain_100")),
    ("packed to blocked", "memcpy", 0.4, {}, 0.6, "packed_to_blocked_{b}", ("libc", "memcpy")),
    ("blocked to packed", "memcpy", 0.4, {}, 0.6, "blocked_to_packed_{b}", ("libc", "memcpy")),
    ("variance at k n/2 + 7", "at k 0", 3, {}, 4, "variance_blocked_middle_{b}", ("metsovary", "variance_blocked_first_{b}")),
]

os.chdir(os.path.join(os.path.dirname(os.path.realpath(__file__)), ".."))
seconds = {}
with open("target/bench/numbers.tsv") as numbers:
    next(numbers)
    for line in numbers:
        n, who, what, value, run = line.split()
        seconds[int(n), who, what, run] = float(value)
orders = sorted({n for n, _, _, _ in seconds})

# The block lengths are measured in the first run, at some of the orders.
at_blocks = {(int(what.split("_")[2]), n) for n, _, what, run in seconds if what.startswith("factor_blocked_") and run == RUNS[0]}
blocks = sorted({b for b, _ in at_blocks})
block_orders = [n for n in orders if at_blocks >= {(b, n) for b in blocks}]


def ratio(n, ours, theirs, run):
    """How many times as fast our call is as theirs."""
    return seconds[(n, *theirs, run)] / seconds[n, "metsovary", ours, run]


def at_block(b, ours, theirs):
    """Both calls at block length b."""
    return ours.format(b=b), tuple(part.format(b=b) for part in theirs)


def floors(floor, lower):
    return ", ".join([f"{floor}", *(f"{low} at b {b}" for b, low in lower.items())])
