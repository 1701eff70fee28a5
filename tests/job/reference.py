"""Another implementation of document 01's job format and listing and of request (i)'s rewriting: naive loops, on the patterns of values in a job's bytes and on
Python's binary64 floats in the arithmetic."""
import math
import struct


def bits(x):
    return struct.unpack("<Q", struct.pack("<d", x))[0]


def value(pattern):
    return struct.unpack("<d", struct.pack("<Q", pattern))[0]


def encode(n, b, m, matrix, rhs, needless=()):
    """The bytes of a job from its values' patterns; a +0 entry has a bit only where its position is in needless."""
    present, values = 0, b""
    for p, v in enumerate(matrix):
        if v or p in needless:
            present |= 1 << p
            values += v.to_bytes(8, "little")
    size = (n * (n + 1) // 2 + 7) // 8
    return struct.pack("<HHB", n, b, m) + present.to_bytes(size, "little") + values + b"".join(v.to_bytes(8, "little") for v in rhs)


def make(n, b, m, matrix, rhs, needless=()):
    """The bytes of a job from its values."""
    return encode(n, b, m, list(map(bits, matrix)), list(map(bits, rhs)), needless)


class Fault(Exception):
    """Code and place."""


def read(data, needless=False):
    """Order, block length, count, and the patterns of the packed entries and of the right sides. With needless, bits may stand over +0, as before request (i)."""
    at = 0

    def number(width):
        nonlocal at
        if at + width > len(data):
            raise Fault(13, len(data))
        at += width
        return int.from_bytes(data[at - width:at], "little")

    n = number(2)
    if n > 64:
        raise Fault(13, 0)
    b = number(2)
    if not 1 <= b <= 200:
        raise Fault(13, 2)
    m = number(1)
    if m > 16:
        raise Fault(13, 4)
    count = n * (n + 1) // 2
    present = number((count + 7) // 8)
    if present >> count:
        raise Fault(13, at - 1)
    matrix = [0] * count
    for p in range(count):
        if present >> p & 1:
            matrix[p] = number(8)
            if matrix[p] == 0 and not needless:
                raise Fault(18, at - 8)
    rhs = [number(8) for _ in range(n * m)]
    if at != len(data):
        raise Fault(13, at)
    return n, b, m, matrix, rhs


def rewrite(data):
    """The bytes of a stored job without the bits over +0."""
    return encode(*read(data, needless=True))


def solve(n, m, matrix, rhs):
    """code, place, factor in packed order, solutions"""
    for code, values in ((7, matrix), (8, rhs)):
        for p, v in enumerate(values):
            if not math.isfinite(v):
                return code, p, None, None
    place = lambda i, j: i + j * (2 * n - j - 1) // 2
    a = list(matrix)
    for j in range(n):
        entered = a[place(j, j)]
        for k in range(j):
            x = a[place(j, k)]
            for i in range(j, n):
                a[place(i, j)] -= a[place(i, k)] * x
        pivot = a[place(j, j)]
        if not pivot > 0:
            return 10, j, None, None
        if pivot <= entered * 2.0**-40:
            return 16, j, None, None
        a[place(j, j)] = d = math.sqrt(pivot)
        for i in range(j + 1, n):
            a[place(i, j)] /= d
        if not all(math.isfinite(a[place(i, j)]) for i in range(j + 1, n)):
            return 11, j, None, None
    x = []
    for q in range(m):
        y = rhs[q * n:(q + 1) * n]
        for i in range(n):
            for k in range(i):
                y[i] -= a[place(i, k)] * y[k]
            y[i] /= a[place(i, i)]
        fine = all(map(math.isfinite, y))
        for i in reversed(range(n)):
            for k in range(n - 1, i, -1):
                y[i] -= a[place(k, i)] * y[k]
            y[i] /= a[place(i, i)]
        if not (fine and all(map(math.isfinite, y))):
            return 12, q, None, None
        x += y
    return 0, 0, a, x


def listing(data):
    try:
        n, b, m, matrix, rhs = read(data)
        code, place, factor, x = solve(n, m, list(map(value, matrix)), list(map(value, rhs)))
    except Fault as fault:
        code, place = fault.args
    lines = [] if code == 13 else ["JOB {} {} {}".format(*struct.unpack("<HHB", data[:5]))]
    if code == 0:
        lines += [f"F {bits(v):016X}" for v in factor] + [f"X {bits(v):016X}" for v in x]
    return "\n".join(lines + [f"END {code} {place}"]) + "\n"
