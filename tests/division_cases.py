"""The two divisions at their edges, worked out with numbers of any size: writes crates/division_cases/stdin and stdout."""
import stored

LIMIT_SIZE, LIMIT_DIVISOR, WORD = 2**63, 2**62, 2**64

DIVISORS = [1, 2, 3, 4, 5, 7, 10, 16, 17, 255, 256, 1000, 65537, 999_999, 1_000_000, 1_000_001, 2**31, 2**53 + 1, 2**61 - 1, 2**61,
            2**62 - 1]
QUOTIENTS = [*range(20), 31, 32, 63, 64, 65, 255, 256, 257, 1023, 1024, 2**14 - 1, 2**14, 2**18 - 1, 2**18, 2**20 - 1, 2**40 + 1, 2**53,
             2**62 - 1, 2**62, 2**63 - 1]
# Too long for a move's divisor, but a length has no such limit.
LENGTHS = [2**62, 2**63 - 1, 2**63, 2**63 + 1, WORD - 1]


def nearest(size, d):
    """size / d to the nearest whole number, halves toward zero: counted in halves of d."""
    return -(-(2 * size - d) // (2 * d)) if 2 * size > d else 0


def cases():
    """Each quotient with no remainder, with just half of the divisor, a little more, and all but one; and the largest size."""
    for d in DIVISORS:
        remainders = sorted({r for r in (0, 1, d // 2, d // 2 + 1, d - 1) if r < d})
        sizes = [q * d + r for q in QUOTIENTS for r in remainders]
        yield from ((size, d) for size in [*sizes, LIMIT_SIZE - 1] if size < LIMIT_SIZE)
    yield (LIMIT_SIZE, 1)
    yield (1, 0)
    yield from ((1, length) for length in LENGTHS)


def moves(size, d):
    if not 0 < d < LIMIT_DIVISOR or size >= LIMIT_SIZE:
        return []
    return [nearest(size, d), -nearest(size, d)]


def weights(d):
    return [1_000_000 // d] if d else []


def line(size, d):
    return "".join(f" {x}" for x in moves(size, d) + weights(d)) + "\n"


if __name__ == "__main__":
    chosen = list(cases())
    stored.main({
        "crates/division_cases/stdin": b"".join(size.to_bytes(8, "big") + d.to_bytes(8, "big") for size, d in chosen),
        "crates/division_cases/stdout": "".join(line(*case) for case in chosen).encode(),
    })
