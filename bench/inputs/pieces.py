"""Parts of texts by chance, for the modules of this folder."""
LETTERS = "abcdefghijklmnopqrstuvwxyzABCDEFGHIJKLMNOPQRSTUVWXYZ_"
LOWER = "abcdefghijklmnopqrstuvwxyz"
DIGITS = "0123456789"
MONTHS = "Jan Feb Mar Apr May Jun Jul Aug Sep Oct Nov Dec".split()


def some(rng, letters, least, most):
    return "".join(rng.choices(letters, k=rng.randrange(least, most + 1)))


def blank(rng):
    """A space, or sometimes a line's end with an indent."""
    return " " if rng.randrange(20) < 17 else "\n" + " " * (4 * rng.randrange(5))


def quad(rng):
    """Four numbers with dots between them, as in an address."""
    return ".".join(str(rng.randrange(256)) for _ in range(4))


def clock(rng):
    return ":".join(f"{rng.randrange(most):02}" for most in (24, 60, 60))


def path(rng, shortest=2):
    """A path of up to four names."""
    names = (some(rng, LOWER + DIGITS, shortest, 9) for _ in range(rng.randrange(1, 5)))
    return "/" + "/".join(names)


def filled(part, rng, least):
    """Returns parts in a row that together have at least so many bytes."""
    parts, length = [], 0
    while length < least:
        made = part(rng)
        parts.append(made if isinstance(made, bytes) else made.encode())
        length += len(parts[-1])
    return b"".join(parts)
