"""Rows of `verify --lint` over one rules file."""
from tables.kinds.marked import TEXTS
from tables.kinds.verified import verified


def lint(number, word=""):
    """What a lint of this number says."""
    return f"W{number} {TEXTS[f'W{number}']}" + (f": {word}" if word else "")


# The lints that rules of a test have besides those that it is about, such as W15 of a rule without a match.
OTHERS = ",".join(f"W{number}" for number in range(15, 28))


def linted(name, *lines, words=f"verify --lint --ignore {OTHERS}"):
    """A run over a file of these lines, with what is said about each, apart from W15 to W27."""
    return verified(name, *lines, words=words)


def all_linted(name, *lines, words="verify --lint"):
    """A run over a file of these lines, with all that is said about each."""
    return verified(name, *lines, words=words)


def reported(number, *pairs):
    """Lines that each cause one lint of this number: pairs of a line and the word."""
    return [(line, lint(number, word)) for line, word in pairs]
