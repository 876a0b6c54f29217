"""The figures of bench/run that are made by pairs: what a round is, the seed of a pair, and the row of a workload."""
import statistics

HEAD = """| NAME | start over now | quartiles | now it is | million instructions at the start | now | start over now |
|---|---|---|---|---|---|---|"""


def one_round(words):
    """The words of a workload for one round of it, which its first number counts."""
    at = next(at for at, word in enumerate(words) if word.isdigit())
    return [*words[:at], "1", *words[at + 1:]]


def seed_of(seed, pair):
    """The seed of a pair: another one for each of the first 2^32."""
    return (int(seed) + 0x9E3779B9 * pair) % 2**32


def order_of(pair):
    """Which side runs first: each in turn."""
    return ("old", "new") if pair % 2 == 0 else ("new", "old")


def quartiles(ratios):
    """The lower quartile, the median and the upper quartile. Between two ratios it goes in proportion."""
    return statistics.quantiles(ratios, n=4, method="inclusive")


def told(lower, upper):
    """What quartiles of the start's times over those of now tell."""
    if lower <= 1 <= upper:
        return "no difference"
    return "faster" if lower > 1 else "slower"


def row(name, ratios, instructions):
    """The row of a workload. The instructions are those of the start and of now, or None where nothing counts them."""
    lower, median, upper = quartiles(ratios)
    counts = ["-", "-", "-"]
    if instructions:
        before, now = instructions
        counts = [f"{before / 1e6:,.0f}", f"{now / 1e6:,.0f}", f"{before / now:.2f}"]
    cells = [name, f"{median:.2f}", f"{lower:.2f} to {upper:.2f}", told(lower, upper), *counts]
    return f"| {' | '.join(cells)} |"
