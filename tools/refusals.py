"""The words of the refusals, from the table of README.md, which has the program's own."""
import functools
import os
import re

README = os.path.join(os.path.dirname(os.path.abspath(__file__)), "..", "README.md")


@functools.lru_cache(maxsize=None)
def words():
    """The words of each refusal by its number."""
    with open(README, encoding="utf-8") as f:
        rows = re.findall(r"^\| ([0-9, ]+) \| ([^|]+) \|", f.read(), re.M)
    return {int(n): text.strip() for numbers, text in rows for n in numbers.split(",")}


def refused(number):
    """The line of a file that is refused."""
    return "refused\t%d\t%s" % (number, words()[number])
