"""Counts words."""
import collections


def counted(text: str) -> collections.Counter:
    return collections.Counter(text.split())


print(counted("a rose is a rose"))
