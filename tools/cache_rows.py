#!/usr/bin/env python3
"""Writes `stdin` and `stdout` of crates/cache_rows: worked rows settled by hand, and drawn calls answered by `cache_rules`."""
import random

from cache_rules import Cache
from transcript import Transcript, compact

table = Transcript("cache_rows")
SEATS = 3


def bounds(cache):
    return f"{cache.size} {cache.weight or '-'}"


def call(cache, seat, verb, *numbers):
    """Makes a call on the lists, writes its row, and gives what it was answered."""
    answer = getattr(cache, verb)(seat, *numbers)
    if verb == "give":
        count, *marks = numbers
        told = [name for name, mark, plain in zip(["whole", "unkept"], marks, [False, True]) if mark != plain]
        numbers = [count, *told]
    if verb == "look" and len(numbers) == 1:
        numbers = [*numbers, 0]
    text = " ".join(map(str, [seat, verb, *numbers]))
    table.ask(text, f" {answer};" + "".join(f" {key}" for key in cache.keys()))
    return answer


# ---- Worked rows: a seat, its call, what it is answered; and the keys in the end, the most recently used first.

# Two callers share a filter: the one joins the other's, and hits once it is there, or owns it once it was given up.
SHARED = [
    (1, "look", 7, "own"),
    (2, "look", 7, "join 1"),
    (1, "give", 3, "done"),
    (2, "look", 7, "hit 3"),
    (1, "look", 8, "own"),
    (2, "look", 8, "join 1"),
    (1, "leave", "done"),
    (2, "look", 8, "own"),
    (2, "give", 0, "done"),
]

# Of three filters in a cache of two the one that was used last stays beside the new one.
THREE_IN_TWO = [
    (0, "look", 1, "own"),
    (0, "give", 2, "done"),
    (0, "look", 2, "own"),
    (0, "give", 1, "done"),
    (0, "look", 1, "hit 2"),
    (0, "look", 5, "own"),
    (0, "give", 2, "done"),
    (0, "look", 2, "own"),
    (0, "give", 1, "done"),
]

# Sets of three, four and two documents weigh 12, so that the first goes where 10 are the most. A set of ten is too heavy,
# and pushes nothing out.
WEIGHED = [
    (0, "look", 1, "own"),
    (0, "give", 3, "done"),
    (0, "look", 2, "own"),
    (0, "give", 4, "done"),
    (0, "look", 3, "own"),
    (0, "give", 2, "done"),
    (0, "look", 4, "own"),
    (0, "give", 10, "done"),
    (0, "look", 4, "own"),
]

# Where results of more than four documents are not kept: one of two serves a need of two and not one of three, which two
# callers share; one of five is too long.
LENGTHS = [
    (0, "look", 1, 0, "own"),
    (0, "give", 2, "done"),
    (0, "look", 1, 2, "hit 2"),
    (0, "look", 1, 3, "own"),
    (2, "look", 1, 3, "join 0"),
    (2, "look", 1, 1, "hit 2"),
    (0, "give", 4, "done"),
    (2, "look", 1, 3, "hit 4"),
    (1, "look", 1, 5, "own"),
    (1, "give", 5, True, "done"),
    (1, "look", 1, 4, "hit 4"),
]

# A result that is too short stays the least recently used until another takes its place.
ORDER = [
    (0, "look", 1, 0, "own"),
    (0, "give", 1, "done"),
    (0, "look", 2, 0, "own"),
    (0, "give", 1, "done"),
    (0, "look", 1, 2, "own"),
    (0, "leave", "done"),
    (0, "look", 3, 0, "own"),
    (0, "give", 0, "done"),
    (0, "look", 1, 0, "own"),
]

# A result of all that were found serves whatever is needed.
WHOLE = [
    (0, "look", 1, 9, "own"),
    (0, "give", 3, True, "done"),
    (1, "look", 1, 9, "hit 3"),
    (0, "look", 2, 0, "own"),
    (0, "give", 3, "done"),
    (1, "look", 2, 4, "own"),
]


def worked(maker, cache, calls, keys):
    table.step(maker)
    for *made, answer in calls:
        assert call(cache, *made) == answer, (made, answer)
    assert cache.keys() == keys


def filters(size, weight=None):
    return f"filters {size} {weight or '-'}", Cache(size, weight, serves_always=True)


def results(most, size, weight=None):
    return f"results {most} {size} {weight or '-'}", Cache(size, weight, most)


def worked_rows():
    table.title("Two callers share a filter.")
    worked(*filters(2), SHARED, [8, 7])
    table.title("Three filters in a cache of two.")
    worked(*filters(2), THREE_IN_TWO, [2, 5])
    table.title("Filters that weigh 10 at most.")
    worked(*filters(4, 10), WEIGHED, [3, 2])
    table.title("Results serve by their lengths.")
    worked(*results(4, 2), LENGTHS, [1])
    table.title("A result that is too short stays where it is.")
    worked(*results(4, 2), ORDER, [3, 2])
    table.title("A result of all that were found serves whatever is needed.")
    worked(*results(4, 2), WHOLE, [2, 1])
    table.title("A key has its filters each once, in whatever order.")
    table.ask("keys 5 2 5 | 2 5 2 2", " equal")
    table.ask("keys 5 2 | 5", " different")
    table.ask("keys | 5", " different")
    table.ask("keys |", " equal")


# ---- Documents: a number, and of how many values a document is put under it, or is to be found there.

# Of three documents in a cache of two the one that was found last stays beside the new one, which another replaces.
TWO = [
    ("put", 10, 1),
    ("put", 11, 2),
    ("find", 10, 1),
    ("put", 12, 3),
    ("find", 11, None),
    ("find", 10, 1),
    ("put", 12, 5),
    ("find", 12, 5),
    ("find", 10, 1),
]

# Where the greatest weight is 5, documents of one and two values fill it, one of five changes nothing, and another of one
# value takes the place of the least recently used.
LIGHT = [
    ("put", 1, 1),
    ("put", 2, 2),
    ("put", 3, 5),
    ("find", 3, None),
    ("find", 2, 2),
    ("put", 4, 1),
    ("find", 1, None),
    ("find", 2, 2),
]


def put(number, count):
    table.step(f"put {number} " + compact({"id": "k", "tags": ["x", "y", "x", "y", "x"][: count - 1]}))


def find(number, count):
    table.ask(f"find {number}", f" {'none' if count is None else count}")


def worked_documents(size, weight, calls):
    table.step(f"docs {size} {weight or '-'}")
    for verb, number, count in calls:
        put(number, count) if verb == "put" else find(number, count)


def drawn_documents(size, weight):
    """A document of so many values weighs 1 more; `Cache` lets its keys be looked at without an owner."""
    draws = random.Random(size)
    cache = Cache(size, weight, serves_always=True)
    table.title(f"Drawn calls: documents, {size} at most, that weigh {weight or 'whatever'}.")
    table.step(f"docs {size} {weight or '-'}")
    for _ in range(100):
        number = draws.randrange(7)
        if draws.random() < 0.4:
            count = draws.randrange(1, 6)
            put(number, count)
            cache.put(number, count)
        else:
            found = cache.look(0, number).split()
            find(number, int(found[1]) if found[0] == "hit" else None)
            cache.owned.clear()


def documents():
    table.title("Three documents in a cache of two.")
    worked_documents(2, None, TWO)
    table.title("Documents that weigh 5 at most.")
    worked_documents(4, 5, LIGHT)
    for size, weight in [(1, None), (3, None), (3, 9), (6, 7)]:
        drawn_documents(size, weight)


# ---- Drawn calls of three seats.


def drawn(kind, count):
    for size, weight in [(1, None), (4, None), (4, 12), (6, 7), (2, 1)]:
        most = 4 if kind == "results" else None
        draws = random.Random(f"{kind} {size}")
        cache = Cache(size, weight, most, kind == "filters")
        table.title(f"Drawn calls: {kind}, {size} at most, that weigh {weight or 'whatever'}.")
        table.step(" ".join([kind, *([str(most)] if most else []), bounds(cache)]))
        for _ in range(count):
            seat = draws.randrange(SEATS)
            if seat not in cache.owned:
                call(cache, seat, "look", draws.randrange(7), draws.randrange(6))
            elif draws.random() < 0.25:
                call(cache, seat, "leave")
            else:
                keep = draws.random() < 0.8 if kind == "numbers" else True
                call(cache, seat, "give", draws.randrange(6), draws.random() < 0.33, keep)


def main():
    fields = [{"name": "id", "type": "string"}, {"name": "tags", "type": "string", "multiValued": True}]
    table.step(compact({"fields": fields, "uniqueKey": "id"}))
    worked_rows()
    documents()
    drawn("numbers", 200)
    drawn("filters", 100)
    drawn("results", 100)
    table.write()


main()
