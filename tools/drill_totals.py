#!/usr/bin/env python3
"""drill_totals N..: what `drill N` counts, from the generator's recurrence and lists of documents alone.

Nothing of a searcher's caches is dropped in such a run, so a look-up is a hit where the searcher was asked the same before, or was
warmed with it: a commit's searcher has the 16 filters and the 16 results that were used last on the one before it."""
import sys

WARMED = 16


def next_number(number):
    return (1103515245 * number + 12345) % 2147483648


def turns(count):
    """The category, price and word of each turn."""
    number = count
    for _ in range(count):
        drawn = []
        for bound in (7, 1000, 20):
            number = next_number(number)
            drawn.append(number // 65536 % bound)
        yield tuple(drawn)


def used(keys, key):
    """Whether the key was there; it is then the most recently used."""
    hit = key in keys
    if hit:
        keys.remove(key)
    keys.insert(0, key)
    return hit


def totals(count):
    docs, served = [], 0
    filters, results, documents = [], [], set()
    counts = {"commits": 1, "documentHits": 0, "documentLookups": 0, "filterHits": 0, "found": count, "queries": 1, "resultHits": 0}
    for index, (cat, price, word) in enumerate(turns(count)):
        docs.append((cat, price, word))
        if index % 10 == 9:
            counts["queries"] += 1
            if used(results, (cat, price, word)):
                counts["resultHits"] += 1
            else:
                counts["filterHits"] += used(filters, ("cat", cat)) + used(filters, ("price", price))
            found = [(doc[1], at) for at, doc in enumerate(docs[:served]) if doc[0] == cat and doc[1] <= price and doc[2] == word]
            counts["found"] += len(found)
            page = {at for _, at in sorted(found)[:10]}
            counts["documentLookups"] += len(page)
            counts["documentHits"] += len(page & documents)
            documents |= page
        if index % 100 == 99:
            counts["commits"] += 1
            served, documents = index + 1, set()
            del filters[WARMED:], results[WARMED:]
    return counts


for word in sys.argv[1:]:
    print(word, totals(int(word)))
