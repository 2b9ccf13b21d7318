"""The rules of a searcher with three caches, on plain lists: what it serves, what its caches do for that, and what it reads.

It is put together of `search_rules`, which looks at each document, and the plain lists of `cache_rules`.
"""
from dataclasses import dataclass, field

import search_rules as rules
from cache_rules import Cache


@dataclass
class Filter:
    query: tuple
    cached: bool = True
    cost: int = 0


@dataclass
class Request:
    query: tuple
    cached: bool = True
    filters: list = field(default_factory=list)
    sort: list = field(default_factory=list)
    start: int = 0
    rows: int = 10


@dataclass
class Served:
    """`counts` are the postings, sort values and documents that were read; a count is none where the rules leave it open."""

    found: int
    page: list
    result: str
    filters: list
    hits: int
    counts: tuple


def same(query):
    """Queries that read to one query are one: a word of a text is a phrase of one word."""
    if query[0] == "bool":
        return ("bool", *(tuple(map(same, parts)) for parts in query[1:]))
    if query[0] == "term" and rules.KINDS[query[1]] == "text":
        return ("phrase", query[1], (query[2],))
    if query[0] == "phrase":
        return ("phrase", query[1], tuple(query[2]))
    if query[0] == "range" and query[2] is None and query[3] is None:
        return ("exists", query[1])
    return query


def once(filters):
    """The filters, of those with one query the first."""
    kept = {}
    for one in filters:
        kept.setdefault(same(one.query), one)
    return list(kept.values())


def asks(query):
    """How often an evaluation asks for postings, where that is known."""
    if query[0] == "all":
        return 0
    is_key = query[0] == "term" and rules.KINDS[query[1]] != "text"
    return 1 if is_key else None


def total(counts):
    return None if None in counts else sum(counts)


class Searcher:
    def __init__(self, docs, filters, results, documents, window, most):
        self.docs, self.window = list(docs), window
        self.filters = Cache(filters, serves_always=True)
        self.results = Cache(results, most=most)
        self.documents = Cache(documents, serves_always=True)

    def matching(self, docs, query):
        return [doc for doc in docs if rules.matches(query, doc)]

    def serve(self, request):
        filters = once(request.filters)
        left = self.docs
        for query in [request.query, *(one.query for one in filters)]:
            left = self.matching(left, query)
        hits = [doc["id"] for _, doc in rules.in_order(list(enumerate(left)), request.sort)]
        end = request.start + request.rows
        key = (same(request.query), frozenset(same(one.query) for one in filters), tuple(map(tuple, request.sort)))
        if not request.cached:
            result, (notes, postings) = "bypassed", self.make(request.query, filters)
        elif self.results.look(0, key, end) != "own":
            result, notes, postings = "hit", [], 0
        else:
            result, (notes, postings) = "computed", self.make(request.query, filters)
            windows = max(1, -(-end // self.window))
            count = min(len(hits), windows * self.window)
            self.results.give(0, count, whole=count == len(hits))
        page = hits[request.start : end]
        kept = self.look_up(page)
        values = 0 if result == "hit" or not request.sort else None
        return Served(len(hits), page, result, notes, kept, (postings, values, len(page) - kept))

    def make(self, query, filters):
        """What the filter cache does for a result that is made, and how often that asks for postings."""
        notes, asked, left = [], [], self.docs
        for one in filters:
            if not one.cached:
                notes.append("bypassed")
                continue
            is_hit = self.filters.look(0, same(one.query)) != "own"
            notes.append("hit" if is_hit else "computed")
            left = self.matching(left, one.query)
            if not is_hit:
                asked.append(asks(one.query))
                self.filters.give(0, 0)
        turns = sorted((one for one in filters if not one.cached), key=lambda one: one.cost)
        for turn in [query, *(one.query for one in turns)]:
            if left:
                asked.append(asks(turn))
                left = self.matching(left, turn)
        return notes, total(asked)

    def look_up(self, page):
        """How many documents of a page are kept; the others are from then on."""
        kept = 0
        for one in page:
            if self.documents.look(0, one) == "own":
                self.documents.leave(0)
                self.documents.put(one, 0)
            else:
                kept += 1
        return kept
