"""The rules of documents, queries, sorts and views, on plain lists: what a searcher finds, found by looking at each document.

It shares nothing with the crates, and is as slow as can be.
"""
import functools
import re

KINDS = {"id": "string", "cat": "string", "price": "number", "t": "text", "ok": "truth", "m": "text", "n": "number"}
MANY = {"m", "n"}


def schema():
    names = {"string": "string", "number": "plong", "text": "text_general", "truth": "boolean"}
    fields = []
    for name, kind in KINDS.items():
        field = {"name": name, "type": names[kind]}
        if name in MANY:
            field["multiValued"] = True
        fields.append(field)
    return {"uniqueKey": "id", "fields": fields}


def values(doc, field):
    """The values of a document in a field, numbers as such."""
    value = doc.get(field)
    if value is None:
        return []
    several = value if isinstance(value, list) else [value]
    return [int(v) for v in several] if KINDS[field] == "number" else several


def tokens(text):
    """Longest runs of ASCII letters, ASCII digits and characters past ASCII; ASCII in lower case."""
    runs = re.findall("[A-Za-z0-9\u0080-\U0010ffff]+", text)
    return ["".join(c.lower() if c.isascii() else c for c in run) for run in runs]


def keys(doc, field):
    """What queries see of a document in a field."""
    if KINDS[field] == "text":
        return [token for value in values(doc, field) for token in tokens(value)]
    return values(doc, field)


def rank(key):
    """Texts stand by their bytes, numbers by value, false before true."""
    return key.encode() if isinstance(key, str) else key


def stands_in(words, row):
    return any(row[at : at + len(words)] == words for at in range(len(row) - len(words) + 1))


def is_within(key, low, high):
    """An end is none, or a key and whether it belongs to the range."""
    if low and not (rank(low[0]) < rank(key) or low[1] and low[0] == key):
        return False
    return not high or rank(key) < rank(high[0]) or high[1] and high[0] == key


def matches_inside(query, doc):
    """Whether a document matches a query that stands inside another one."""
    kind, *rest = query
    if kind == "all":
        return True
    if kind == "bool":
        must, should, prohibited = rest
        if any(matches_inside(part, doc) for part in prohibited):
            return False
        if must:
            return all(matches_inside(part, doc) for part in must)
        return any(matches_inside(part, doc) for part in should)
    field = rest[0]
    if kind == "phrase":
        return bool(rest[1]) and any(stands_in(rest[1], tokens(value)) for value in values(doc, field))
    asked = {
        "exists": lambda key: True,
        "term": lambda key: key == rest[1],
        "prefix": lambda key: key.encode().startswith(rest[1].encode()),
        "range": lambda key: is_within(key, rest[1], rest[2]),
    }[kind]
    return any(asked(key) for key in keys(doc, field))


def matches(query, doc):
    """The same of a whole query: one of prohibited parts alone matches whatever none of them matches."""
    if query[0] == "bool" and query[3] and not query[1] and not query[2]:
        return not any(matches_inside(part, doc) for part in query[3])
    return matches_inside(query, doc)


def in_order(numbered, sort):
    """Pairs of a number and a document in the order of a sort, a list of a field's name or `_docid_` and a direction."""

    def mark(pair, by):
        if by == "_docid_":
            return (1, pair[0])
        own = values(pair[1], by)
        return (1, rank(own[0])) if own else (0, 0)

    def compare(left, right):
        for by, way in sort:
            a, b = mark(left, by), mark(right, by)
            if a != b:
                return (-1 if a < b else 1) * (-1 if way == "desc" else 1)
        return left[0] - right[0]

    return sorted(numbered, key=functools.cmp_to_key(compare))


class Index:
    """The documents that stand, and those that the searcher sees."""

    def __init__(self):
        self.docs, self.served = [], []

    def add(self, doc):
        self.delete(doc["id"])
        self.docs.append(doc)

    def delete(self, key):
        self.docs = [doc for doc in self.docs if doc["id"] != key]

    def delete_query(self, query):
        self.docs = [doc for doc in self.docs if not matches(query, doc)]

    def commit(self):
        self.served = list(self.docs)

    def hits(self, query, filters, sort):
        found = [(n, doc) for n, doc in enumerate(self.served) if all(matches(q, doc) for q in [query, *filters])]
        return [doc for _, doc in in_order(found, sort)]


class View:
    """Segments of documents, each live or not; documents are numbered along the segments."""

    def __init__(self):
        self.parts = []

    def numbered(self):
        return [(n, *entry) for n, entry in enumerate(e for part in self.parts for e in part)]

    def live(self):
        return [(n, doc) for n, doc, is_live in self.numbered() if is_live]

    def extend(self, docs, gone):
        number = 0
        for part in self.parts:
            for at, (doc, is_live) in enumerate(part):
                part[at] = (doc, is_live and number not in gone)
                number += 1
        if docs:
            self.parts.append([(doc, True) for doc in docs])

    def merge(self, at):
        both = [entry for entry in self.parts[at] + self.parts[at + 1] if entry[1]]
        self.parts[at : at + 2] = [both] if both else []

    def found(self, query):
        return [doc["id"] for _, doc in self.live() if matches(query, doc)]

    def postings(self, field, key):
        """The live documents with a key, each with the value and the place of a token."""
        rows = []
        for number, doc in self.live():
            if key in keys(doc, field):
                places = []
                if KINDS[field] == "text":
                    texts = enumerate(tokens(value) for value in values(doc, field))
                    places = [(v, at) for v, row in texts for at, token in enumerate(row) if token == key]
                rows.append((number, doc["id"], places))
        return rows
