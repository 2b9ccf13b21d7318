#!/usr/bin/env python3
"""Writes `stdin` and `stdout` of crates/index_rows: tables settled by hand, and drawn rows answered by `search_rules` and
`searcher_rules`."""
import random
from dataclasses import replace
from urllib.parse import quote_plus

import search_rules as rules
from searcher_rules import Filter, Request, Searcher, asks
from transcript import Transcript, compact

table = Transcript("index_rows")


def listed(ids):
    return "".join(f" {one}" for one in ids)


def counted(ids):
    return f" {len(ids)}:{listed(ids)}"


def find(verb, text, ids):
    table.ask(f"{verb} {text}".rstrip(), counted(ids))


def sort_text(sort):
    return ", ".join(" ".join(item) for item in sort)


def ask_first(count, left_out, sort, numbered):
    table.ask(f"first {count} {left_out} {sort_text(sort)}".rstrip(), listed(f"{number}:{one}" for number, one in numbered))


def size(live, below, held):
    table.ask("size", f" {live} live below {below} in segments of{listed(held)}")


def segment(lines):
    for line in lines.splitlines():
        table.step(f"doc {line}")
    table.step("segment")


# ---- A view of two segments, one of whose documents a newer one replaces, by hand.

OLDER = """{"id":"a","cat":"x","m":["Red hat, red"]}
{"id":"b","cat":"x","m":["blue"]}"""
NEWER = """{"id":"c","cat":"x","m":["A red one","Red"]}
{"id":"b","cat":"y","m":["Blue hat"]}"""

# A key, the documents with it and its places there, and the first three terms from it on.
POSTINGS = [
    ("id:b", [("b", "")], "b c"),
    ("cat:x", [("a", ""), ("c", "")], "x y"),
    ("cat:y", [("b", "")], "y"),
    ("cat:m", [], "x y"),
    ("cat:z", [], ""),
    ("m:red", [("a", " 0.0 0.2"), ("c", " 0.1 1.0")], "red"),
    ("m:hat", [("a", " 0.1"), ("b", " 0.1")], "hat one red"),
    ("m:blue", [("b", " 0.0")], "blue hat one"),
]


def ask_postings(numbers):
    for key, docs, terms in POSTINGS:
        table.ask(f"postings {key}", "".join(f" {numbers[one]}:{one}{places};" for one, places in docs))
        table.ask(f"terms {key}", listed(terms.split()))


def views():
    table.title("A view of two segments: a newer document replaces an older one.")
    table.step("view")
    segment(OLDER)
    table.step("gone 1")
    segment(NEWER)
    size(3, 4, [2, 2])
    table.ask("live cat", " 0:a=x 2:c=x 3:b=y")
    ask_postings({"a": 0, "c": 2, "b": 3})
    table.title("The same documents in one segment.")
    table.step("merge 0")
    size(3, 3, [3])
    table.ask("live cat", " 0:a=x 1:c=x 2:b=y")
    ask_postings({"a": 0, "c": 1, "b": 2})
    table.title("A merge drops what is deleted, and a segment of nothing else.")
    table.step("view")
    segment('{"id":"a"}\n{"id":"b"}')
    table.step("gone 1")
    segment('{"id":"c"}\n{"id":"d"}')
    size(3, 4, [2, 2])
    table.ask("live id", " 0:a=a 2:c=c 3:d=d")
    find("or", "*:*", ["a", "c", "d"])
    table.step("merge 0")
    size(3, 3, [3])
    table.ask("live id", " 0:a=a 1:c=c 2:d=d")
    find("or", "*:*", ["a", "c", "d"])
    table.step("view")
    segment('{"id":"a"}\n{"id":"b"}')
    segment('{"id":"c"}\n{"id":"d"}')
    for number in range(4):
        table.step(f"gone {number}")
    table.step("segment")
    size(0, 4, [2, 2])
    find("or", "*:*", [])
    table.step("merge 0")
    size(0, 0, [])
    find("or", "*:*", [])


# ---- Sorts and windows, by hand.

SORTED_OLDER = """{"id":"z","cat":"a","price":1,"ok":false}
{"id":"a","cat":"x","price":5,"ok":true}
{"id":"b","cat":"y","price":7}"""
SORTED_NEWER = """{"id":"c","cat":"x","price":10,"ok":false}
{"id":"d","price":5,"ok":true}"""

# Keys (a field's first letter, or x for the index order; a capital one falls), how many are wanted, the number that is
# left out, and the documents that come.
SORTS = [
    ("c", 9, 0, "dacb"),
    ("C", 9, 0, "bacd"),
    ("PI", 9, 0, "cbda"),
    ("X", 9, 0, "dcba"),
    ("", 9, 0, "abcd"),
    ("xI", 9, 0, "abcd"),
    ("p", 9, 0, "adbc"),
    ("P", 9, 0, "cbad"),
    ("o", 9, 0, "bcad"),
    ("OX", 9, 0, "dacb"),
    ("c", 0, 0, ""),
    ("c", 1, 0, "d"),
    ("c", 4, 0, "dacb"),
    ("CI", 2, 0, "bc"),
    ("c", 2, 1, "dc"),
    ("", 2, 2, "ac"),
    ("X", 2, 3, "db"),
]

# The start and the rows of a page, the size of a window, and how many documents a result keeps.
WINDOWS = [
    (0, 0, 2, 2),
    (0, 3, 2, 4),
    (10, 10, 50, 50),
    (5, 2, 2, 8),
    (0, 0, 1, 1),
    (0, 4, 2, 4),
    (7, 0, 3, 9),
    (4294967295, 4294967295, 1, 8589934590),
    (0, 1, 4294967295, 4294967295),
]


def sorts():
    names = {"i": "id", "c": "cat", "p": "price", "o": "ok", "x": "_docid_"}
    table.title("The first documents of a sort: missing values first, ties in the order of the index.")
    table.step("view")
    segment(SORTED_OLDER)
    table.step("gone 0")
    segment(SORTED_NEWER)
    for letters, count, left_out, ids in SORTS:
        sort = [(names[x.lower()], "desc" if x.isupper() else "asc") for x in letters]
        ask_first(count, left_out, sort, [("zabcd".index(one), one) for one in ids])
    table.title("How many documents a result keeps.")
    for start, rows, window, kept in WINDOWS:
        table.ask(f"window {start} {rows} {window}", f" {kept}")


# ---- Queries over views of three segments, by hand. Documents behind `-` go with the next segment.

FRUIT = [
    """- {"id":"a","cat":"y","price":5,"t":"red apple"}
+ {"id":"a","cat":"x","price":5,"t":"Red apple pie"}
+ {"id":"b","cat":"y","price":7,"t":"green apple"}""",
    """- {"id":"d","cat":"x","price":6,"t":"red apple pie"}
+ {"id":"c","cat":"x","price":9}""",
    """+ {"id":"d","price":"5","t":"apple, red"}""",
]
FRUIT_ROWS = """O«-cat:x» => b d
O«cat:y OR (-cat:x)» => b
O«(-cat:x)» => b d
O«price:[* TO 5}» =>
O«price:{5 TO 5]» =>
O«price:[5 TO 7}» => a d
O«price:[-9223372036854775808 TO *]» => a b c d
O«"red apple"» => a
O«red-apple» => a b d
A«red-apple» => a d
O«app*» => a b d
O«t:(red -pie)» => d
O«t:*» => a b d
O«» =>"""
SHOP = [
    """- {"id":"z","cat":"x","price":5,"t":"red apple pie","ok":true,"m":["red car"],"n":[1,2]}
+ {"id":"a","cat":"x","price":5,"t":"Red apple pie","ok":true,"m":["red car","blue bus"],"n":[1,2]}
+ {"id":"b","cat":"y","price":7,"t":"green apple","m":"car blue","n":2}""",
    """+ {"id":"c","cat":"x","price":9,"n":[3,10]}
- {"id":"y","cat":"yy","price":70,"t":"yellow pear","ok":false}
- {"id":"e","price":12,"t":"red"}
+ {"id":"d","price":-5,"t":"apple, red","ok":false,"m":["pie","red","apple"]}""",
    """+ {"id":"e","cat":"xy","price":12,"t":"red red apple, red apple pie","ok":true,"m":["the car","blue"]}
+ {"id":"f"}
+ {"id":"z","cat":"X"}""",
]
SHOP_ROWS = """O«*:*» => a b c d e f z
O«*» => a b c d e f z
O«» =>
O«-cat:x» => b d e f z
O«(-cat:x)» => b d e f z
O«cat:y (-cat:x)» => b
O«cat:y AND (-cat:x)» =>
O«-(-cat:x)» => a b c d e f z
O«-cat:x -cat:y» => d e f z
O«-(cat:x cat:y)» => d e f z
O«-*:*» =>
O«*:* -cat:x» => b d e f z
O«-missing» => a b c d e f z
O«cat:x -price:5» => c
O«+cat:x -price:9 missing» => a
O«cat:x» => a c
O«cat:"x"» => a c
O«cat:X» => z
O«cat:yy» =>
O«id:z» => z
O«id:y» =>
O«price:5» => a
O«price:"-5"» => d
O«ok:true» => a e
O«ok:1» => a e
O«ok:false» => d
O«red» => a d e
O«RED» => a d e
O«yellow» =>
O«missing» =>
O«n:2» => a b
O«n:10» => c
O«m:car» => a b e
O«m:"red car"» => a
O«m:"car blue"» => b
O«m:"red apple"» =>
O«"red apple"» => a e
O«"Red, APPLE pie"» => a e
O«"apple red"» => d e
O«"red red"» => e
O«"apple red apple"» => e
O«"pie red"» =>
O«"..."» =>
O«red-apple» => a b d e
A«red-apple» => a d e
O«red pie» => a d e
A«red pie» => a e
O«red -pie» => d
O«app*» => a b d e
O«APP*» => a b d e
O«cat:x*» => a c e
O«cat:y*» => b
O«m:b*» => a b e
O«m:bl*» => a b e
O«m:bu*» => a
O«price:*» => a b c d e
O«n:*» => a b c
O«ok:*» => a d e
O«m:*» => a b d e
O«cat:*» => a b c e z
O«-t:*» => c f z
O«price:[5 TO 9]» => a b c
O«price:{5 TO 9]» => b c
O«price:[5 TO 9}» => a b
O«price:{5 TO 9}» => b
O«price:[5 TO 5]» => a
O«price:{5 TO 5]» =>
O«price:[* TO 5}» => d
O«price:[* TO 5]» => a d
O«price:{9 TO *]» => e
O«price:[9 TO *]» => c e
O«price:[9 TO 5]» =>
O«price:[10 TO 100]» => e
O«price:[-9223372036854775808 TO *]» => a b c d e
O«n:[2 TO 3]» => a b c
O«n:{2 TO 10}» => c
O«cat:[x TO y]» => a b c e
O«cat:{x TO y}» => e
O«cat:[* TO x}» => z
O«cat:{y TO *]» =>
O«[b TO h]» => b
O«{apple TO pie}» => b
O«[pie TO red}» => a e
O«ok:[false TO true}» => d
O«ok:{false TO *]» => a e
O«cat:x cat:y» => a b c
O«cat:x AND red» => a
O«cat:x AND red OR green» => a
A«cat:x OR red» => a c d e
O«+(cat:x cat:y) +apple» => a b
O«+(cat:x cat:y) -(price:5 price:7)» => c
A«(cat:x OR cat:y) (red OR green)» => a b
A«apple red ok:true» => a e
A«apple red -ok:true» => d
O«+red +pie -m:bus» => e
O«((cat:x) (green))» => a b c
O«(red AND pie) OR price:9» => a c e
O«cat:x (cat:y (-cat:x))» => a b c
O«+missing cat:x» =>
O«red -red» =>
O«+cat:x +cat:x» => a c
O«t:* -(cat:x cat:y)» => d e
O«t:(red AND (apple -green))» => a d e"""


def query_view(segments):
    table.step("view")
    number, gone = 0, []
    for lines in segments:
        for one in gone:
            table.step(f"gone {one}")
        gone = []
        for line in lines.splitlines():
            mark, body = line.split(" ", 1)
            if mark == "-":
                gone.append(number)
            number += 1
            table.step(f"doc {body}")
        table.step("segment")


def query_rows(rows):
    for line in rows.splitlines():
        op, rest = line.split("«", 1)
        text, ids = rest.split("» =>")
        find("and" if op == "A" else "or", text, ids.split())


def queries():
    table.title("Queries over three segments, two of whose documents are deleted.")
    query_view(FRUIT)
    size(4, 6, [3, 2, 1])
    query_rows(FRUIT_ROWS)
    table.title("How often a query asks for postings or terms.")
    table.ask("asks cat:x", " 1")
    table.ask("asks *:*", " 0")
    table.title("More queries over three segments, three of whose documents are deleted.")
    query_view(SHOP)
    size(7, 10, [3, 4, 3])
    query_rows(SHOP_ROWS)


# ---- What a searcher sees, by hand.

# Steps, and then the documents that the searcher sees. `a=x` adds a document of an id and a category, `-a` deletes by
# id, `?x` deletes those of a category, and a bar opens a searcher.
RUNS = [
    ("a=x b=y", ""),
    ("a=x b=y |", "a=x b=y"),
    ("a=x b=y a=z |", "b=y a=z"),
    ("a=x b=y | a=z", "a=x b=y"),
    ("a=x b=y | a=z |", "b=y a=z"),
    ("a=x b=y | -a -c |", "b=y"),
    ("a=x b=y -b |", "a=x"),
    ("a=x | -a a=y -a a=z |", "a=z"),
    ("a=x b=y | c=x d=y ?x |", "b=y d=y"),
    ("a=x | ?x a=x | ?y |", "a=x"),
    ("a=x | b=x ?x -a", "a=x"),
    (
        "a=x | b=x | c=x | d=x | e=x | f=x | g=x | h=x | i=x | j=x | k=x | l=x a=y |",
        "b=x c=x d=x e=x f=x g=x h=x i=x j=x k=x l=x a=y",
    ),
]

# Of a, b, c and d: the start and the rows, the query and its filters, how many are found, and those of the page.
SEARCHES = [
    (0, 10, "cat:x", 3, "a=x c=x d=x"),
    (1, 1, "cat:x", 3, "c=x"),
    (3, 1, "cat:x", 3, ""),
    (0, 0, "cat:x", 3, ""),
    (0, 10, "cat:x | id:d", 1, "d=x"),
    (0, 10, "cat:x | id:b", 0, ""),
]


def run(steps):
    table.step("index")
    for one in steps.split():
        if "=" in one:
            key, cat = one.split("=")
            table.step("add " + compact({"id": key, "cat": cat}))
        elif one[0] == "-":
            table.step(f"delete {one[1:]}")
        elif one[0] == "?":
            table.step(f"delete_query cat:{one[1:]}")
        else:
            table.step("commit")


def searchers():
    table.title("What a searcher sees is what stood as it was opened.")
    for steps, seen in RUNS:
        run(steps)
        table.ask("page 0 100 | *:*", f" {len(seen.split())}:{listed(seen.split())}")
    table.title("A search gives a page, and how many it found.")
    run("a=x b=y | c=x d=x |")
    for start, rows, text, count, page in SEARCHES:
        table.ask(f"page {start} {rows} | {text}", f" {count}:{listed(page.split())}")


# ---- Requests that caches of a searcher serve, by hand.

PLATES = """{"id":"a","cat":"x","price":5,"t":"Red apple pie"}
{"id":"b","cat":"y","price":7,"t":"green apple"}
{"id":"c","cat":"x","price":9}
{"id":"d","price":5,"t":"apple, red"}"""
FIFTH = '{"id":"e","price":1}'

# A title, the documents, the sizes (filters, results, documents, window, longest result), and rows: the parameters, how
# many are found and the page, what the result cache did, and the filter cache for each filter, how many documents were
# kept; and where the rules say so, the postings, the sort values and the documents that are read.
SERVED = [
    (
        "A result lists whole windows, also where the page has no document.",
        PLATES,
        "8 8 8 2 8",
        """q=*:*&rows=0 => 4:; computed [] 0; 0 0 0
q=*:*&start=5&rows=2 => 4:; computed [] 0; 0 0 0
q=*:*&rows=3 => 4: a b c; hit [] 0; 0 0 3""",
    ),
    (
        "One that is too short is not served, and gives way to the longer one.",
        PLATES,
        "8 8 8 2 8",
        """q=*:*&rows=1 => 4: a; computed [] 0; 0 0 1
q=*:*&rows=2 => 4: a b; hit [] 1; 0 0 1
q=*:*&rows=3 => 4: a b c; computed [] 2; 0 0 1
q=*:*&rows=4 => 4: a b c d; hit [] 3; 0 0 1
q=*:*&start=2&rows=100 => 4: c d; hit [] 2; 0 0 0
q=cat:x&rows=2 => 2: a c; computed [] 2; 1 0 0
q=cat:x&rows=100 => 2: a c; hit [] 2; 0 0 0""",
    ),
    (
        "Five documents are more than four: the result isn't kept.",
        f"{PLATES}\n{FIFTH}",
        "8 8 8 2 4",
        """q=*:*&rows=5 => 5: a b c d e; computed [] 0; 0 0 5
q=*:*&rows=5 => 5: a b c d e; computed [] 5; 0 0 0
q=*:*&rows=4 => 5: a b c d; computed [] 4; 0 0 0
q=*:*&rows=4 => 5: a b c d; hit [] 4; 0 0 0
q=*:*&rows=5 => 5: a b c d e; computed [] 5; 0 0 0
q=*:*&rows=4 => 5: a b c d; hit [] 4; 0 0 0""",
    ),
    (
        "A window of six lists all five.",
        f"{PLATES}\n{FIFTH}",
        "8 8 8 6 4",
        """q=*:*&rows=1 => 5: a; computed [] 0; 0 0 1
q=*:*&rows=1 => 5: a; computed [] 1; 0 0 0""",
    ),
    (
        "Four are kept.",
        PLATES,
        "8 8 8 6 4",
        """q=*:*&rows=5 => 4: a b c d; computed [] 0; 0 0 4
q=*:*&rows=5 => 4: a b c d; hit [] 4; 0 0 0""",
    ),
    (
        "Two filters are kept, and two results.",
        PLATES,
        "2 2 8 2 8",
        """q=*:*&fq=cat:x => 2: a c; computed [computed] 0; 1 0 2
q=*:*&fq=cat:y => 1: b; computed [computed] 0; 1 0 1
q=id:*&fq=cat:x => 2: a c; computed [hit] 2
q=*:*&fq=price:5 => 2: a d; computed [computed] 1; 1 0 1
q=id:*&fq=cat:y => 1: b; computed [computed] 1
q=*:*&fq=price:5 => 2: a d; hit [] 2; 0 0 0
q=id:*&fq=cat:x => 2: a c; computed [computed] 2""",
    ),
    (
        "Filters past the caches go by cost, ties in their order, until nothing is left.",
        PLATES,
        "8 8 8 2 8",
        """q=*:*&fq={!cache=false+cost=9}cat:x&fq={!cache=false+cost=1}cat:zzz => 0:; computed [bypassed bypassed] 0; 1 0 0
q=*:*&fq={!cache=false+cost=1}cat:x&fq={!cache=false+cost=9}cat:yyy => 0:; computed [bypassed bypassed] 0; 2 0 0
q=*:*&fq={!cache=false}cat:x&fq={!cache=false}cat:vvv => 0:; computed [bypassed bypassed] 0; 2 0 0
q=*:*&fq={!cache=false}cat:www&fq={!cache=false}cat:x => 0:; computed [bypassed bypassed] 0; 1 0 0
q=*:*&fq={!cache=false+cost=-1}cat:x&fq={!cache=false}cat:uuu => 0:; computed [bypassed bypassed] 0; 2 0 0
q=price:5&fq={!cache=false}cat:x => 1: a; computed [bypassed] 0; 2 0 1
q=cat:ttt&fq={!cache=false}cat:x => 0:; computed [bypassed] 0; 1 0 0
q=price:7&fq={!cache=false}cat:y&fq=cat:y => 1: b; computed [bypassed] 0; 2 0 1""",
    ),
    (
        "All filters that may be cached are evaluated, and the query where they leave something.",
        PLATES,
        "8 8 8 2 8",
        """q=price:5&fq=cat:zzz&fq=cat:x => 0:; computed [computed computed] 0; 2 0 0
q=price:5&fq=cat:x => 1: a; computed [hit] 0; 1 0 1
q=price:5&fq={!cost=7}cat:y&fq={!cost=1}cat:x => 0:; computed [computed hit] 0; 1 0 0
q=price:7&fq=cat:y&fq={!cache=false}cat:x&fq=price:7 => 0:; computed [hit bypassed computed] 0; 3 0 0""",
    ),
    (
        "A result is kept under the query, the set of filters and the sort, whatever may be cached of the filters.",
        PLATES,
        "8 8 8 2 8",
        """q=*:*&fq=cat:x&fq=price:5 => 1: a; computed [computed computed] 0; 2 0 1
q=*:*&fq=price:5&fq=cat:x&fq=price:5 => 1: a; hit [] 1; 0 0 0
q=*:*&fq={!cache=false}price:5&fq=cat:x => 1: a; hit [] 1; 0 0 0
q=price:5&fq=cat:x&fq=*:* => 1: a; computed [hit computed] 1; 1 0 0
q=*:*&sort=price+desc => 4: c b a d; computed [] 1
q=*:*&sort=price+desc&start=1&rows=2 => 4: b a; hit [] 2; 0 0 0
q=*:*&sort=price+asc => 4: a d b c; computed [] 4
q=*:* => 4: a b c d; computed [] 4; 0 0 0
q=*:*&fl=id&rows=1 => 4: a; hit [] 1; 0 0 0""",
    ),
    (
        "A query past the caches looks no result up and keeps none; its filters are kept.",
        PLATES,
        "8 8 8 2 8",
        """q={!cache=false}*:* => 4: a b c d; bypassed [] 0; 0 0 4
q={!cache=false}*:* => 4: a b c d; bypassed [] 4; 0 0 0
q=*:* => 4: a b c d; computed [] 4; 0 0 0
q={!cache=false}*:* => 4: a b c d; bypassed [] 4; 0 0 0
q={!cache=false}*:*&fq=cat:x => 2: a c; bypassed [computed] 2; 1 0 0
q={!cache=false}price:9&fq=cat:x => 1: c; bypassed [hit] 1; 1 0 0""",
    ),
    (
        "Two documents are kept.",
        PLATES,
        "8 8 2 2 8",
        """q=*:*&rows=4 => 4: a b c d; computed [] 0; 0 0 4
q=id:d => 1: d; computed [] 1; 1 0 0
q=id:a => 1: a; computed [] 0; 1 0 1
q=id:d => 1: d; hit [] 1; 0 0 0
q=id:c => 1: c; computed [] 0; 1 0 1
q=*:*&rows=4 => 4: a b c d; hit [] 0; 0 0 4""",
    ),
    (
        "Each cache keeps one entry; a longer result that isn't kept leaves the shorter one.",
        PLATES,
        "1 1 1 1 1",
        """q=*:*&rows=1 => 4: a; computed [] 0; 0 0 1
q=*:*&rows=1 => 4: a; hit [] 1; 0 0 0
q=*:*&rows=2 => 4: a b; computed [] 1; 0 0 1
q=*:*&rows=1 => 4: a; hit [] 0; 0 0 1
q=id:b&fq=cat:y => 1: b; computed [computed] 0; 2 0 1
q=*:*&rows=1 => 4: a; computed [] 0; 0 0 1
q=*:*&rows=0 => 4:; hit [] 0; 0 0 0
q=id:b&fq=cat:x&fq=cat:y => 0:; computed [computed computed] 0; 2 0 0""",
    ),
    (
        "The largest sizes and counts, and no query.",
        PLATES,
        "4096 4096 4096 4096 4096",
        """q=*:*&start=2147483647&rows=2147483647 => 4:; computed [] 0; 0 0 0
q=*:*&start=1&rows=2147483647 => 4: b c d; hit [] 0; 0 0 3
q=cat:x&rows=2147483647 => 2: a c; computed [] 1; 1 0 1
fq=cat:x => 0:; computed [computed] 0
q=&fq=cat:x => 0:; hit [] 0; 0 0 0""",
    ),
    (
        "Without documents nothing is evaluated but filters.",
        "",
        "8 8 8 2 8",
        """q=cat:x => 0:; computed [] 0; 0 0 0
q=cat:x&rows=100 => 0:; hit [] 0; 0 0 0
q=cat:x&fq=cat:y&fq={!cache=false}cat:x => 0:; computed [computed bypassed] 0; 1 0 0""",
    ),
]


def ask_served(rows):
    for row in rows.splitlines():
        params, answer = row.split(" => ")
        verb = "count" if answer.count(";") == 2 else "serve"
        table.ask(f"{verb} {params}", f" {answer}")


def open_index(lines):
    table.step("index")
    for line in lines.splitlines():
        table.step(f"add {line}")
    table.step("commit")


def served():
    for title, lines, sizes, rows in SERVED:
        table.title(title)
        open_index(lines)
        table.step(f"searcher {sizes}")
        ask_served(rows)
    table.title("A searcher never changes; the caches of the next one keep nothing yet.")
    open_index(PLATES)
    table.step("searcher 8 8 8 2 8")
    ask_served("q=*:*&fq=price:5 => 2: a d; computed [computed] 0; 1 0 2")
    table.step("delete a")
    table.step("add " + FIFTH.replace("1", "5"))
    table.step("commit")
    ask_served("q=*:*&fq=price:5 => 2: a d; hit [] 2; 0 0 0")
    table.step("searcher 8 8 8 2 8")
    ask_served("q=*:*&fq=price:5 => 2: d e; computed [computed] 0; 1 0 2")


# ---- Drawn rows.

WORDS = ["red", "apple", "pie", "green", "grün"]
WRITTEN = ["red", "Red", "apple", "APPLE", "pie", "green", "Grün", "grün"]
CATS = ["x", "xy", "y", "X", "ü"]


def drawn_text(draws):
    joints = [" ", " ", ", ", "-", "... "]
    return "".join(draws.choice(WRITTEN) + draws.choice(joints) for _ in range(draws.randrange(7))).strip()


def drawn_doc(draws, key):
    doc = {"id": key}
    if draws.random() < 0.8:
        doc["cat"] = draws.choice(CATS)
    if draws.random() < 0.8:
        doc["price"] = draws.randrange(-3, 13)
    if draws.random() < 0.8:
        doc["t"] = drawn_text(draws)
    if draws.random() < 0.5:
        doc["ok"] = draws.random() < 0.5
    if draws.random() < 0.5:
        doc["m"] = [drawn_text(draws) for _ in range(draws.randrange(1, 4))]
    if draws.random() < 0.5:
        doc["n"] = [draws.randrange(-3, 13) for _ in range(draws.randrange(1, 4))]
    return doc


def drawn_key(draws, field):
    kind = rules.KINDS[field]
    if kind == "number":
        return draws.randrange(-3, 13)
    if kind == "truth":
        return draws.random() < 0.5
    return draws.choice(WORDS if kind == "text" else CATS)


def drawn_ends(draws, field):
    """Two ends, of which the greater one mostly stands last."""
    ends = [None if draws.random() < 0.2 else (drawn_key(draws, field), draws.random() < 0.7) for _ in range(2)]
    if all(ends) and draws.random() < 0.9:
        ends.sort(key=lambda end: rules.rank(end[0]))
    return ends


def drawn_leaf(draws):
    kind = draws.choice(["all", "exists", "term", "term", "term", "phrase", "phrase", "prefix", "range", "range"])
    if kind == "all":
        return ("all",)
    field = draws.choice({"phrase": ["t", "m"], "prefix": ["cat", "t", "m"]}.get(kind, ["cat", "price", "t", "ok", "m", "n"]))
    if kind == "exists":
        return ("exists", field)
    if kind == "term":
        return ("term", field, drawn_key(draws, field))
    if kind == "phrase":
        return ("phrase", field, [draws.choice(WORDS) for _ in range(draws.choice([1, 2, 2, 3]))])
    if kind == "prefix":
        key = drawn_key(draws, field)
        return ("prefix", field, key[: draws.randrange(1, 3)])
    return ("range", field, *drawn_ends(draws, field))


def drawn_query(draws, depth):
    if depth == 0 or draws.random() < 0.3:
        return drawn_leaf(draws)
    must, should, prohibited = parts = [[], [], []]
    for _ in range(draws.choice([1, 2, 2, 3, 3, 4])):
        draws.choice([must, should, should, prohibited]).append(drawn_query(draws, depth - 1))
    if sum(map(len, parts)) == 1 and not prohibited:
        return (must + should)[0]
    return ("bool", *parts)


def drawn_telling(draws, depth, found):
    """A drawn query that mostly finds something."""
    for _ in range(20):
        query = drawn_query(draws, depth)
        if draws.random() < 0.1 or found(query):
            break
    return query


def key_text(key):
    if isinstance(key, bool):
        return "true" if key else "false"
    return str(key)


def end_text(end):
    return key_text(end[0]) if end else "*"


def query_text(query, is_whole=True):
    """A text of the query, with each clause's own sign."""
    kind, *rest = query
    if kind == "all":
        return "*:*"
    if kind == "bool":
        signed = [sign + query_text(part, False) for sign, parts in zip(["+", "", "-"], rest) for part in parts]
        text = " ".join(signed)
        return text if is_whole else f"({text})"
    field = rest[0]
    if kind == "exists":
        return f"{field}:*"
    if kind == "term":
        text = key_text(rest[1])
        return f'{field}:"{text}"' if text[0] == "-" else f"{field}:{text}"
    if kind == "phrase":
        return f'{field}:"{" ".join(rest[1])}"'
    if kind == "prefix":
        return f"{field}:{rest[1]}*"
    low, high = rest[1:]
    opening = "{" if low and not low[1] else "["
    closing = "}" if high and not high[1] else "]"
    return f"{field}:{opening}{end_text(low)} TO {end_text(high)}{closing}"


def drawn_sort(draws):
    names = draws.sample(["id", "cat", "price", "ok", "_docid_"], draws.randrange(0, 4))
    return [(name, draws.choice(["asc", "desc"])) for name in names]


def ask_view(draws, view, count):
    live = view.live()
    size(len(live), len(view.numbered()), [len(part) for part in view.parts])
    field = draws.choice(["id", "cat", "price", "ok", "n"])
    told_docs = []
    for number, doc in live:
        own = rules.values(doc, field)
        told_docs.append(f" {number}:{doc['id']}" + (f"={key_text(own[0])}" if own else ""))
    table.ask(f"live {field}", "".join(told_docs))
    for _ in range(count):
        query = drawn_telling(draws, 3, view.found)
        find("or", query_text(query), view.found(query))
    for _ in range(count // 4):
        field = draws.choice(["t", "m", "cat", "n"])
        key = drawn_key(draws, field)
        rows = "".join(
            f" {number}:{one}{''.join(f' {v}.{at}' for v, at in places)};" for number, one, places in view.postings(field, key)
        )
        table.ask(f"postings {query_text(('term', field, key))}", rows)
        left_out, wanted, sort = draws.randrange(0, 30), draws.randrange(0, 20), drawn_sort(draws)
        first = [pair for pair in rules.in_order(live, sort) if pair[0] != left_out]
        ask_first(wanted, left_out, sort, [(number, doc["id"]) for number, doc in first[:wanted]])


def drawn_views():
    draws = random.Random(5)
    view = rules.View()
    table.title("Drawn documents in five segments, some deleted, and drawn queries.")
    table.step("view")
    for part in range(5):
        gone = sorted(draws.sample(range(6 * part), min(3, 6 * part)))
        docs = [drawn_doc(draws, f"d{6 * part + at}") for at in range(6)]
        for number in gone:
            table.step(f"gone {number}")
        segment("\n".join(map(compact, docs)))
        view.extend(docs, gone)
    ask_view(draws, view, 40)
    for at in (1, 2, 0, 0):
        table.title(f"Segments {at} and {at + 1} are one.")
        table.step(f"merge {at}")
        view.merge(at)
        ask_view(draws, view, 8)


def ask_page(draws, index):
    filters = [drawn_query(draws, 1) for _ in range(draws.choice([0, 0, 0, 1, 1, 2]))]
    query = drawn_telling(draws, 2, lambda query: index.hits(query, filters, []))
    sort, start, rows = drawn_sort(draws), draws.choice([0, 0, 1, 4]), draws.randrange(0, 12)
    hits = index.hits(query, filters, sort)
    page = [doc["id"] + (f"={doc['cat']}" if "cat" in doc else "") for doc in hits[start : start + rows]]
    texts = " | ".join(map(query_text, [query, *filters]))
    table.ask(" ".join(filter(None, [f"page {start} {rows}", sort_text(sort), "|", texts])), f" {len(hits)}:{listed(page)}")


def drawn_searchers():
    draws = random.Random(7)
    index = rules.Index()
    table.title("Drawn updates, openings and searches.")
    table.step("index")
    for turn in range(220):
        key = f"d{draws.randrange(14)}"
        kind = draws.choice(["add", "add", "add", "add", "delete", "query", "commit", "page", "page", "page"])
        if kind == "add":
            doc = drawn_doc(draws, key)
            table.step("add " + compact(doc))
            index.add(doc)
        elif kind == "delete":
            table.step(f"delete {key}")
            index.delete(key)
        elif kind == "query":
            query = ("bool", [("term", "cat", draws.choice(CATS)), drawn_leaf(draws)], [], [])
            table.step("delete_query " + query_text(query))
            index.delete_query(query)
        elif kind == "commit":
            table.step("commit")
            index.commit()
        else:
            ask_page(draws, index)
    for _ in range(20):
        ask_page(draws, index)


def request_text(request):
    """The parameters of a request."""

    def local(cached, cost):
        said = [f"cost={cost}"] if cost else []
        if not cached:
            said.insert(0, "cache=false")
        return f"{{!{' '.join(said)}}}" if said else ""

    pairs = [("q", local(request.cached, 0) + query_text(request.query))]
    pairs += [("fq", local(one.cached, one.cost) + query_text(one.query)) for one in request.filters]
    pairs += [("start", request.start)] if request.start else []
    pairs += [("rows", request.rows)] if request.rows != 10 else []
    pairs += [("sort", sort_text(request.sort))] if request.sort else []
    return "&".join(f"{name}={quote_plus(str(value), safe='*:{}[]!=,()')}" for name, value in pairs)


def again(draws, request):
    """The request with its filters in another order, and another page."""
    filters = draws.sample(request.filters, len(request.filters))
    start, more = draws.choice([0, 0, 0, 1, 2]), draws.choice([-2, -1, 0, 1, 2, 3])
    return replace(request, filters=filters, start=start, rows=max(0, request.rows + more))


def drawn_request(draws, queries):
    """A request over a few queries, so that many are asked again."""

    def drawn_filter():
        if draws.random() < 0.7:
            return Filter(draws.choice(queries), True, draws.choice([0, 0, 0, 3]))
        return Filter(draws.choice(queries), False, draws.choice([0, 0, 1, 2, -1]))

    def past_caches():
        return [Filter(query, False, draws.choice([2, 1, 0, -1])) for query in draws.sample(keys, 3)]

    keys = [query for query in queries if asks(query)]
    filters = [drawn_filter() for _ in range(draws.choice([0, 0, 0, 0, 1, 1, 2, 3]))]
    return Request(
        query=draws.choice([("all",), ("all",), ("exists", "cat"), *queries]),
        cached=draws.random() < 0.85,
        filters=past_caches() if draws.random() < 0.15 else filters,
        sort=draws.choice([[], [], [], [], [("price", "desc")], [("cat", "asc"), ("_docid_", "desc")]]),
        start=draws.choice([0, 0, 0, 0, 1, 3]),
        rows=draws.choice([0, 1, 1, 2, 3, 4, 6, 10]),
    )


def ask_searcher(searcher, request):
    told = searcher.serve(request)
    answer = f" {told.found}:{listed(told.page)}; {told.result} [{' '.join(told.filters)}] {told.hits}"
    if None in told.counts:
        table.ask(f"serve {request_text(request)}", answer)
    else:
        table.ask(f"count {request_text(request)}", f"{answer}; {' '.join(map(str, told.counts))}")


def drawn_service():
    draws = random.Random(11)
    index = rules.Index()
    table.title("Drawn requests that small caches serve.")
    table.step("index")
    for _ in range(12):
        for _ in range(draws.randrange(5, 9)):
            doc = drawn_doc(draws, f"d{draws.randrange(16)}")
            table.step("add " + compact(doc))
            index.add(doc)
        key = f"d{draws.randrange(16)}"
        table.step(f"delete {key}")
        index.delete(key)
        table.step("commit")
        index.commit()
        sizes = [*(draws.randrange(2, 6) for _ in range(3)), draws.randrange(1, 5), draws.choice([2, 4, 6, 8])]
        table.step(f"searcher {' '.join(map(str, sizes))}")
        searcher = Searcher(index.served, *sizes)
        seen = draws.sample(index.served, 4)
        queries = [("term", "cat", doc.get("cat", "y")) for doc in seen[:2]]
        queries += [("term", "price", doc.get("price", 0)) for doc in seen[2:]]
        queries += [("term", "ok", True)]
        queries += [drawn_telling(draws, 2, lambda query: index.hits(query, [], [])) for _ in range(3)]
        asked = []
        for _ in range(35):
            is_new = not asked or draws.random() < 0.5
            request = drawn_request(draws, queries) if is_new else again(draws, draws.choice(asked[-5:]))
            ask_searcher(searcher, request)
            asked.append(request)


def main():
    table.step(compact(rules.schema()))
    for part in (views, sorts, queries, searchers, served, drawn_views, drawn_searchers, drawn_service):
        part()
    table.write()


main()
