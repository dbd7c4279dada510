#!/usr/bin/env python3
"""Writes the inputs of the measurements: scripts of `replay`, each one whole and one of a tenth of the work.

usage: shapes.py FOLDER [NAME..]

For each shape it writes NAME.whole and NAME.tenth. A tenth has a tenth of the events with the same clients and
subscriptions, so a program that pays for what happens, and for nothing else, takes at most ten times as long for the whole.

  prices    60 clients watch 40 documents; 3,000 updates
  desks     12 clients, each with 5 subscriptions that overlap in some fields of 300 documents; 3,000 updates, and some
            subscriptions end and begin
  chats     24 clients in 3 of 24 rooms each, of which a client has the 20 newest messages by `sort` and `limit`; 4,000 calls
            with stubs that write a message
  forms     16 clients who write by themselves, by rules: 8,000 inserts, updates and removals, of which some are refused
  filters   6 clients with 20 subscriptions each, whose selectors all differ, over 1,000 documents; 2,000 updates
  imports   60,000 inserts, 60,000 updates and 20,000 removals, and nobody watches
  wide      one client watches 4 documents that get 500 fields each, one by one, and then another value for each
"""
import json
import os
import sys

WHOLE, TENTH = 1, 10


class Draws:
    """Numbers that are the same everywhere: x becomes 69069 x + 1 modulo 2^48, and its upper half is drawn."""

    def __init__(self, seed):
        self.x = seed

    def below(self, n):
        for _ in range(2):
            self.x = (0x5DEECE66D * self.x + 11) % 2 ** 48
        return (self.x >> 16) % n

    def one(self, items):
        return items[self.below(len(items))]


def admin(*operation):
    return ["admin", list(operation)]


def begun(names):
    """Clients that have connected."""
    for name in names:
        yield ["client", name]
    yield ["settle"]


def paused(events, every):
    """The events, with a settle behind so many of them, and one at the end."""
    for place, event in enumerate(events, 1):
        yield event
        if place % every == 0:
            yield ["settle"]
    yield ["settle"]


def shown(names):
    for name in names:
        yield ["show", name]
    yield ["store"]


def prices(part):
    draw, names = Draws(11), ["w%02d" % i for i in range(60)]
    yield {"collections": ["prices"], "publications": {"all": [{"collection": "prices"}]}}
    for i in range(40):
        yield admin("insert", "prices", {"_id": "k%02d" % i, "ask": draw.below(9000), "bid": draw.below(9000), "name": "Stock %d" % i,
                                         "last": {"at": 0, "by": "nobody"}})
    yield from begun(names)
    for name in names:
        yield ["sub", name, "all", "all", []]
    yield ["settle"]
    modifiers = [lambda: {"$set": {"ask": draw.below(9000), "bid": draw.below(9000)}}, lambda: {"$inc": {"bid": draw.below(9) + 1}},
                 lambda: {"$set": {"last": {"at": draw.below(10 ** 6), "by": "desk %d" % draw.below(30)}}}]
    yield from paused((admin("update", "prices", {"_id": "k%02d" % draw.below(40)}, draw.one(modifiers)()) for _ in range(3000 // part)), 60)
    yield from shown(names)


def desks(part):
    draw, names = Draws(22), ["d%02d" % i for i in range(12)]
    fields = {"front": {"customer": 1, "state": 1, "due": 1}, "back": {"state": 1, "due": 1, "parts": 1}, "money": {"price": 1, "due": 1},
              "rest": {"customer": 0, "price": 0}, "all": None}
    publications = {name: [{"collection": "orders", **({"fields": of} if of else {})}] for name, of in fields.items()}
    publications["late"] = [{"collection": "orders", "selector": {"due": {"$lt": {"$param": 0}}}, "fields": {"due": 1, "state": 1}}]
    kinds = sorted(publications)
    yield {"collections": ["orders"], "publications": publications}
    for i in range(300):
        yield admin("insert", "orders", {"_id": "o%03d" % i, "customer": "c%d" % draw.below(40), "due": draw.below(100), "parts": [draw.below(9)],
                                         "price": draw.below(1000), "state": "new", "where": {"hall": draw.below(5), "row": draw.below(20)}})
    yield from begun(names)
    live = {}
    for at, name in enumerate(names):
        for i in range(5):
            live[name, "s%d" % i] = True
            yield ["sub", name, "s%d" % i, kinds[(at + i) % 6], [30]]
    yield ["settle"]
    modifiers = [lambda: {"$set": {"state": draw.one(["new", "made", "sent", "paid"])}}, lambda: {"$set": {"due": draw.below(100)}},
                 lambda: {"$inc": {"price": draw.below(20)}}, lambda: {"$push": {"parts": draw.below(9)}}, lambda: {"$set": {"parts": []}},
                 lambda: {"$set": {"where.row": draw.below(20)}}, lambda: {"$set": {"customer": "c%d" % draw.below(40), "state": "new"}}]

    def events():
        for n in range(3000 // part):
            if n % 50 == 25:
                name, sub = who = (draw.one(names), "s%d" % draw.below(5))
                if live[who]:
                    yield ["unsub", name, sub]
                else:
                    yield ["sub", name, sub, draw.one(kinds), [draw.below(100)]]
                live[who] = not live[who]
            else:
                yield admin("update", "orders", {"_id": "o%03d" % draw.below(300)}, draw.one(modifiers)())

    yield from paused(events(), 50)
    yield from shown(names)


def chats(part):
    draw, names = Draws(33), ["p%02d" % i for i in range(24)]
    message = {"_id": {"$param": 0}, "at": {"$param": 2}, "by": {"$param": 3}, "room": {"$param": 1}, "text": {"$param": 4}}
    yield {"collections": ["messages", "rooms"],
           "methods": {"say": {"steps": [["require", "rooms", {"_id": {"$param": 1}}, 404, "No such room"], ["insert", "messages", message],
                                         ["update", "rooms", {"_id": {"$param": 1}}, {"$set": {"last": {"$param": 2}}}]],
                               "stub": [["insert", "messages", message]]}},
           "publications": {"room": [{"collection": "messages", "limit": 20, "selector": {"room": {"$param": 0}}, "sort": [["at", -1]]}],
                            "rooms": [{"collection": "rooms"}]}}
    for i in range(24):
        yield admin("insert", "rooms", {"_id": "r%02d" % i, "last": 0, "name": "Room %d" % i})
    yield from begun(names)
    for at, name in enumerate(names):
        yield ["sub", name, "rooms", "rooms", []]
        for i in range(3):
            yield ["sub", name, "in%d" % i, "room", ["r%02d" % ((at + 5 * i) % 24)]]
    yield ["settle"]

    def events():
        for n in range(4000 // part):
            at = draw.below(24)
            yield ["call", names[at], "say", ["m%05d" % n, "r%02d" % ((at + 5 * draw.below(3)) % 24), n + 1, names[at], "said %d" % draw.below(10 ** 6)]]

    yield from paused(events(), 48)
    yield from shown(names)


def forms(part):
    draw, names = Draws(44), ["f%02d" % i for i in range(16)]
    yield {"collections": ["entries"], "publications": {"mine": [{"collection": "entries", "selector": {"by": {"$param": 0}}}], "open": [{"collection": "entries", "selector": {"closed": False}}]},
           "rules": {"entries": {"allow": [{"on": "insert", "selector": {"closed": False}}, {"on": "update", "fields": ["closed", "note", "points"]}, {"on": "remove", "selector": {"closed": True}}],
                                 "deny": [{"on": "update", "selector": {"closed": True}}, {"on": "update", "fields": ["by"]}, {"on": "remove", "selector": {"points": {"$gte": 90}}}]}}}
    yield from begun(names)
    for at, name in enumerate(names):
        yield ["sub", name, "1", *(("open", []) if at % 4 == 0 else ("mine", [name]))]
    yield ["settle"]
    made = {name: [] for name in names}

    def write(n):
        name = draw.one(names)
        own, k = made[name], draw.below(20)
        if k < 6 or not own:
            own.append("e%05d" % n)
            return ["call", name, "/entries/insert", [{"_id": own[-1], "by": name, "closed": k == 0, "note": "", "points": draw.below(100)}]]
        entry = own[-1 - draw.below(min(len(own), 12))]
        if k < 17:
            modifier = draw.one([{"$set": {"note": "note %d" % draw.below(1000)}}, {"$inc": {"points": 1}}, {"$set": {"closed": True}}, {"$set": {"by": "f99"}}, {"$set": {"note": "", "points": draw.below(100)}}])
            return ["call", name, "/entries/update", [entry, modifier]]
        return ["call", name, "/entries/remove", [entry]]

    yield from paused((write(n) for n in range(8000 // part)), 80)
    yield from shown(names)


def filters(part):
    draw, names = Draws(55), ["q%d" % i for i in range(6)]
    yield {"collections": ["goods"], "publications": {"by": [{"collection": "goods", "selector": {"$param": 0}}]}}
    for i in range(1000):
        yield admin("insert", "goods", {"_id": "g%03d" % i, "price": draw.below(500), "kind": "kind%d" % draw.below(25), "size": {"height": draw.below(50), "width": draw.below(50)},
                                        "tags": ["t%d" % draw.below(30), "t%d" % draw.below(30)], **({"old": True} if draw.below(4) == 0 else {})})
    yield from begun(names)

    def wanted(i):
        a, b = draw.below(450), draw.below(25)
        return [{"price": {"$gte": a, "$lt": a + 20}}, {"kind": "kind%d" % b, "price": {"$lt": a}}, {"tags": "t%d" % (b + 5)}, {"size.height": b * 2, "old": {"$exists": False}},
                {"$or": [{"price": a}, {"size.width": {"$lt": b % 5}}]}, {"kind": {"$in": ["kind%d" % b, "kind%d" % ((b + 9) % 25)]}, "old": True},
                {"size.height": {"$gt": 45}, "size.width": {"$lte": b}}, {"_id": {"$in": ["g%03d" % draw.below(1000) for _ in range(4)]}},
                {"tags": {"$in": ["t%d" % b, "t%d" % ((b + 3) % 30)]}, "price": {"$gt": a}}, {"old": {"$ne": True}, "price": {"$lt": a // 20}}][i % 10]

    for i in range(120):
        yield ["sub", names[i % 6], "s%d" % (i // 6), "by", [wanted(i // 6 + i)]]
    yield ["settle"]
    modifiers = [lambda: {"$set": {"price": draw.below(500)}}, lambda: {"$inc": {"price": draw.below(10)}}, lambda: {"$set": {"kind": "kind%d" % draw.below(25)}},
                 lambda: {"$push": {"tags": "t%d" % draw.below(30)}}, lambda: {"$set": {"tags": ["t%d" % draw.below(30)]}}, lambda: {"$set": {"size.height": draw.below(50)}}, lambda: {"$unset": {"old": 1}},
                 lambda: {"$set": {"old": True}}]
    yield from paused((admin("update", "goods", {"_id": "g%03d" % draw.below(1000)}, draw.one(modifiers)()) for _ in range(2000 // part)), 50)
    yield from shown(names)


def imports(part):
    draw, count = Draws(66), 60000 // part
    yield {"collections": ["left", "right"]}
    for i in range(count):
        yield admin("insert", ("left", "right")[i % 2], {"_id": "%x-%05d" % (draw.below(16), i), "count": draw.below(100), "place": {"x": draw.below(1000), "y": draw.below(1000)},
                                                       "title": "Title %d" % draw.below(10 ** 6), "words": ["w%d" % draw.below(99) for _ in range(3)]})
    # The ids were drawn with the documents; they are drawn once more here, in the same order.
    again, ids = Draws(66), []
    for i in range(count):
        ids.append("%x-%05d" % (again.below(16), i))
        for n in (100, 1000, 1000, 10 ** 6, 99, 99, 99):
            again.below(n)
    modifiers = [lambda: {"$inc": {"count": 1}}, lambda: {"$set": {"place.x": draw.below(1000)}}, lambda: {"$push": {"words": "v%d" % draw.below(99)}}, lambda: {"$set": {"title": "Other %d" % draw.below(10 ** 6)}},
                 lambda: {"$unset": {"place": 1}}]
    for _ in range(count):
        i = draw.below(count)
        yield admin("update", ("left", "right")[i % 2], {"_id": ids[i]}, modifiers[0]() if i % 5 == 0 else draw.one(modifiers[1:4])() if i % 7 else modifiers[4]())
    for i in range(0, count, 3):
        yield admin("remove", ("left", "right")[i % 2], {"_id": ids[i]})
    yield ["store"]


def wide(part):
    draw, count = Draws(77), 500 // part
    yield {"collections": ["sheets"], "publications": {"all": [{"collection": "sheets"}]}}
    for i in range(4):
        yield admin("insert", "sheets", {"_id": "s%d" % i, "name": "Sheet %d" % i})
    yield from begun(["a"])
    yield ["sub", "a", "1", "all", []]
    yield ["settle"]
    yield from paused((admin("update", "sheets", {"_id": "s%d" % (i % 4)}, {"$set": {"cell%04d" % (i // 4 * 7919 % count): draw.below(10 ** 6)}}) for i in range(8 * count)), 20)
    yield from shown(["a"])


SHAPES = {"prices": prices, "desks": desks, "chats": chats, "forms": forms, "filters": filters, "imports": imports, "wide": wide}


def line(value):
    return json.dumps(value, separators=(",", ":"), sort_keys=True) + "\n"


def write(folder, names):
    os.makedirs(folder, exist_ok=True)
    for name in names:
        for size, part in (("whole", WHOLE), ("tenth", TENTH)):
            with open(os.path.join(folder, name + "." + size), "w", encoding="ascii", newline="\n") as out:
                out.writelines(map(line, SHAPES[name](part)))


if __name__ == "__main__":
    if len(sys.argv) < 2 or any(name not in SHAPES for name in sys.argv[2:]):
        sys.exit(__doc__)
    write(sys.argv[1], sys.argv[2:] or list(SHAPES))
