"""The rules of caches on plain lists."""


class Cache:
    """Entries of a key, a count and whether this is all, the most recently used first; and by seat the key that it owns."""

    def __init__(self, size, weight=None, most=None, serves_always=False):
        self.size, self.weight, self.most, self.serves_always = size, weight, most, serves_always
        self.entries, self.owned = [], {}

    def look(self, seat, key, need=0):
        for entry in self.entries:
            _, count, whole = entry
            if entry[0] == key and (self.serves_always or count >= need or whole):
                self.entries.remove(entry)
                self.entries.insert(0, entry)
                return f"hit {count}"
        for owner in sorted(self.owned):
            if self.owned[owner] == key:
                return f"join {owner}"
        self.owned[seat] = key
        return "own"

    def leave(self, seat):
        del self.owned[seat]
        return "done"

    def give(self, seat, count, whole=False, keep=True):
        self.put(self.owned.pop(seat), count, whole, keep)
        return "done"

    def put(self, key, count, whole=False, keep=True):
        is_long = self.most is not None and count > self.most
        is_heavy = self.weight is not None and 1 + count > self.weight
        if not keep or is_long or is_heavy:
            return
        self.entries = [entry for entry in self.entries if entry[0] != key]
        self.entries.insert(0, (key, count, whole))
        while not self.fits():
            self.entries.pop()

    def fits(self):
        total = sum(1 + count for _, count, _ in self.entries)
        return len(self.entries) <= self.size and (self.weight is None or total <= self.weight)

    def keys(self):
        return [entry[0] for entry in self.entries]
