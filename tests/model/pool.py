"""Document 01, "The pool", with the eight owners of document 02, request 10: a link of a site is one of them."""

PLACES, MOST, SHARE, OWNERS = 128, 64, 16, 8


class Record:
    def __init__(self, owner, kind, item, flags, time, value, sequence):
        self.owner, self.kind, self.item, self.flags = owner, kind, item, flags
        self.time, self.value, self.sequence = time, value, sequence
        self.sent = False

    def packed(self):
        whole = 0
        for width, field in ((3, self.owner), (2, self.kind), (6, self.item), (6, self.flags), (48, self.time), (32, self.value),
                             (31, self.sequence)):
            whole = whole << width | field
        return whole.to_bytes(16, "big")


class Pool:
    def __init__(self):
        self.records = []
        self.lost = [0] * OWNERS

    def clear(self, owner):
        """The owner begins anew."""
        self.records = [r for r in self.records if r.owner != owner]
        self.lost[owner] = 0

    def of(self, owner):
        """The records held for an owner, oldest first."""
        return sorted((r for r in self.records if r.owner == owner), key=lambda r: r.sequence)

    def held(self, owner):
        return len(self.of(owner))

    def lose(self, record):
        self.records.remove(record)
        self.lost[record.owner] += 1

    def fullest(self):
        return max(range(OWNERS), key=lambda owner: (self.held(owner), -owner))

    def issue(self, record):
        own = self.of(record.owner)
        if len(own) == MOST:
            self.lose(own[0])
        elif len(self.records) < PLACES:
            pass
        elif len(own) < SHARE:
            self.lose(self.of(self.fullest())[0])
        else:
            self.lose(own[0])
        self.records.append(record)

    def oldest_unsent(self, owner):
        return next((r for r in self.of(owner) if not r.sent), None)

    def newest_of_alarm(self, owner, item):
        return next((r for r in reversed(self.of(owner)) if r.kind == 0 and r.item == item), None)

    def find(self, owner, sequence):
        return next((r for r in self.of(owner) if r.sequence == sequence), None)

    def mark(self, owner, sequence):
        record = self.find(owner, sequence)
        if record:
            record.sent = True

    def unmark(self, owner):
        for record in self.of(owner):
            record.sent = False

    def settle(self, owner, sequence):
        record = self.find(owner, sequence)
        if record:
            self.records.remove(record)
