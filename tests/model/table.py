"""Document 01, "Site table", with edition 2 of request 01: the bits read as a string of zeros and ones, and written back."""

ALPHABET = set(range(0x20, 0x7F)) - {ord('"'), ord("\\")}


class Refused(Exception):
    pass


class Bits:
    def __init__(self, data):
        self.bits = "".join(f"{byte:08b}" for byte in data)

    def take(self, width):
        if len(self.bits) < width:
            raise Refused
        head, self.bits = self.bits[:width], self.bits[width:]
        return int(head, 2)

    def signed(self, width):
        value = self.take(width)
        return value - 2**width if value >= 2**(width - 1) else value

    def zero(self, width):
        if self.take(width):
            raise Refused

    def within(self, value, low, high):
        if not low <= value <= high:
            raise Refused
        return value

    def text(self):
        length = self.within(self.take(8), 1, 32)
        text = bytes(self.take(8) for _ in range(length))
        if not set(text) <= ALPHABET:
            raise Refused
        return text


class Table:
    """Of edition 2 where it has commands or is said to be."""

    def __init__(self, site, sxl, components, alarms, statuses, commands=(), edition=None):
        self.site, self.sxl, self.components = site, sxl, components
        self.alarms, self.statuses = alarms, statuses      # (component, priority, category, code), (component, code, name)
        self.commands = list(commands)                     # (component, code, name, lowest, highest)
        self.edition = edition or (2 if self.commands else 1)

    def head(self):
        counts = ((4, self.edition), (4, len(self.components)), (6, len(self.alarms)), (6, len(self.statuses)))
        return counts + (((4, 0),) if self.edition == 1 else ((5, len(self.commands)), (7, 0)))

    def bytes(self):
        bits = ""

        def put(width, value):
            nonlocal bits
            bits += f"{value:0{width}b}"

        def text(label):
            put(8, len(label))
            for byte in label:
                put(8, byte)

        for width, value in self.head():
            put(width, value)
        for label in (self.site, self.sxl, *self.components):
            text(label)
        for component, priority, category, code in self.alarms:
            for width, value in ((3, component), (2, priority), (1, category), (2, 0)):
                put(width, value)
            text(code)
        for component, code, name, *limits in [*self.statuses, *self.commands]:
            put(3, component)
            put(5, 0)
            text(code)
            text(name)
            for limit in limits:
                put(16, limit % 2**16)
        return int(bits, 2).to_bytes(len(bits) // 8, "big")


def once(rows):
    if len(set(rows)) != len(rows):
        raise Refused


def read(data):
    """The table, or Refused (number 11)."""
    bits = Bits(data)
    edition = bits.within(bits.take(4), 1, 2)
    components = bits.within(bits.take(4), 1, 8)
    alarms = bits.within(bits.take(6), 0, 32)
    statuses = bits.within(bits.take(6), 0, 32)
    commands = bits.within(bits.take(5), 0, 16) if edition == 2 else 0
    bits.zero(7 if edition == 2 else 4)
    site, sxl = bits.text(), bits.text()
    ids = [bits.text() for _ in range(components)]
    alarm_rows, status_rows, command_rows = [], [], []
    for _ in range(alarms):
        component = bits.within(bits.take(3), 0, components - 1)
        priority = bits.within(bits.take(2), 1, 3)
        category = bits.take(1)
        bits.zero(2)
        alarm_rows.append((component, priority, category, bits.text()))
    for _ in range(statuses):
        component = bits.within(bits.take(3), 0, components - 1)
        bits.zero(5)
        status_rows.append((component, bits.text(), bits.text()))
    for _ in range(commands):
        component = bits.within(bits.take(3), 0, components - 1)
        bits.zero(5)
        row = component, bits.text(), bits.text(), bits.signed(16), bits.signed(16)
        bits.within(row[3], -2**15, row[4])
        command_rows.append(row)
    if bits.bits:
        raise Refused
    once(ids)
    once([(component, code) for component, _, _, code in alarm_rows])
    once(status_rows)
    once([row[:3] for row in command_rows])
    return Table(site, sxl, ids, alarm_rows, status_rows, command_rows, edition)
