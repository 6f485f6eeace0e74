"""Document 01, "Alarms and subscriptions": one alarm, one subscription, the aggregated value."""

ISSUE, ACKNOWLEDGE, SUSPEND = range(3)


class Alarm:
    def __init__(self, time):
        self.active, self.acknowledged, self.suspended = False, True, False
        self.event, self.time = ISSUE, time

    def flags(self):
        return self.event << 4 | self.acknowledged << 3 | self.active << 2 | self.suspended << 1

    def happened(self, event, time):
        self.event, self.time = event, time
        return event != ISSUE or not self.suspended

    def input(self, active, time):
        """None where nothing happens, else whether the event makes a record."""
        if active == self.active:
            return None
        self.active = active
        if active:
            self.acknowledged = False
        return self.happened(ISSUE, time)

    def acknowledge(self, time):
        if self.acknowledged:
            return None
        self.acknowledged = True
        return self.happened(ACKNOWLEDGE, time)

    def suspend(self, suspended, time):
        if self.suspended == suspended:
            return None
        self.suspended = suspended
        return self.happened(SUSPEND, time)


class Status:
    def __init__(self):
        self.value = None

    def set(self, value):
        """Whether this is a first or changed value."""
        changed = self.value != value
        self.value = value
        return changed

    def flags(self, old):
        return (self.value is not None) << 5 | old << 4

    def word(self):
        return 0 if self.value is None else self.value % 2**32


class Subscription:
    def __init__(self, seconds, on_change, time):
        self.seconds, self.on_change, self.since = seconds, on_change, time

    def on_value(self, changed):
        return self.on_change and changed

    def on_tick(self, time):
        if self.seconds and time - self.since >= self.seconds * 1000:
            self.since = time
            return True
        return False


class Aggregated:
    def __init__(self, time):
        self.value, self.time = 0, time

    def set(self, value, time):
        if value == self.value:
            return False
        self.value, self.time = value, time
        return True
