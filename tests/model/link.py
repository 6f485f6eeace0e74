"""Document 01, "Life of a link"."""

AWAITED, PUMP_LIMIT, WAIT = 16, 8, 30000
DOWN, GREETING, BEATING, UP = range(4)
VERSION, WATCHDOG, RECORD, OTHER = 1, 2, 3, 4


class Link:
    def __init__(self):
        self.close()

    def close(self):
        self.phase = DOWN
        self.awaited = {}                  # identity: (purpose, sequence number or None, time)
        self.version_out = self.version_acknowledged = self.version_accepted = False
        self.watchdog_out = self.watchdog_acknowledged = self.watchdog_taken = False
        self.chosen = (0, 0, 0)
        self.last_watchdog = 0
        self.aggregated_sent = False
        self.next_alarm = 0

    def connect(self):
        self.close()
        self.phase = GREETING

    def advance(self):
        if self.phase == GREETING and self.version_acknowledged and self.version_accepted:
            self.phase = BEATING
        if self.phase == BEATING and self.watchdog_acknowledged and self.watchdog_taken:
            self.phase = UP

    def sent(self, purpose, identity, time, sequence=None):
        self.awaited[identity] = (purpose, sequence, time)
        if purpose == VERSION:
            self.version_out = True
        if purpose == WATCHDOG:
            self.watchdog_out = True
            self.last_watchdog = time

    def answered(self, identity, acknowledged):
        """What the answer was for and whether it closes the link; None where the identity is not awaited."""
        if identity not in self.awaited:
            return None
        purpose, sequence, _ = self.awaited.pop(identity)
        closes = False
        if purpose == VERSION:
            self.version_acknowledged = self.version_acknowledged or acknowledged
            closes = not acknowledged
        if purpose == WATCHDOG:
            self.watchdog_acknowledged = self.watchdog_acknowledged or acknowledged
            closes = not acknowledged and self.phase == BEATING
        if closes:
            self.close()
        else:
            self.advance()
        return purpose, sequence, closes

    def may_judge_version(self):
        return self.phase == GREETING and self.version_out and not self.version_accepted

    def accept_version(self, chosen):
        self.version_accepted, self.chosen = True, chosen
        self.advance()

    def take_watchdog(self):
        self.watchdog_taken = True
        self.advance()

    def late(self, time):
        return any(time - at >= WAIT for _, _, at in self.awaited.values())

    def due(self, time, period_ms, primary, alarms, unsent):
        if self.phase == GREETING:
            return None if self.version_out else ("version",)
        if self.phase == BEATING:
            return None if self.watchdog_out else ("watchdog",)
        if self.phase == UP:
            if time - self.last_watchdog >= period_ms:
                return ("watchdog",)
            if not self.aggregated_sent:
                return ("aggregated",)
            if primary and self.next_alarm < alarms:
                return ("alarm", self.next_alarm)
            if unsent:
                return ("record",)
        return None
