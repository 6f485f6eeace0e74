"""Random scripts of calls that get deep: links are greeted and stay Up, the pool fills and is stolen from, identities, sequence
numbers and time run out; of a site alone, and of two that share a box."""
from model import link as links_
from model import message, table
from player import NORTH, ROOM, SOUTH, Player
from supervisor import ANSWER, NO_ANSWER, Supervisor

LAST_SEQUENCE, HIGHEST = 2147483647, 4294967295
LETTERS = bytes(sorted(table.ALPHABET))
BAD_NUMBERS = (4, 5, 32, 33, 255, 256, 2**31, HIGHEST)

# How often each act comes, by the kind of life. What is not named comes with the weight of "ordinary".
ORDINARY = {"rise": 30, "pump": 25, "pump_out": 4, "answer": 25, "answer_all": 6, "refuse": 2, "alarm": 8, "status": 8, "aggregated": 3,
            "tick": 4, "late_tick": 0.5, "due_tick": 3, "good": 12, "command": 4, "poll": 4, "subscribe": 2, "spoiled": 3, "damaged": 3,
            "disconnect": 0.6, "connect": 1, "failing": 0.2, "bad_link": 0.6, "bad_number": 0.6, "bad_room": 0.6, "bad_length": 0.3,
            "bad_time": 1, "same_identity": 3, "stranger": 2, "restart": 0.2, "counts": 4, "readings": 1}
LIVES = {
    "ordinary": {},
    "deaf": {"answer": 3, "answer_all": 0.3, "pump": 40, "good": 60, "poll": 20, "tick": 1, "same_identity": 10, "due_tick": 0.2},
    "flood": {"answer": 1, "answer_all": 0.2, "subscribe": 8, "status": 60, "alarm": 15, "aggregated": 15, "pump": 8, "due_tick": 10},
    "desk": {"command": 60, "answer": 60, "pump": 30, "spoiled": 10},
    "gateway": {"poll": 60, "good": 40, "answer": 5, "answer_all": 0.5, "subscribe": 6, "status": 20, "same_identity": 10},
    "busy": {"answer": 40, "status": 30, "alarm": 10, "pump": 40, "subscribe": 5, "due_tick": 10},
    "greeting": {"rise": 25, "connect": 8, "disconnect": 8, "failing": 8, "refuse": 8, "good": 10, "spoiled": 8, "stranger": 5},
    "crumbling": {"late_tick": 4, "disconnect": 4, "connect": 4, "alarm": 15, "status": 15, "subscribe": 4, "pump": 30},
}


def label(source):
    length = source.choice((1, 2, 5, 8, 17, 32, source.randint(1, 32)))
    return bytes(source.choice(LETTERS) for _ in range(length))


def distinct(count, make):
    found = []
    while len(found) < count:
        one = make()
        if one not in found:
            found.append(one)
    return found


def some_table(source, full=False):
    components = distinct(8 if full else source.choice((1, 1, 2, 3, 8)), lambda: label(source))
    rows = 32 if full else source.choice((0, 1, 2, 3, 5, 8, 32))
    one = lambda: source.randrange(len(components))
    codes = [label(source) for _ in range(6)] if not full else [b"S" * 32, b"T" * 31, b"U"]
    code = lambda: source.choice(codes) if source.random() < 0.5 else label(source)
    alarms = distinct(rows, lambda: (one(), code()))
    statuses = distinct(32 if full else source.choice((0, 1, 2, 3, 5, 8, 32)), lambda: (one(), code(), code()))
    commands = distinct(16 if full else source.choice((0, 0, 1, 2, 5, 16)), lambda: (one(), code(), code()))
    return table.Table(label(source), label(source), components,
                       [(component, source.randint(1, 3), source.randrange(2), code_) for component, code_ in alarms], statuses,
                       [(*row, *limits(source)) for row in commands], source.choice((None, 2)))


def limits(source):
    """The lowest and the highest value of a command."""
    ends = (-2**15, -1, 0, 1, 2**15 - 1, source.randrange(-2**15, 2**15), source.randrange(-2**15, 2**15))
    return sorted((source.choice(ends), source.choice(ends)))


# Of a site in a box: begins anew with the other beside it, and without.
BOXED = {"anew": 0.3, "alone": 0.1}


class Life:
    """One start and the calls after it."""

    def __init__(self, source, player, kind):
        self.source, self.player, self.supervisor = source, player, Supervisor(source, player, mixed=True)
        self.kind, self.weights = kind, {**ORDINARY, **LIVES[kind], **(BOXED if player.name else {})}
        self.time, self.spent = 0, []

    @property
    def site(self):
        return self.player.site

    def begin(self, alone=False):
        source = self.source
        crowded = self.kind == "flood"
        links = source.choice((2, 3, 3, 4)) if crowded else source.randint(1, 4)
        primary = None if source.random() < 0.1 else source.randrange(links)
        first = source.choice((0, 1, 1000, source.randrange(LAST_SEQUENCE)))
        if source.random() < 0.12:
            first = LAST_SEQUENCE - source.randrange(200)
        self.time = source.choice((0, 1254398371571, 1700000000000, source.randrange(message.LAST)))
        if source.random() < 0.05:
            self.time = message.LAST - source.randrange(200000)
        made = some_table(source, full=crowded and source.random() < 0.5)
        start = self.player.start_alone if alone else self.player.start
        start(made.bytes(), links, primary, source.choice((1, 5, 30, 60, 60, 3600)), first, self.time)

    def acts(self, count):
        names = list(self.weights)
        return self.source.choices(names, [self.weights[name] for name in names], k=count)

    def go(self, count):
        self.begin()
        for name in self.acts(count):
            getattr(self, name)()
        self.player.counts()
        self.player.readings()

    def act(self, name):
        """Of a site whose box the other shares: it begins again where the other's start has ended it."""
        if self.site is None:
            self.begin()
        getattr(self, name)()

    # Arguments.

    def later(self):
        """The time of the next call: mostly a little later."""
        ahead = self.source.choice((0, 0, 1, 1, 3, 10, 50, self.source.randrange(100), self.source.randrange(400)))
        self.time = min(self.time + ahead, message.LAST)
        return self.time

    def until(self, time):
        if self.time <= time <= message.LAST:
            self.time = time
        return self.time

    def link(self):
        return self.source.randrange(len(self.site.links))

    def link_in(self, *phases):
        """A link in one of these phases, where there is one."""
        found = [link for link, one in enumerate(self.site.links) if one.phase in phases]
        return self.source.choice(found) if found else self.link()

    def connected(self):
        return self.link_in(links_.UP) if self.source.random() < 0.8 else self.link_in(links_.GREETING, links_.BEATING, links_.UP)

    def random(self):
        return self.source.randbytes(16)

    def awaited(self, link):
        return list(self.site.links[link].awaited)

    def send(self, link, packet):
        room = ROOM if self.source.random() < 0.9 else ROOM + self.source.randrange(3)
        return self.player.packet(link, self.later(), self.random(), packet, room)

    def tell(self, link, members):
        return self.send(link, self.supervisor.written(members))

    # Acts.

    def rise(self):
        """The next steps that make a link Up."""
        link = self.link_in(links_.DOWN, links_.GREETING, links_.BEATING)
        for _ in range(self.source.choice((1, 1, 2, 8))):
            one = self.site.links[link]
            if one.phase == links_.DOWN:
                self.player.connect(link, self.later())
            elif not (one.version_out if one.phase == links_.GREETING else one.watchdog_out):
                self.player.pump(link, self.later(), self.random())
            elif one.phase != links_.UP:
                self.reply_in_greeting(link, one)

    def reply_in_greeting(self, link, one):
        answers = [self.supervisor.answer(identity) for identity in self.awaited(link)]
        if one.phase == links_.GREETING:
            theirs = [] if one.version_accepted else [self.supervisor.version()]
        else:
            theirs = [] if one.watchdog_taken else [self.supervisor.watchdog()]
        choices = answers + theirs
        if choices:
            self.tell(link, self.source.choice(choices))

    def connect(self):
        self.player.connect(self.link_in(links_.DOWN) if self.source.random() < 0.8 else self.link(), self.later())

    def disconnect(self):
        self.player.disconnect(self.link_in(links_.GREETING, links_.BEATING, links_.UP), self.later())

    def pump(self):
        self.player.pump(self.connected(), self.later(), self.random(), ROOM if self.source.random() < 0.9 else ROOM + 1)

    def pump_out(self):
        link = self.connected()
        for _ in range(12):
            if self.player.pump(link, self.later(), self.random()).number:
                return

    def answer(self):
        link = self.connected()
        known = self.awaited(link) or self.spent[-3:]
        if known:
            identity = known[0] if self.source.random() < 0.5 else self.source.choice(known)
            self.spent = self.spent[-20:] + [identity]
            self.tell(link, self.supervisor.answer(identity, ANSWER if self.source.random() < 0.9 else NO_ANSWER))

    def answer_all(self):
        link = self.connected()
        for identity in self.awaited(link):
            self.tell(link, self.supervisor.answer(identity))

    def refuse(self):
        """A MessageNotAck, also to our Version and Watchdog."""
        link = self.link_in(links_.GREETING, links_.BEATING)
        for identity in self.awaited(link)[:1]:
            self.tell(link, self.supervisor.answer(identity, NO_ANSWER))

    def stranger(self):
        """An answer that is not awaited: of another link, given before, or never sent."""
        others = [identity for link in range(len(self.site.links)) for identity in self.awaited(link)]
        identity = self.source.choice(others + self.spent[-5:] + ["00000000-0000-4000-8000-000000000000"])
        self.tell(self.connected(), self.supervisor.answer(identity, self.source.choice((ANSWER, NO_ANSWER))))

    def alarm(self):
        if self.site.alarms:
            number = self.source.randrange(len(self.site.alarms))
            active = not self.site.alarms[number].active if self.source.random() < 0.8 else self.source.random() < 0.5
            self.player.alarm(number, active, self.later())

    def status(self):
        taken = [number for own in self.site.subscriptions for number in own]
        if self.site.statuses:
            number = self.source.choice(taken) if taken and self.source.random() < 0.8 else self.source.randrange(len(self.site.statuses))
            value = self.source.choice((0, 1, -1, 190, 340, -2**31, 2**31 - 1, self.source.randrange(-2**31, 2**31)))
            self.player.status(number, value, self.later())

    def aggregated(self):
        self.player.aggregated(self.source.choice((0, 1, 128, 255, self.source.randrange(256))), self.later())

    def tick(self):
        self.player.tick(self.later())

    def late_tick(self):
        """Just before and just at the time when an awaited identity is too old, or a watchdog due."""
        times = [at + 30000 for one in self.site.links for _, _, at in one.awaited.values()]
        times += [one.last_watchdog + self.site.period * 1000 for one in self.site.links if one.phase == links_.UP]
        times = [time for time in times if time > self.time]
        if times:
            edge = min(times) if self.source.random() < 0.7 else self.source.choice(times)
            self.player.tick(self.until(edge - 1))
            for link in range(len(self.site.links)):
                self.player.pump(link, self.time, self.random())
            self.player.tick(self.until(edge))
            self.pump()

    def due_tick(self):
        """Just before and just at the time when a subscription's interval is over."""
        times = [own.since + own.seconds * 1000 for all_ in self.site.subscriptions for own in all_.values() if own.seconds]
        waits = [at + 30000 for one in self.site.links for _, _, at in one.awaited.values()]
        times = [time for time in times if self.time < time and (not waits or time < min(waits) or self.source.random() < 0.05)]
        if times:
            edge = min(times)
            self.player.tick(self.until(edge - 1))
            self.player.tick(self.until(edge))

    def good(self):
        self.tell(self.connected(), self.supervisor.good())

    def command(self):
        self.tell(self.link_in(links_.UP), self.supervisor.commands())

    def poll(self):
        """Now and then under an identity of ours that is awaited, as a response, or answered, which nobody has to."""
        link = self.link_in(links_.UP)
        members, known = dict(self.supervisor.polling()), self.awaited(link)
        if known and self.source.random() < 0.1:
            members["mId"] = self.source.choice(known)
        if self.source.random() < 0.05:
            members["type"] = members["type"].replace("Request", "Response")
        self.tell(link, list(members.items()))
        if self.source.random() < 0.1:
            self.tell(link, self.supervisor.answer(members["mId"], self.source.choice((ANSWER, NO_ANSWER))))

    def subscribe(self):
        rate = self.source.choice((None, None, ("0", True)))
        for _ in range(self.source.choice((1, 1, 1, 4))):
            self.tell(self.link_in(links_.UP), self.supervisor.of_statuses("StatusSubscribe", rate=rate))

    def failing(self):
        greeting = [link for link, one in enumerate(self.site.links) if one.may_judge_version()]
        self.tell(self.source.choice(greeting) if greeting else self.link(), self.supervisor.failing_version())

    def base(self):
        """A good packet to spoil, and the link that may get it."""
        link = self.connected() if self.source.random() < 0.7 else self.link_in(links_.GREETING, links_.BEATING)
        one = self.site.links[link]
        if one.phase == links_.GREETING and self.source.random() < 0.7:
            return link, self.supervisor.version()
        if self.awaited(link) and self.source.random() < 0.2:
            return link, self.supervisor.answer(self.source.choice(self.awaited(link)))
        return link, self.supervisor.good()

    def spoiled(self):
        link, members = self.base()
        self.send(link, self.supervisor.spoiled(members))

    def damaged(self):
        link, members = self.base()
        self.send(link, self.supervisor.damaged(members))

    def same_identity(self):
        """Random bytes that make an identity already awaited on the link, or on another one."""
        link = self.connected()
        known = self.awaited(link) if self.source.random() < 0.8 else self.awaited(self.link())
        if known:
            random = bytearray(bytes.fromhex(self.source.choice(known).replace("-", "")))
            random[6] ^= self.source.choice((0, 0x10, 0xF0))
            random[8] ^= self.source.choice((0, 0x40, 0xC0))
            if self.source.random() < 0.1:
                random[self.source.randrange(16)] ^= 1 << self.source.randrange(4)
            if self.source.random() < 0.4:
                self.player.pump(link, self.later(), bytes(random))
            else:
                asking = self.source.choice((self.supervisor.aggregated_request, lambda: self.supervisor.order("Request"), self.supervisor.polling,
                                             lambda: self.supervisor.of_statuses("StatusRequest"), self.supervisor.commands))
                self.player.packet(link, self.later(), bytes(random), self.supervisor.written(asking()))

    def counts(self):
        self.player.counts()

    def readings(self):
        self.player.readings()

    # Starts that are done.

    def anew(self):
        self.begin()

    def alone(self):
        if self.player.name == NORTH:
            self.begin(alone=True)

    # Calls that are refused. More than one thing may be wrong at once.

    def any_link(self):
        return self.source.choice((len(self.site.links), 4, 5, HIGHEST)) if self.source.random() < 0.3 else self.link()

    def any_room(self):
        return self.source.choice((0, 1, 4095)) if self.source.random() < 0.3 else ROOM

    def any_time(self):
        if self.source.random() < 0.7 or self.site.last == 0:
            return self.source.choice((self.time, message.LAST + 1, 2**64 - 1)) if self.source.random() < 0.3 else self.time
        return self.source.choice((self.site.last - 1, 0))

    def any_packet(self):
        packet = reads_like(self.supervisor)
        return packet + b" " * (4097 - len(packet)) if self.source.random() < 0.2 else packet

    def bad_link(self):
        link, time = self.source.choice((len(self.site.links), 4, 5, HIGHEST)), self.any_time()
        self.any_call(link, time, self.any_room(), self.any_packet())

    def bad_room(self):
        self.any_call(self.any_link(), self.any_time(), self.source.choice((0, 4095)), self.any_packet(), lending=True)

    def bad_length(self):
        packet = reads_like(self.supervisor)
        packet += b" " * (self.source.choice((4096, 4097, 5000)) - len(packet))
        self.player.packet(self.any_link(), self.any_time(), self.random(), packet, self.any_room())

    def bad_time(self):
        time = self.source.choice((self.site.last - 1, 0)) if self.site.last and self.source.random() < 0.6 else message.LAST + 1
        self.any_call(self.any_link(), time, self.any_room(), self.any_packet())

    def bad_number(self):
        time, number = self.any_time(), self.source.choice(BAD_NUMBERS)
        if self.source.random() < 0.5:
            self.player.alarm(self.source.choice((len(self.site.alarms), number)), True, time)
        else:
            self.player.status(self.source.choice((len(self.site.statuses), number)), 5, time)

    def any_call(self, link, time, room, packet, lending=False):
        way = self.source.randrange(4, 6) if lending else self.source.randrange(9)
        if way == 0:
            self.player.connect(link, time)
        elif way == 1:
            self.player.disconnect(link, time)
        elif way == 2:
            self.player.tick(time)
        elif way == 3:
            self.player.aggregated(self.source.randrange(256), time)
        elif way == 4:
            self.player.pump(link, time, self.random(), room)
        elif way in (5, 6):
            self.player.packet(link, time, self.random(), packet, room)
        elif way == 7:
            self.player.alarm(self.source.randrange(40), self.source.random() < 0.5, time)
        else:
            self.player.status(self.source.randrange(40), self.source.randrange(3), time)
        if self.site.last > self.time:
            self.time = self.site.last

    def restart(self):
        """A start that is refused and leaves the site as it was."""
        source, site = self.source, self.site
        good = dict(table=some_table(source).bytes(), links=len(site.links), primary=site.primary, period=site.period, first=0,
                    time=self.time)
        wrong = source.choice((("links", 0), ("links", 5), ("links", HIGHEST), ("primary", len(site.links)),
                               ("primary", HIGHEST - 1), ("period", 0), ("period", 3601), ("first", LAST_SEQUENCE + 1), ("first", 2**64 - 1),
                               ("time", message.LAST + 1), ("time", 2**64 - 1), ("table", b""), ("table", good["table"][:-1]),
                               ("table", good["table"] + b"\0")))
        self.player.start(**{**good, wrong[0]: wrong[1]})


def reads_like(supervisor):
    return supervisor.written(supervisor.good()).rstrip()


def two_lives(source, count):
    """The player of a script of two sites. Now and then one of them is called more often than the other."""
    north = Player(NORTH)
    kinds = list(LIVES)
    both = [Life(source, player, source.choice((*kinds, "flood"))) for player in (north, Player(SOUTH, north))]
    both[0].begin(alone=True)
    both[1].begin()
    acts = [iter(life.acts(count)) for life in both]
    weights = 1, 1
    for _ in range(count):
        if source.random() < 0.02:
            weights = source.choice(((1, 1), (1, 9), (9, 1)))
        one = source.choices((0, 1), weights)[0]
        both[one].act(next(acts[one]))
    for life in both:
        life.act("counts")
        life.act("readings")
    return north


def lives(source, count, boxed=None):
    """Players whose scripts have together about so many lines; of a site alone, of two in a box, or of both kinds where it is not said."""
    total = 0
    kinds = list(LIVES)
    while total < count:
        length = source.choice((100, 300, 600, 1200))
        if source.random() < 0.4 if boxed is None else boxed:
            player = two_lives(source, length)
        else:
            player = Player()
            Life(source, player, source.choice(kinds)).go(length)
        total += len(player.pairs)
        yield player
