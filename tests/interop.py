"""The conversations of docs/INTEROP.md, played on the model and by `rsmp-replay`: the site answers as the page says, to the word.

  interop.py --stored

A conversation is a block that begins with ```rsmp. It starts with link 0, the primary, and link 1 Up, everything that was due sent and
answered, on the site of examples/barrier.txt; behind ```rsmp commands on that of examples/commands.txt. Link 1 counts where a line names it. The
lines, in which a 1 in front is said of link 1:
  > {..}           the supervisor sends this; mType and mId are put in where they are missing
  < {..}           the next message of the site, which has these elements and perhaps others
  < ..             messages that do not matter here, up to the next that is named
  < nothing        the site sends nothing
  < closed         the site closes the link
  ! NUMBER         the call gave this number: the packet was not taken
  = N=V,N=V..      the commands handed over since the last such line, by number and value; = nothing
  * connected      from here on link 0 is new: connected, our Version sent and acknowledged
  * cut, * up again, * SECONDS s, * alarm NUMBER on|off, * status NUMBER VALUE     what happens at the site
  * silent         from here on the supervisor answers nothing by itself; else it acknowledges every message
"""
import json
import re
import sys
import uuid

import replays
from cases import ROOT
from model import link as links_
from model import table

PAGE = ROOT / "docs" / "INTEROP.md"
EXAMPLES = {"": ROOT / "examples" / "barrier.bits", " commands": ROOT / "examples" / "commands.bits"}


class Wrong(Exception):
    pass


def has(message, wanted):
    """Whether a message has these elements."""
    if isinstance(wanted, dict):
        return isinstance(message, dict) and all(name in message and has(message[name], value) for name, value in wanted.items())
    if isinstance(wanted, list):
        return isinstance(message, list) and len(message) == len(wanted) and all(map(has, message, wanted))
    return message == wanted and isinstance(message, bool) == isinstance(wanted, bool)


class Talk:
    def __init__(self, named, example):
        self.named = named
        self.hand = replays.Hand(site=table.read(example.read_bytes()))
        self.count, self.silent, self.commands = 0, False, []
        self.new_site()

    def new_site(self):
        for link in (0, 1):
            self.hand.up(link)
            self.hand.sent_out(link)
        self.sent, self.closed, self.number, self.skipping = {0: [], 1: []}, set(), 0, False

    def heard(self, link, answer):
        self.number = answer.number
        if not answer.number:
            self.sent[link] += [json.loads(text) for text in answer.written.split(b"\f")[:-1]]
            self.closed |= set(answer.closed)
            self.commands += answer.commands

    def pump(self, link):
        """Until nothing is due; what is sent is acknowledged."""
        hand = self.hand
        while hand.player.site.links[link].phase != links_.DOWN:
            answer = hand.pump(link)
            if answer.number:
                break
            self.sent[link] += [json.loads(text) for text in answer.written.split(b"\f")[:-1]]
            if not self.silent:
                hand.tell(link, hand.supervisor.answer(hand.awaited(link)[-1]))

    def say(self, link, text):
        self.settled()
        members = json.loads(text)
        self.count += 1
        head = {"mType": "rSMsg", "type": members.get("type"), "mId": str(uuid.UUID(int=self.count, version=4))}
        oldest = next(iter(self.hand.awaited(link)), None)
        members = {name: oldest if value == "OURS" else value for name, value in {**head, **members}.items() if value != "NONE"}
        packet = json.dumps(members, separators=(",", ":")).encode()
        self.heard(link, self.hand.player.packet(link, self.hand.time, self.hand.random(), packet))
        self.pump(link)

    def happen(self, words):
        self.settled()
        hand, player = self.hand, self.hand.player
        if words == ["connected"]:
            player.disconnect(0, hand.time)
            hand.connect(0)
            hand.pump(0)
            hand.answer(0)
        elif words == ["cut"]:
            player.disconnect(0, hand.time)
        elif words == ["up", "again"]:
            hand.up(0)
            self.pump(0)
        elif words[:2] == ["up", "with"]:
            player.disconnect(0, hand.time)
            hand.up(0, offer=tuple(words[2:]))
            self.pump(0)
            self.sent[0] = []
        elif words == ["silent"]:
            self.silent = True
        elif words[0] == "alarm":
            player.alarm(int(words[1]), words[2] == "on", hand.time)
        elif words[0] == "status":
            player.status(int(words[1]), int(words[2]), hand.time)
        elif words[1] == "s":
            hand.time += int(words[0]) * 1000
            self.closed |= set(player.tick(hand.time).closed)
        else:
            raise Wrong("no such event")
        for link in (0, 1):
            self.pump(link)

    def expect(self, link, text):
        waiting = self.sent[link]
        if text == "..":
            self.skipping = True
        elif text == "nothing":
            if waiting:
                raise Wrong(f"the site sends {json.dumps(waiting[0])}")
        elif text == "closed":
            if link not in self.closed:
                raise Wrong("the link is not closed")
            self.closed.remove(link)
        else:
            wanted = json.loads(text)
            while self.skipping and waiting and not has(waiting[0], wanted):
                waiting.pop(0)
            self.skipping = False
            if not waiting or not has(waiting[0], wanted):
                raise Wrong(f"the site sends {json.dumps(waiting[0]) if waiting else 'nothing'}")
            waiting.pop(0)

    def settled(self):
        """Every message of the site has been named."""
        if self.skipping:
            self.sent, self.skipping = {0: [], 1: []}, False
        for link in self.named:
            if self.sent[link]:
                raise Wrong(f"before it the site sends {json.dumps(self.sent[link][0])} on link {link}")
        self.sent = {0: [], 1: []}
        if self.closed & self.named:
            raise Wrong(f"before it links {self.closed} are closed")

    def line(self, text):
        link, mark, rest = re.fullmatch(r"(1?)([<>!*=]) (.*)", text).groups()
        link = int(link or 0)
        if mark == ">":
            self.say(link, rest)
        elif mark == "<":
            self.expect(link, rest)
        elif mark == "*":
            self.happen(rest.split())
        elif mark == "=":
            handed, self.commands = ",".join(f"{number}={value}" for number, value in self.commands) or "nothing", []
            if handed != rest:
                raise Wrong(f"the site hands over {handed}")
        elif self.number != int(rest):
            raise Wrong(f"the number is {self.number}")


def main(words):
    if words != ["--stored"]:
        print(__doc__)
        return 2
    text = PAGE.read_text()
    blocks = list(re.finditer(r"^```rsmp(| commands)\n(.*?)^```$", text, re.DOTALL | re.MULTILINE))
    players, lines = [], 0
    for block in blocks:
        talk, at = Talk({0, 1} if re.search(r"^1", block[2], re.MULTILINE) else {0}, EXAMPLES[block[1]]), text[:block.start(2)].count("\n")
        for line in block[2].splitlines():
            at += 1
            try:
                talk.line(line)
            except (Wrong, AttributeError, ValueError) as wrong:
                sys.exit(f"docs/INTEROP.md:{at}: {line}\n  {wrong}")
        lines += len(block[2].splitlines())
        try:
            talk.settled()
        except Wrong as wrong:
            sys.exit(f"docs/INTEROP.md:{at}: at the end: {wrong}")
        players.append(talk.hand.done())
    if len(blocks) < 20:
        sys.exit(f"docs/INTEROP.md has {len(blocks)} conversations only")
    print(f"interop: {len(blocks)} conversations of docs/INTEROP.md, {lines} lines, hold in the model")
    replays.compare(players, "the conversations of docs/INTEROP.md")
    return 0


if __name__ == "__main__":
    sys.exit(main(sys.argv[1:]))
