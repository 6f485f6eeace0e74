"""Small supervisors over TCP: they listen, greet, answer, and keep what they got."""
import contextlib
import json
import socket
import threading
import time
import uuid

from model import message

FORM_FEED = b"\x0c"


class Supervisor:
    """One supervisor on loopback, one connection at a time. What comes is kept in `messages`, in order."""

    def __init__(self, site, sxl, answers=True, greets=True, offer="3.2", decimals=3):
        self.site, self.sxl, self.answers, self.greets, self.offer, self.decimals = site, sxl, answers, greets, offer, decimals
        self.messages, self.connections, self.acknowledged, self.refused = [], [], set(), {}
        self.changed, self.sending, self.stream = threading.Condition(), threading.RLock(), None
        self.listener = socket.socket()
        self.listener.setsockopt(socket.SOL_SOCKET, socket.SO_REUSEADDR, 1)
        self.listener.bind(("127.0.0.1", 0))
        self.listener.listen()
        self.address = "127.0.0.1:%d" % self.listener.getsockname()[1]
        self.up = False
        threading.Thread(target=self.serve, daemon=True).start()

    def serve(self):
        while True:
            try:
                stream, _ = self.listener.accept()
            except OSError:
                return
            stream.setsockopt(socket.IPPROTO_TCP, socket.TCP_NODELAY, 1)
            self.connections.append(bytearray())
            self.stream, self.up, self.acknowledged = stream, False, set()
            try:
                self.talk(stream)
            except OSError:
                pass
            stream.close()
            with self.changed:
                self.stream, self.up = None, False
                self.changed.notify_all()

    def talk(self, stream):
        rest = b""
        while True:
            data = stream.recv(65536)
            if not data:
                return
            self.connections[-1] += data
            *packets, rest = (rest + data).split(FORM_FEED)
            for packet in packets:
                self.take(json.loads(packet))

    def take(self, said):
        kind = said["type"]
        if kind == "MessageNotAck":
            self.refused[said["oMId"]] = said["rea"]
        elif kind == "MessageAck" or kind in message.INCLUDED_RESPONSES:
            self.acknowledged.add(said["oMId"])
        elif self.answers:
            self.send_raw(message.ack(said["mId"]) + FORM_FEED)
        if kind == "Version" and self.greets:
            self.send("Version", RSMP=[{"vers": self.offer}], siteId=[{"sId": self.site}], SXL=self.sxl)
        if kind == "Watchdog" and self.greets:
            self.beat()
        with self.changed:
            self.messages.append(said)
            self.up = self.up or kind == "AggregatedStatus"
            self.changed.notify_all()

    # What a test does.

    def send_raw(self, *parts):
        """Sends these bytes, in several segments where there are several parts, nothing between them."""
        with self.sending:
            for part in parts:
                if part is not parts[0]:
                    time.sleep(0.05)
                try:
                    if self.stream:
                        self.stream.sendall(part)
                except OSError:
                    pass

    def packet(self, kind, **more):
        """The identity of a message, and its bytes with the form feed."""
        identity = str(uuid.uuid4())
        return identity, message.text({**message.head(kind, identity), **more}) + FORM_FEED

    def send(self, kind, **more):
        identity, packet = self.packet(kind, **more)
        self.send_raw(packet)
        return identity

    def beat(self):
        """Sends the time by its own clock, with as many decimals as that writes."""
        now = time.time_ns()
        return self.send("Watchdog", wTs=message.time_with(now // 10**6, f"{now % 10**9:09}"[:self.decimals]))

    def ask(self, kind, **more):
        """Sends a message and waits for its answer: True where it is acknowledged, else the reason."""
        identity = self.send(kind, **more)
        self.wait(lambda: identity in self.acknowledged or identity in self.refused, f"an answer to a {kind}")
        return True if identity in self.acknowledged else self.refused[identity]

    def flood(self, kind, count, **more):
        """So many requests, eight at a time: more are not answered at once."""
        for _ in range(0, count, 8):
            asked = {self.send(kind, **more) for _ in range(8)}
            self.wait(lambda: asked <= self.acknowledged, f"answers to {kind} in a flood")

    def wait(self, test, what, seconds=20):
        end = time.monotonic() + seconds
        with self.changed:
            while not test():
                left = end - time.monotonic()
                if left <= 0:
                    raise TimeoutError(f"waited {seconds} s for {what}")
                self.changed.wait(min(left, 0.2))

    def wait_up(self):
        self.wait(lambda: self.up, "a link to be Up")

    def of(self, kind):
        return [said for said in self.messages if said["type"] == kind]

    def cut(self):
        stream = self.stream
        if stream:
            with contextlib.suppress(OSError):  # the other end may have closed it
                stream.shutdown(socket.SHUT_RDWR)

    def close(self):
        self.listener.close()
        self.cut()
