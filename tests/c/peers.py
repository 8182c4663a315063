#!/usr/bin/env python3
"""Tries examples/c/server.c, by clients over UDP: tests/c/peers.py SERVER, with SCTP_ENDPOINT_LIBRARY and PYTHONPATH=bindings/python.

Clients are restarted, change their port, lose their port to another client, are impersonated by a COOKIE ECHO that was made for another address, have a
packet sent from another address or a COOKIE ECHO from another port, run twice, send old packets again once they are gone, lose their last packet, read
nothing; and a thousand call at once over a link that loses a twentieth of the packets each way. It prints a line a trial, and ends with 1 if a client is
lost, or gets a message twice or not at all. `peers.py SERVER 100` has a hundred clients in place of the thousand."""

import random
import resource
import select
import socket
import subprocess
import sys
import time

from sctp_endpoint import Config, Endpoint, Ended, State

ABORT, COOKIE_ECHO, SHUTDOWN_COMPLETE = 6, 10, 14
ASK = 1


def now():
    return int(time.monotonic() * 1000)


def is_one(packet, kind, t_bit=False):
    """The packet's first chunk is of this type, and has the T bit or not."""
    return packet[12] == kind and (packet[13] & 1 == 1) == t_bit


class Client:
    """A client of the chat: an endpoint and a socket. What it sends of the type `held` without the T bit never arrives."""

    def __init__(self, server, name, secret="secret", port=0, sctp_port=5000, loss=0.0, held=None):
        self.server, self.name, self.loss = server, name, loss
        self.first = f"{name} {secret}".encode()
        self.inbox, self.packets, self.said, self.held = [], [], False, held
        self.open(port)
        self.end = Endpoint.caller(Config(sctp_port, 5001, buffer=65536, outbound=1, inbound=1))
        self.end.connect(now())
        self.turn()

    def open(self, port=0):
        self.udp = socket.socket(socket.AF_INET, socket.SOCK_DGRAM)
        self.udp.bind(("127.0.0.1", port))
        self.udp.setblocking(False)

    def port(self):
        return self.udp.getsockname()[1]

    def put(self, packet):
        self.packets.append(packet)
        if random.random() >= self.loss and not is_one(packet, self.held):
            self.udp.sendto(packet, self.server)

    def turn(self):
        while True:
            try:
                packet = self.udp.recv(65536)
            except BlockingIOError:
                break
            if random.random() >= self.loss:
                answer = self.end.handle_packet(now(), packet).answer
                if answer is not None:
                    self.put(answer)
        self.end.on_moment(now())
        while self.end.readable() is not None:
            message = self.end.take(0)
            if message.payload_id != ASK:
                self.inbox.append(message.bytes.decode())
        status = self.end.status()
        if not self.said and status.state == State.ESTABLISHED:
            self.said = True
            self.end.send(0, self.first)
        while (sent := self.end.poll_transmit(now())) is not None:
            self.put(sent.packet)
        status = self.end.status()
        self.ended = status.ended
        self.due = status.next_moment if status.next_moment is not None else now() + 10_000

    def say(self, text):
        self.end.send(0, text.encode())
        self.turn()

    def vanish(self):
        """Its process is killed: the peer hears nothing of it."""
        self.udp.close()


def run(clients, holds, seconds):
    """Lets the clients run until this holds; False if it doesn't in time."""
    poll = select.poll()
    by_file = {client.udp.fileno(): client for client in clients}
    for file in by_file:
        poll.register(file, select.POLLIN)
    until = now() + int(seconds * 1000)
    while not holds():
        if now() >= until:
            return False
        due = min(client.due for client in clients)
        for file, _ in poll.poll(max(0, min(due - now(), until - now(), 1000))):
            by_file[file].turn()
        for client in clients:
            if client.due <= now():
                client.turn()
    return True


class Trials:
    def __init__(self, server):
        self.server, self.failed = server, False

    def tell(self, what, holds, more=""):
        self.failed |= not holds
        print(f"peers: {what}: {'as wanted' if holds else 'NOT AS WANTED'}{more}", flush=True)

    def joined(self, name, **options):
        client = Client(self.server, name, **options)
        if not run([client], lambda: "welcome" in client.inbox or client.ended is not None, 40):
            raise SystemExit(f"peers: {name} isn't welcomed")
        return client

    def heard(self, sender, receiver, text):
        """The receiver gets what the sender says, once."""
        sender.say(text)
        wanted = f"{sender.name}: {text}"
        come = run([sender, receiver], lambda: wanted in receiver.inbox, 20)
        run([sender, receiver], lambda: False, 0.2)
        return come and receiver.inbox.count(wanted) == 1

    def restart(self):
        watcher, held = self.joined("watcher-r", sctp_port=6000), []
        for again in range(5):
            client = self.joined("restarted", port=held[-1] if held else 0)
            self.tell(f"a client, restarted {again} times at its port", self.heard(client, watcher, f"hello {again}") and self.heard(watcher, client, f"you {again}"))
            held.append(client.port())
            client.vanish()
        client = self.joined("restarted")
        self.tell("restarted at another port", self.heard(client, watcher, "hello") and self.heard(watcher, client, "you"))
        other = Client(self.server, "restarted", secret="guessed")
        run([other], lambda: other.ended is not None, 10)
        self.tell("its name with another secret is turned out, and the client stays", other.ended is not None and self.heard(watcher, client, "still"))

    def changed_port(self):
        watcher, client = self.joined("watcher-p", sctp_port=6000), self.joined("roaming")
        for turn in range(3):
            client.udp.close()
            client.open()
            self.tell("a client at a new port", self.heard(client, watcher, f"here {turn}") and self.heard(watcher, client, f"there {turn}"))

    def lost_port(self):
        watcher, client = self.joined("watcher-l", sctp_port=6000), self.joined("silent")
        port = client.port()
        client.udp.close()
        other = self.joined("newcomer", port=port)
        good = self.heard(other, watcher, "my port now") and self.heard(watcher, other, "welcome")
        run([watcher, other], lambda: False, 2)
        client.open()
        self.tell("a silent client whose port another one was given", good and self.heard(client, watcher, "still here") and self.heard(watcher, client, "good")
                  and self.heard(watcher, other, "both"))

    def forged(self):
        watcher, victim = self.joined("watcher-f", sctp_port=6000), self.joined("victim")
        evil = Client(self.server, "evil", held=COOKIE_ECHO)
        run([evil], lambda: is_one(evil.packets[-1], COOKIE_ECHO), 10)
        before = victim.end.counts().packets_in
        victim.udp.sendto(evil.packets[-1], self.server)  # what a third party sends in the victim's name
        run([victim, watcher], lambda: False, 0.5)
        silent = victim.end.counts().packets_in == before  # no association was begun in its name: no COOKIE ACK
        self.tell("a COOKIE ECHO made for another address", silent and self.heard(victim, watcher, "me") and self.heard(watcher, victim, "you"))

    def moved(self):
        watcher, client = self.joined("watcher-m", sctp_port=6000), self.joined("staying")
        with socket.socket(socket.AF_INET, socket.SOCK_DGRAM) as elsewhere:
            elsewhere.bind(("127.0.0.9", 0))
            elsewhere.settimeout(1)
            good = self.heard(client, watcher, "before")
            elsewhere.sendto(client.packets[-1], self.server)
            time.sleep(0.1)
            good &= self.heard(watcher, client, "after")
            try:
                good &= len(elsewhere.recv(65536)) < 0
            except TimeoutError:
                pass
        self.tell("a client's packet from another address: nothing is sent there", good)

    def repeated_echo(self):
        watcher, client = self.joined("watcher-c", sctp_port=6000), self.joined("recorded")
        echo = next(packet for packet in client.packets if is_one(packet, COOKIE_ECHO))
        with socket.socket(socket.AF_INET, socket.SOCK_DGRAM) as elsewhere:
            elsewhere.bind(("127.0.0.1", 0))
            elsewhere.settimeout(1)
            elsewhere.sendto(echo, self.server)
            time.sleep(0.1)
            good = self.heard(watcher, client, "after")
            try:
                good &= len(elsewhere.recv(65536)) < 0
            except TimeoutError:
                pass
        self.tell("a client's COOKIE ECHO again from another port: nothing is sent there", good)

    def twice(self):
        watcher, first = self.joined("watcher-t", sctp_port=6000), self.joined("double")
        second = self.joined("double")
        run([first], lambda: first.ended is not None, 10)
        self.tell("a program that runs twice: the first one hears that it is out", first.ended == Ended.ABORTED and self.heard(watcher, second, "you"))

    def late(self):
        watcher, client = self.joined("watcher-o", sctp_port=6000), self.joined("leaving")
        good = self.heard(client, watcher, "once")
        client.end.shutdown()
        client.turn()
        good &= run([client], lambda: client.ended is not None, 10)
        for _ in range(2):
            for packet in client.packets:
                client.udp.sendto(packet, self.server)
                time.sleep(0.002)
        run([watcher], lambda: False, 1)
        self.tell("all its packets again once it is gone", good and watcher.inbox.count("leaving: once") == 1)

    def is_freed(self, client):
        """The server has no endpoint of this client: its name goes to who has another secret."""
        other = Client(self.server, client.name, secret="another")
        run([other], lambda: "welcome" in other.inbox or other.ended is not None, 10)
        return "welcome" in other.inbox

    def lost_end(self):
        watcher, closing, aborting = self.joined("watcher-e", sctp_port=6000), self.joined("closing", held=SHUTDOWN_COMPLETE), self.joined("aborting")
        closing.end.shutdown()
        closing.turn()
        answered = run([closing], lambda: is_one(closing.packets[-1], SHUTDOWN_COMPLETE, t_bit=True), 10)
        self.tell("its SHUTDOWN COMPLETE is lost, and the next one, with the T bit, ends the server's endpoint",
                  answered and closing.ended == Ended.COMPLETED and self.is_freed(closing))
        aborting.end.abort(b"lost")
        watcher.say("who is there?")
        answered = run([watcher, aborting], lambda: is_one(aborting.packets[-1], ABORT, t_bit=True), 10)
        self.tell("its ABORT is lost, and the next one, with the T bit, ends the server's endpoint",
                  answered and aborting.ended == Ended.ABORTED_HERE and self.is_freed(aborting) and watcher.ended is None)

    def full(self):
        watcher, slow, other = self.joined("watcher-q", sctp_port=6000), self.joined("slow"), self.joined("reading")
        good = True
        for part in range(13):  # 1,300 messages: 131 of 500 bytes fit the receive buffer of who reads nothing, and 1,024 the server's queue for it
            for _ in range(100):
                watcher.end.send(0, bytes(500))
            watcher.turn()
            good &= run([watcher, other], lambda: len(other.inbox) == 101 + 100 * part, 20)  # the welcome, too
        slow.say("still here")
        run([slow, other], lambda: slow.ended is not None, 10)
        self.tell("a client that reads nothing is aborted, and the others get all", good and slow.ended == Ended.ABORTED and self.is_freed(slow)
                  and self.heard(watcher, other, "and on"))

    def many(self, count):
        begun = time.monotonic()
        clients = []
        for number in range(count):
            clients.append(Client(self.server, f"honest-{number}", sctp_port=5000 + number % 7, loss=0.05))
            if number % 50 == 49:
                run(clients, lambda: False, 0.02)
        run(clients, lambda: all("welcome" in client.inbox or client.ended is not None for client in clients), 90)
        welcome = sum("welcome" in client.inbox for client in clients)
        seconds = time.monotonic() - begun
        run(clients, lambda: False, 35)  # longer than a deadline
        clients[0].say("all")
        run(clients, lambda: all("honest-0: all" in client.inbox for client in clients[1:]), 60)
        told = sum(client.inbox.count("honest-0: all") == 1 for client in clients[1:])
        lost = sum(client.ended is not None for client in clients)
        self.tell(f"{count} clients at a twentieth lost", welcome == count and told == count - 1 and lost == 0,
                  f", {welcome} welcomed in {seconds:.0f} s, {told + 1} reached, {lost} lost")


def main(words):
    resource.setrlimit(resource.RLIMIT_NOFILE, (resource.getrlimit(resource.RLIMIT_NOFILE)[1],) * 2)
    random.seed(7)
    with socket.socket(socket.AF_INET, socket.SOCK_DGRAM) as free:
        free.bind(("127.0.0.1", 0))
        port = free.getsockname()[1]
    server = subprocess.Popen([words[0], str(port)])
    time.sleep(0.3)
    trials = Trials(("127.0.0.1", port))
    try:
        trials.restart()
        trials.changed_port()
        trials.lost_port()
        trials.forged()
        trials.moved()
        trials.repeated_echo()
        trials.twice()
        trials.late()
        trials.lost_end()
        trials.full()
        trials.many(int(words[1]) if len(words) > 1 else 1000)
        trials.tell("the server lives", server.poll() is None)
    finally:
        server.kill()
    return trials.failed


if __name__ == "__main__":
    if not sys.argv[1:]:
        sys.exit(__doc__)
    sys.exit(main(sys.argv[1:]))
