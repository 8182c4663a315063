"""The trials of a page with the endpoint: what each asks the page for, and what is wrong with what the two report. Each answers a list of faults, and
some figures."""

import asyncio

from bridged import SENT, fault_of
from browser import Trial
from peer import Peer
from program import Program
from sctp_channels import Closed, Incoming

OWN = [("e0", {}), ("e1", {"ordered": False}), ("e2", {"ordered": False, "max_retransmits": 2, "protocol": "q"}), ("e3", {"max_packet_lifetime": 700})]


class Noting(Program):
    """The program of the example, which keeps all events, and opens the channels OWN if it is asked for `all`."""

    def __init__(self, say):
        super().__init__(say)
        self.events = []

    def on_event(self, peer, event):
        self.events.append(event)
        super().on_event(peer, event)

    def on_wish(self, peer, verb, label):
        if verb == "all":
            for name, parameters in OWN:
                self.labels[peer.channels.open(name, **parameters)] = name
        else:
            super().on_wish(peer, verb, label)


class Interleaving(Peer):
    """Its endpoint asks for I-DATA (RFC 8260) too, which Firefox offers."""

    def config(self):
        config = super().config()
        config.interleave = True
        return config


def of_channel(it):
    """Label, protocol, order and limits of a channel, as the page says them, and of an event of the endpoint's."""
    return it["label"], it["protocol"], it["ordered"], it["maxRetransmits"], it["maxPacketLifeTime"]


def of_event(it):
    return it.label, it.protocol, it.ordered, it.max_retransmits, it.max_packet_lifetime


async def file(browser, room, lost, length, whole="", peer=Peer):
    trial = Trial(lost, peer=peer)
    result = await trial.run(browser, f"trial=file&length={length}&whole={whole}", room, 300)
    faults = fault_of(result, ["sent"])
    if not faults and not result["sent"] == result["theirs"] == result["fetched"] == result["theirsFetched"]:
        faults.append(f"not the same SHA-256: {result}")
    return faults, faults or f"{result['up']} ms up, in messages of {result['part']} bytes, {result['down']} ms down"


async def kinds(browser, room, server=False, peer=Peer):
    trial = Trial(server=server, program=Noting, peer=peer)
    result = await trial.run(browser, "trial=kinds", room)
    faults = fault_of(result, ["channels", "back"])
    if faults:
        return faults, ""
    theirs, own = result["channels"][:5], result["channels"][5:]
    faults += [f"{it['label']!r}: came back {back}" for it, back in zip(result["channels"], result["back"])
               if (back if it["ordered"] else sorted(back, key=str)) != (SENT if it["ordered"] else sorted(SENT, key=str))]
    incoming = [it for it in trial.programs[0].events if isinstance(it, Incoming)]
    if sorted(map(of_event, incoming), key=str) != sorted([*map(of_channel, theirs[:4]), ("control", "", True, None, None)], key=str):
        faults.append(f"the page opened {theirs}, the endpoint reported {incoming}")
    wanted = [(name, it.get("protocol", ""), it.get("ordered", True), it.get("max_retransmits"), it.get("max_packet_lifetime")) for name, it in OWN]
    if sorted(map(of_channel, own), key=str) != sorted(wanted, key=str):
        faults.append(f"the endpoint opened {OWN}, the page reports {own}")
    if trial.all[0].channels.status().interleaved != (peer is Interleaving):
        faults.append("I-DATA is in force, or isn't, against the configuration")
    if any(it["id"] % 2 != server for it in own) or any(it["id"] % 2 == server for it in theirs[:4]):
        faults.append("a channel has the number of the other half")
    return faults, f"{len(result['back'])} channels, {sum(map(len, result['back']))} messages came back"


async def many(browser, room, lost, rounds, count):
    trial = Trial(lost, program=Noting)
    result = await trial.run(browser, f"trial=many&rounds={rounds}&count={count}", room, 600)
    faults = fault_of(result, ["rounds", "greatest", "wrong"])
    if faults:
        return faults, ""
    events = trial.programs[0].events
    opened, ended = (sum(isinstance(it, kind) for it in events) for kind in (Incoming, Closed))
    if result["rounds"] != rounds or result["wrong"]:
        faults.append(f"{result['rounds']} rounds, wrong: {result['wrong'][:3]}")
    if opened != rounds * count + 1 or ended != rounds * count:
        faults.append(f"the endpoint reported {opened} channels, {ended} of them closed")
    if result["greatest"] > 4 * count + 2:
        faults.append(f"numbers aren't used again: up to {result['greatest']}")
    return faults, f"{ended} channels opened and closed, on streams up to {result['greatest']}"


async def limited(browser, room, lost):
    trial = Trial(lost, program=Noting)
    result = await trial.run(browser, "trial=limited", room)
    agent = result.pop("agent", "")
    faults, figures = fault_of(result, []), []
    for options, back in result.items() if not faults else ():
        numbers = [int(it.partition(" ")[0]) for it in back]
        if len(set(numbers)) < len(numbers) or ('"ordered":true' in options and numbers != sorted(numbers)):
            faults.append(f"{options}: twice, or out of order: {numbers}")
        if any(it != f"{k} " + "x" * 500 for k, it in zip(numbers, back)) or not 0 < len(back) <= 200:
            faults.append(f"{options}: changed, or none: {back[:2]}")
        figures.append(f"{len(back)} of 200")
    return faults, ", ".join(figures) + " came back" if agent else ""


async def buttons(browser, room):
    """The page's own buttons."""
    result = await Trial().run(browser, "trial=buttons", room)
    faults = fault_of(result, ["shown", "files", "drawn"])
    if faults:
        return faults, ""
    chat, agreed = "unordered, at most 0 retransmissions", "ordered, reliable, negotiated"
    wanted = [["3", "chat", chat, "open", "0", "0"], ["3", "chat", chat, "open", "2", "2"], ["3", "chat", chat, "closed", "2", "2"],
              ["3", "chat", chat, "open", "0", "0"], ["100", "negotiated", agreed, "open", "0", "0"], ["100", "negotiated", agreed, "open", "1", "1"],
              ["0", "from the endpoint", "ordered, reliable", "open", "0", "0"]]
    faults += [f"shown is {it}, not {row}" for it, row in zip(result["shown"], wanted) if it != row]
    if result["files"] != ["the same SHA-256"] * 2 or not result["drawn"] or not result["numbers"].startswith("ESTABLISHED"):
        faults.append(f"files: {result['files']}, drawn: {result['drawn']}, {result['numbers']}")
    return faults, result["numbers"]


async def leaves(browser, room):
    """The page closes its connection: the endpoint reports its channel closed."""
    trial = Trial(program=Noting)
    result = await trial.run(browser, "trial=leave", room)
    faults = fault_of(result, ["agent"])
    try:
        await asyncio.wait_for(trial.all[0].over.wait(), 10)
    except asyncio.TimeoutError:
        faults.append("the association wasn't over")
    closed = [it for it in trial.programs[0].events if isinstance(it, Closed)]
    return faults + ([] if len(closed) == 1 else [f"the endpoint reported {trial.programs[0].events}"]), f"{trial.all[0].channels.status().ended.name}"


async def ends(browser, room):
    trial = Trial()
    result = await trial.run(browser, "trial=abort", room)
    faults = fault_of(result, ["states"])
    if not faults and set(result["states"]) != {"closed"}:
        faults.append(f"after the endpoint's abort: {result}")
    return faults, "" if faults else "all channels were closed"
