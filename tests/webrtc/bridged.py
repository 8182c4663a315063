"""A program that sends each message back, with a page in a browser: ICE and DTLS are aiortc's, the bridge carries the packets, and nothing of this library is
loaded here. The program is `echo` of a folder: that of docs/CHANNELS.md, or with bridged.py BROWSER FOLDER that of rust/sidorghu/examples/webrtc.rs, which opens a
channel of its own, too."""

import asyncio
import signal
import socket
import subprocess
import sys
import time

from browser import Trial, serve

SENT = ["ü", "", [0, 255], [], "last"]


def fault_of(result, needed):
    return [result["fault"]] if "fault" in result else [f"the page didn't report {name}" for name in needed if name not in result]


async def program(browser, room, more=()):
    """The program `echo` of a folder, behind the bridge: two pages, one after the other, and what more is to be tried with it."""
    port, faults = free_port(), []
    with open(f"{room}/echo.out", "w+") as said:
        process = subprocess.Popen([f"{room}/echo", str(port)], stdout=said)
        try:
            for _ in range(2):
                faults += await program_with_page(browser, room, port)
            for trial in more:
                faults += await trial(browser, room, port)
            lines = await lines_until(said, "channel 1: closed\n", 2 + len(more))
            faults += [] if process.poll() is None else [f"the program ended, with status {process.returncode}"]
        finally:
            process.kill()
            process.wait()
        return faults + ([] if lines.count("channel 1: closed\n") == 2 + len(more) else [f"not each page gone: {lines}"]), f"{len(lines)} lines of the program"


async def lines_until(said, line, count):
    """The lines of a file once it has one so many times, or after ten seconds."""
    for _ in range(200):
        said.seek(0)
        lines = said.readlines()
        if lines.count(line) >= count:
            break
        await asyncio.sleep(0.05)
    return lines


async def program_with_page(browser, room, port):
    trial = Trial()
    trial.make = lambda: serve.Bridge(port, loopback=True)
    result = await trial.run(browser, "trial=echo", room)
    faults = fault_of(result, ["rounds"])
    if not faults and [(it["id"], it["same"]) for it in result["rounds"]] != [(3, True)] * 2:
        faults.append(f"not on stream 3 twice, or another large message: {result}")
    faults += [f"came back {it['back']}" for it in result.get("rounds", ()) if sorted(it["back"], key=str) != sorted(SENT, key=str)]
    return faults + ([] if result.get("off") == ["negotiated", "theirs", "upload", "fetch", "abort"] else [f"buttons off: {result.get('off')}"])


async def opened_by_program(browser, room, port):
    """The program opens a channel, and closes it when the page asks it to."""
    trial = Trial()
    trial.make = lambda: serve.Bridge(port, loopback=True)
    result = await trial.run(browser, "trial=byProgram", room)
    faults = fault_of(result, ["id", "back", "state"])
    if not faults and (result["id"], result["back"], result["state"]) != (0, ["ü", [0, 255]], "closed"):
        faults.append(f"the program's channel: {result}")
    return faults


def free_port():
    with socket.socket(socket.AF_INET, socket.SOCK_DGRAM) as it:
        it.bind(("127.0.0.1", 0))
        return it.getsockname()[1]


async def main(browser, room):
    serve.on_loopback()
    asyncio.get_running_loop().add_signal_handler(signal.SIGTERM, asyncio.current_task().cancel)  # so that the browser ends, too
    begun = time.monotonic()
    faults, figures = await program(browser, room, [opened_by_program])
    print(f"program: {time.monotonic() - begun:.1f} s, {'as wanted' if not faults else 'NOT as wanted'}: {figures}")
    for fault in faults:
        print("    " + fault)
    return 1 if faults else 0


if __name__ == "__main__":
    sys.exit(asyncio.run(main(*sys.argv[1:])))
