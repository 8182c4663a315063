"""The trials of tests/webrtc.sh, one line for each: its name, seconds, and what came of it. run.py PEER FOLDER [TRIAL ..]"""

import asyncio
import signal
import sys
import time

import bridged
import odd
import trials
import with_aiortc
from browser import serve

MEGABYTE = 1_000_000


def of_browser(browser, room):
    return {
        "kinds": lambda: trials.kinds(browser, room),
        "kinds-server": lambda: trials.kinds(browser, room, server=True),
        "buttons": lambda: trials.buttons(browser, room),
        "file-0": lambda: trials.file(browser, room, 0, MEGABYTE),
        "file-1": lambda: trials.file(browser, room, 0.01, MEGABYTE),
        "file-5": lambda: trials.file(browser, room, 0.05, MEGABYTE),
        "file-10MB": lambda: trials.file(browser, room, 0, 10 * MEGABYTE),
        "file-whole": lambda: trials.file(browser, room, 0, 3 << 20, whole="yes"),
        "limited-5": lambda: trials.limited(browser, room, 0.05),
        "many": lambda: trials.many(browser, room, 0, 20, 200),
        "many-1": lambda: trials.many(browser, room, 0.01, 3, 200),
        "odd": lambda: odd.at_page(browser, room),
        "program": lambda: bridged.program(browser, room),
        "abort": lambda: trials.ends(browser, room),
        "leave": lambda: trials.leaves(browser, room),
    }


def of_firefox(room):
    """It offers I-DATA, too."""
    return {
        "idata-kinds": lambda: trials.kinds("firefox", room, peer=trials.Interleaving),
        "idata-file-5": lambda: trials.file("firefox", room, 0.05, MEGABYTE, peer=trials.Interleaving),
    }


def of_aiortc():
    return {
        "aiortc-kinds": with_aiortc.kinds,
        "aiortc-file-0": lambda: with_aiortc.file(0, MEGABYTE),
        "aiortc-file-1": lambda: with_aiortc.file(0.01, MEGABYTE),
        "aiortc-file-5": lambda: with_aiortc.file(0.05, MEGABYTE),
        "aiortc-many": lambda: with_aiortc.many(100),
        "aiortc-odd-to-ours": with_aiortc.odd_to_ours,
        "aiortc-odd-to-theirs": with_aiortc.odd_to_theirs,
    }


async def main(peer, room, *names):
    serve.on_loopback()
    asyncio.get_running_loop().add_signal_handler(signal.SIGTERM, asyncio.current_task().cancel)  # so that the browser ends, too
    all_trials = {**(of_browser(peer, room) if peer != "aiortc" else {}), **(of_firefox(room) if peer == "firefox" else {}), **of_aiortc()}
    failed = 0
    for name in names or all_trials:
        begun = time.monotonic()
        faults, figures = await all_trials[name]()
        failed += bool(faults)
        print(f"{name}: {time.monotonic() - begun:.1f} s, {'as wanted' if not faults else 'NOT as wanted'}{figures and ': '}{figures}", flush=True)
        for fault in faults:
            print("    " + fault, flush=True)
    print(f"{len(names or all_trials)} trials, {failed or 'none'} failed")
    return 1 if failed else 0


if __name__ == "__main__":
    sys.exit(asyncio.run(main(*sys.argv[1:])))
