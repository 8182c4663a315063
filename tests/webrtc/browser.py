"""A browser without a screen, whose page is that of examples/webrtc followed by drive.js; and the trials of that page."""

import asyncio
import json
import os
import pathlib
import shutil
import signal
import subprocess
import sys

HERE = pathlib.Path(__file__).resolve().parent
sys.path[:0] = [str(HERE.parent.parent / "examples" / "webrtc")]

import serve  # noqa: E402
from carrier import Network  # noqa: E402

CHROMIUM = ["--headless=new", "--no-sandbox", "--disable-gpu", "--no-first-run", "--disable-background-networking", "--disable-component-update",
            "--disable-background-timer-throttling", "--disable-renderer-backgrounding", "--allow-loopback-in-peer-connection",
            "--use-fake-ui-for-media-stream"]
FIREFOX = {"media.peerconnection.ice.loopback": True, "media.peerconnection.ice.obfuscate_host_addresses": False,
           "media.peerconnection.ice.link_local": False, "permissions.default.microphone": 1, "permissions.default.camera": 1, "app.update.enabled": False, "datareporting.policy.dataSubmissionEnabled": False,
           "toolkit.telemetry.reportingpolicy.firstRun": False, "network.captive-portal-service.enabled": False,
           "network.connectivity-service.enabled": False, "browser.shell.checkDefaultBrowser": False}


def command(browser, folder, url):
    """The words that start a browser with this page, and a profile in a folder of its own."""
    if browser == "chromium":
        return ["chromium", *CHROMIUM, f"--user-data-dir={folder}", url]
    lines = [f"user_pref({json.dumps(name)}, {json.dumps(value)});\n" for name, value in FIREFOX.items()]
    folder.mkdir(exist_ok=True)
    (folder / "user.js").write_text("".join(lines))
    return ["firefox-esr", "--headless", "--no-remote", "--profile", str(folder), url]


class Trial(serve.Peers):
    """One run of a browser: the page tries what `words` ask for, and reports by `/done`. What the endpoint reported is kept by `programs`."""

    def __init__(self, lost=0.0, seed=1, server=False, program=None, peer=None, loud=False):
        """`program` and `peer` are those of examples/webrtc if there are none: they are imported then, and load this library."""
        self.programs, self.loud, self.done = [], loud, asyncio.get_running_loop().create_future()
        super().__init__(lambda: self.endpoint(peer, program, network=Network(lost, seed), server=server, loopback=True))

    def endpoint(self, peer, program, **how):
        if peer is None:
            from peer import Peer as peer
        if program is None:
            from program import Program as program
        self.programs.append(program(self.say))
        return peer(self.programs[-1], **how)

    def say(self, text):
        if self.loud:
            print("  endpoint:", text, flush=True)

    def pages(self):
        return {**super().pages(), "/drive.js": self.script, "/say": self.said, "/done": self.finish}

    async def page(self, query, body):
        kind, text = await super().page(query, body)
        return kind, text + '<script src="/drive.js"></script>'

    async def script(self, query, body):
        return "text/javascript", (HERE / "drive.js").read_text()

    async def said(self, query, body):
        if self.loud:
            print("  page:", body, flush=True)
        return "text/plain", ""

    async def finish(self, query, body):
        if not self.done.done():
            self.done.set_result(json.loads(body))
        return "text/plain", ""

    async def run(self, browser, words, room, limit=120):
        """Starts the browser, and returns what the page reports; ends the browser."""
        site = serve.Site(self.pages(), 0)
        folder = pathlib.Path(room) / f"profile-{site.port}"
        with open(pathlib.Path(room) / "browser.err", "a") as errors:
            process = subprocess.Popen(command(browser, folder, f"http://127.0.0.1:{site.port}/?{words}"), stdout=errors, stderr=errors,
                                       start_new_session=True)
        try:
            return await asyncio.wait_for(self.done, limit)
        except asyncio.TimeoutError:
            return {"fault": f"nothing reported after {limit} s"}
        finally:
            site.http.shutdown()
            site.http.server_close()
            end(process)
            shutil.rmtree(folder, ignore_errors=True)


def end(process):
    """Ends a browser and the processes that it started."""
    for what in (signal.SIGTERM, signal.SIGKILL):
        try:
            os.killpg(process.pid, what)
            process.wait(5)
        except (ProcessLookupError, subprocess.TimeoutExpired):
            pass
