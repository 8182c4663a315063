#!/usr/bin/python3
"""A page in a browser talks to an endpoint of this library over WebRTC data channels, and shows the association as it runs.

    apt install python3-aiortc chromium        # aiortc carries the packets: ICE and DTLS; any browser will do
    export SCTP_ENDPOINT_LIBRARY=/opt/sctp_endpoint-0.1.0/lib/libsctp_endpoint.so.1    # docs/C.md, "Install it"; else the loader looks for it
    examples/webrtc/serve.py                   # then open http://127.0.0.1:8080/ in the browser

    --port 8080      the page's port, on the loopback interface
    --page FILE      a page of yours, in place of page.html: docs/CHANNELS.md has its lines
    --lost 5         so many percent of the packets are lost each way, between endpoint and DTLS
    --server         the endpoint is the DTLS server, whose channels have odd numbers; else the client, with even ones
    --loopback       ICE on the loopback interface alone: start Chromium by
                     chromium --allow-loopback-in-peer-connection --use-fake-ui-for-media-stream http://127.0.0.1:8080/

    --program 9899   the endpoint is a program's of yours, at this UDP port of the loopback interface: docs/CHANNELS.md has one in C. This library isn't
                     loaded then. With --server the program passes false as is_dtls_client, else true

page.html is the page, carrier.py ICE and DTLS, peer.py the loop of the endpoint, program.py what is done with its events, bridge.py what carries the
packets of a program of yours, picture.py what the picture shows."""

import argparse
import asyncio
import concurrent.futures
import http.server
import json
import pathlib
import sys
import threading
import urllib.parse

HERE = pathlib.Path(__file__).resolve().parent
sys.path[:0] = [str(HERE), str(HERE.parent.parent / "bindings" / "python")]

from bridge import Bridge  # noqa: E402
from carrier import Network, on_loopback  # noqa: E402
from picture import picture  # noqa: E402


class Site:
    """The page, over HTTP on the loopback interface. `pages` has for each path a coroutine function from query and body to type and text."""

    def __init__(self, pages, port):
        loop = asyncio.get_running_loop()

        class Handler(http.server.BaseHTTPRequestHandler):
            def do_GET(self):
                url = urllib.parse.urlsplit(self.path)
                if url.path not in pages:
                    self.send_error(404)
                    return
                body = self.rfile.read(int(self.headers.get("Content-Length") or 0)).decode()
                answer = pages[url.path](dict(urllib.parse.parse_qsl(url.query)), body)
                try:
                    self.reply(*asyncio.run_coroutine_threadsafe(answer, loop).result())
                except (concurrent.futures.CancelledError, ConnectionError):
                    pass  # the program ends, or the browser has gone

            do_POST = do_GET

            def reply(self, kind, text):
                self.send_response(200)
                self.send_header("Content-Type", kind + "; charset=utf-8")
                self.send_header("Cache-Control", "no-store")
                self.end_headers()
                self.wfile.write(text.encode())

            def log_message(self, *words):
                pass

        self.http = http.server.ThreadingHTTPServer(("127.0.0.1", port), Handler)
        self.port = self.http.server_port
        threading.Thread(target=self.http.serve_forever, daemon=True).start()


class Peers:
    """The browsers that sent an offer, each with what `make` answers: the paths of the page, which is in `file`."""

    def __init__(self, make, file=HERE / "page.html"):
        self.make, self.file, self.all = make, file, []

    async def page(self, query, body):
        return "text/html", self.file.read_text()

    async def offer(self, query, body):
        peer = self.make()
        self.all.append(peer)
        answer = {"peer": len(self.all) - 1, "bridged": isinstance(peer, Bridge), "sdp": await peer.answer(body)}
        return "application/json", json.dumps(answer)

    async def picture(self, query, body):
        return "application/json", json.dumps(picture(self.all[int(query["peer"])], int(query["since"])))

    def pages(self):
        return {"/": self.page, "/offer": self.offer, "/picture": self.picture}


def of_this_library(how):
    """An endpoint of this library, which isn't loaded before."""
    from peer import Peer
    from program import Program

    return lambda: Peer(Program(), **how)


async def main():
    words = argparse.ArgumentParser(description="A page in a browser talks to an endpoint of this library.")
    words.add_argument("--port", type=int, default=8080, help="the page's port, on the loopback interface (8080)")
    words.add_argument("--page", type=pathlib.Path, default=HERE / "page.html", metavar="FILE", help="a page of yours, in place of page.html")
    words.add_argument("--lost", type=float, default=0, metavar="PERCENT", help="of the packets are lost each way, between endpoint and DTLS (0)")
    words.add_argument("--server", action="store_true", help="the endpoint is the DTLS server: is_dtls_client is false; else true")
    words.add_argument("--loopback", action="store_true", help="ICE on the loopback interface alone: docs/CHANNELS.md has the browser's options")
    words.add_argument("--program", type=int, metavar="PORT", help="the endpoint is a program's of yours, at this UDP port of the loopback interface")
    given = words.parse_args()
    if given.loopback:
        on_loopback()
    how = {"network": Network(given.lost / 100), "server": given.server, "loopback": given.loopback}
    peers = Peers((lambda: Bridge(given.program, **how)) if given.program else of_this_library(how), given.page)
    print(f"http://127.0.0.1:{Site(peers.pages(), given.port).port}/", flush=True)
    await asyncio.Event().wait()


if __name__ == "__main__":
    asyncio.run(main())
