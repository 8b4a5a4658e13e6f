"""Stands before a bank and keeps the body of each request, which it hands on as it came."""
import threading
import urllib.error
import urllib.request
from http.server import BaseHTTPRequestHandler, ThreadingHTTPServer

from served.server import MAX_SECONDS


class Recorder:
    """A recorder before the bank at a URL, on a free port. `bodies` has what came, in order."""

    def __init__(self, bank):
        self.bodies = []
        self.server = ThreadingHTTPServer(("127.0.0.1", 0), handler(bank, self.bodies))
        self.port = self.server.server_address[1]
        threading.Thread(target=self.server.serve_forever, daemon=True).start()

    def url(self):
        return "http://127.0.0.1:%d/ofx" % self.port

    def taken(self):
        """The bodies that came since this was asked last."""
        some, self.bodies[:] = list(self.bodies), []
        return some

    def stop(self):
        self.server.shutdown()
        self.server.server_close()


def handler(bank, bodies):
    class Handler(BaseHTTPRequestHandler):
        def do_POST(self):
            body = self.rfile.read(int(self.headers["Content-Length"]))
            bodies.append(body)
            code, kind, reply = answer(bank, body)
            self.send_response(code)
            self.send_header("Content-Type", kind)
            self.send_header("Content-Length", str(len(reply)))
            self.end_headers()
            self.wfile.write(reply)

        def log_message(self, *_):
            pass

    return Handler


def answer(bank, body):
    """What the bank answers to a body: the code, the type and the body."""
    try:
        with urllib.request.urlopen(urllib.request.Request(bank, body), timeout=MAX_SECONDS) as reply:
            return reply.status, reply.headers["Content-Type"], reply.read()
    except urllib.error.HTTPError as refused:
        return refused.code, refused.headers["Content-Type"] or "text/plain", refused.read()
