"""A folder served at addresses of this machine that are four sites to a browser."""

import threading
from contextlib import ExitStack, contextmanager
from functools import partial
from http.server import SimpleHTTPRequestHandler, ThreadingHTTPServer
from pathlib import Path

SITES = ("127.0.0.1", "127.0.0.2", "127.0.0.3", "127.0.0.4")


class Quiet(SimpleHTTPRequestHandler):
    def log_message(self, *_):
        pass


@contextmanager
def folder(page, wanted):
    """The address of a page while its folder is served; if that is not wanted, the page itself."""
    if not wanted:
        yield page
        return
    page, port = Path(page).resolve(), 0
    answer = partial(Quiet, directory=str(page.parent))
    with ExitStack() as stack:
        for site in SITES:
            server = stack.enter_context(ThreadingHTTPServer((site, port), answer))
            port = server.server_port
            threading.Thread(target=server.serve_forever, daemon=True).start()
            stack.callback(server.shutdown)
        yield "http://%s:%d/%s" % (SITES[0], port, page.name)
