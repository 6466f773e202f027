"""The files of the page and of tests in browsers, served to browsers on this machine."""
import functools
import threading
from contextlib import contextmanager
from http.server import SimpleHTTPRequestHandler, ThreadingHTTPServer

from crates import TOP

SITE = TOP / "build" / "site"
# what the test in a browser returns, once its page is open
CALL = """async (name, ...args) => {
    const made = await import('/test/browser/run.js');
    return made[name](...args);
}"""


class Files(SimpleHTTPRequestHandler):
    """The files of the page, and below /test and /rows those of the tests and of the rows."""

    extensions_map = {**SimpleHTTPRequestHandler.extensions_map,
                      ".js": "text/javascript", ".wasm": "application/wasm"}

    def __init__(self, *args, folders, **more):
        self.folders = folders
        super().__init__(*args, **more)

    def translate_path(self, path):
        for name, folder in self.folders.items():
            if path.startswith(f"/{name}/"):
                self.directory = str(folder)
                return super().translate_path(path.removeprefix(f"/{name}"))
        self.directory = str(SITE)
        return super().translate_path(path)

    def log_message(self, *_):
        """Writes nothing."""


@contextmanager
def served(rows):
    """The address of the files, which are served while the context lasts."""
    folders = {"test": TOP / "bindings" / "web" / "test", "rows": rows}
    handler = functools.partial(Files, folders=folders)
    server = ThreadingHTTPServer(("127.0.0.1", 0), handler)
    threading.Thread(target=server.serve_forever, daemon=True).start()
    try:
        yield f"http://127.0.0.1:{server.server_port}/"
    finally:
        server.shutdown()
