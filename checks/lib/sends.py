"""The ways in which a page may send something to a server, all but opening another page and WebRTC,
which no policy stops; and a server on this machine that writes down by which it was reached."""
import http.server
import json
import threading
import time
from pathlib import Path

SECONDS, MOST = 2.0, 20.0       # that the last way may take, and that ways may which are wanted
# Of each way a script; `at` is the server's address with the way's name
WAYS = {
    "fetch": "fetch(at, { mode: 'no-cors', method: 'POST', body: 'x' })",
    "request": "new XMLHttpRequest().open('GET', at); const it = new XMLHttpRequest(); "
               "it.open('GET', at); it.send()",
    "image": "new Image().src = at",
    "socket": "new WebSocket(at.replace('http', 'ws'))",
    "events": "new EventSource(at)",
    "beacon": "navigator.sendBeacon(at, 'x')",
    "form": "add('iframe', { name: 'it' }); "
            "add('form', { action: at, target: 'it', method: 'POST' }).submit()",
    "frame": "add('iframe', { src: at })",
    "object": "add('object', { data: at })",
    "embed": "add('embed', { src: at })",
    "audio": "add('audio', { src: at, preload: 'auto' })",
    "video": "add('video', { poster: at, src: at + '-2' })",
    "script": "add('script', { src: at })",
    "import": "import(at).catch(() => {})",
    "style": "add('link', { rel: 'stylesheet', href: at })",
    "icon": "add('link', { rel: 'icon', href: at })",
    "prefetch": "add('link', { rel: 'prefetch', href: at })",
    "preload": "add('link', { rel: 'preload', as: 'image', href: at })",
    "rule": "add('style', { textContent: `body { background: url(${at}) }` })",
    "attribute": "add('p', {}).setAttribute('style', `background: url(${at})`)",
    "property": "add('p', { textContent: 'x' }).style.background = `url(${at})`",
    "font": "new FontFace('x', `url(${at})`).load().catch(() => {})",
    "base": "add('base', { href: at + '/' }); add('img', { src: 'x' })",
    "picture": "add('img', { src: URL.createObjectURL(new Blob([`<svg xmlns="
               "'http://www.w3.org/2000/svg'><image href='${at}' width='9' height='9'/></svg>`], "
               "{ type: 'image/svg+xml' })) })",
    "in a worker": "new Worker(URL.createObjectURL(new Blob([`fetch('${at}', { mode: 'no-cors' })`]"
                   ", { type: 'text/javascript' })))",
    "imported in a worker": "new Worker(URL.createObjectURL(new Blob([`importScripts('${at}')`], "
                            "{ type: 'text/javascript' })))",
}
# What the policy names by the words fetch, images, sockets and forms
NAMED = {"fetch", "image", "socket", "form", "in a worker"}
SCRIPT = """(async () => {
  const add = (tag, more) => document.body.appendChild(Object.assign(
    document.createElement(tag), more));
  const ways = {WAYS};
  for (const way of ways) { try { await way(); } catch { } }
  return true;
})()"""


class Listener(http.server.BaseHTTPRequestHandler):
    def do_GET(self) -> None:
        self.server.reached.add(self.path[1:].replace("-", " ").partition("/")[0])
        self.send_error(404)

    do_POST = do_HEAD = do_OPTIONS = do_GET

    def log_message(self, *_) -> None:
        pass


def script(port: int) -> str:
    """A script that tries all ways."""
    ways = []
    for name, body in WAYS.items():
        address = f"http://127.0.0.1:{port}/{name.replace(' ', '-')}"
        ways.append(f"() => {{ const at = {json.dumps(address)}; {body}; }}")
    return SCRIPT.replace("{WAYS}", "[" + ", ".join(ways) + "]")


def reached(browser, page: Path, wanted=frozenset()) -> set:
    """The ways by which a server is reached from this page; those that are wanted get longer."""
    with http.server.ThreadingHTTPServer(("127.0.0.1", 0), Listener) as server:
        server.reached = set()
        threading.Thread(target=server.serve_forever, daemon=True).start()
        browser.open(page)
        browser.value(script(server.server_port))
        time.sleep(SECONDS)
        until = time.monotonic() + MOST
        while wanted - server.reached and time.monotonic() < until:
            time.sleep(0.1)
        server.shutdown()
        return {it for it in server.reached if it in WAYS}
