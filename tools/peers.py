"""What try_page, try_clients and soak share: the server that they start, a client that knows the protocol's messages and no more, and a browser."""
import asyncio
import base64
import contextlib
import json
import os
import socket
import subprocess
import sys
import tempfile
import urllib.parse
import urllib.request

import websockets

TOP = os.path.realpath(os.path.dirname(os.path.dirname(os.path.abspath(__file__))))


def free_port():
    with socket.socket() as it:
        it.bind(("127.0.0.1", 0))
        return it.getsockname()[1]


def check(what, found, wanted):
    """Prints what was looked at; what isn't so ends the script."""
    print(f"{'ok' if found == wanted else 'NOT SO'}: {what}: {found}", flush=True)
    if found != wanted:
        sys.exit(f"wanted: {wanted}")


def todo():
    """The application of examples/todo.jsonl."""
    with open(f"{TOP}/examples/todo.jsonl", encoding="utf-8") as it:
        return it.readline()


class Server:
    """A program that was started as `PROGRAM serve PORT CONNECTIONS`, and listens."""

    def __init__(self, port, process):
        self.port, self.process, self.url = port, process, f"ws://127.0.0.1:{port}/websocket"

    async def tell(self):
        async for line in self.process.stderr:
            print("server:", line.decode().rstrip(), file=sys.stderr)

    def status(self, name):
        """A number of /proc, as `VmRSS` in kB or `Threads`."""
        with open(f"/proc/{self.process.pid}/status") as it:
            return next(int(line.split()[1]) for line in it if line.startswith(name + ":"))

    def descriptors(self):
        return len(os.listdir(f"/proc/{self.process.pid}/fd"))


@contextlib.asynccontextmanager
async def serving(program, application, connections=65535, before=()):
    port = free_port()
    words = [*before, program, "serve", str(port), str(connections)]
    process = await asyncio.create_subprocess_exec(*words, stdin=subprocess.PIPE, stderr=subprocess.PIPE)
    server = Server(port, process)
    try:
        process.stdin.write(application.encode())
        process.stdin.close()
        line = (await asyncio.wait_for(process.stderr.readline(), 30)).decode().strip()
        if server.url not in line:
            sys.exit(f"the server says {line!r} in place of {server.url}")
        telling = asyncio.ensure_future(server.tell())
        yield server
        telling.cancel()
    finally:
        if process.returncode is None:
            process.terminate()
            await process.wait()


class Client:
    """Folds what the server sends into documents, by collection and id, and notes what can't be."""

    def __init__(self, link):
        self.link, self.docs, self.calls, self.subs, self.number, self.wrong, self.others = link, {}, {}, {}, 0, [], asyncio.Queue()

    @classmethod
    async def open(cls, url, **more):
        it = cls(await websockets.connect(url, max_size=None, **more))
        await it.say(msg="connect", version="1", support=["1"])
        it.session = json.loads(await asyncio.wait_for(it.link.recv(), 30))["session"]
        it.hearing = asyncio.ensure_future(it.hear())
        return it

    async def say(self, **message):
        await self.link.send(json.dumps(message))

    async def hear(self):
        with contextlib.suppress(websockets.ConnectionClosed):
            async for text in self.link:
                self.take(json.loads(text))

    async def sub(self, name, *params):
        """Subscribes, and waits for `ready`, or for `nosub`, whose error is the answer."""
        self.number += 1
        id = f"s{self.number}"
        self.subs[id] = asyncio.get_running_loop().create_future()
        await self.say(msg="sub", id=id, name=name, params=params)
        return await asyncio.wait_for(self.subs[id], 60)

    async def call(self, method, *params):
        """Calls a method, and waits for `result` and `updated`; the answer is the message `result`."""
        self.number += 1
        id = str(self.number)
        self.calls[id] = [asyncio.get_running_loop().create_future(), None]
        await self.say(msg="method", id=id, method=method, params=params)
        return await asyncio.wait_for(self.calls[id][0], 60)

    def take(self, m):
        kind = m["msg"]
        key = (m.get("collection"), m.get("id"))
        if kind == "added" and key not in self.docs:
            self.docs[key] = m.get("fields", {})
        elif kind == "changed" and key in self.docs:
            for name in m.get("cleared", []):
                del self.docs[key][name]
            self.docs[key].update(m.get("fields", {}))
        elif kind == "removed" and key in self.docs:
            del self.docs[key]
        elif kind == "ready":
            for id in m["subs"]:
                self.subs.pop(id).set_result(None)
        elif kind == "nosub" and m["id"] in self.subs:
            self.subs.pop(m["id"]).set_result(m.get("error"))
        elif kind == "result" and m["id"] in self.calls:
            self.calls[m["id"]][1] = m
        elif kind == "updated" and all(self.calls.get(id, [0, 0])[1] for id in m["methods"]):
            for id in m["methods"]:
                done, answer = self.calls.pop(id)
                done.set_result(answer)
        elif kind in ("added", "changed", "removed", "result", "updated"):
            self.wrong.append(m)
        else:
            self.others.put_nowait(m)

    async def other(self):
        """The next message that is no answer and no data."""
        return await asyncio.wait_for(self.others.get(), 30)

    async def close(self):
        await self.link.close()
        self.hearing.cancel()


class Tab:
    """A page in a browser, over the browser's debugging protocol."""

    def __init__(self, link):
        self.link, self.number = link, 0

    async def ask(self, method, **params):
        self.number += 1
        await self.link.send(json.dumps({"id": self.number, "method": method, "params": params}))
        while True:
            told = json.loads(await asyncio.wait_for(self.link.recv(), 60))
            if told.get("id") == self.number:
                return told["result"]

    async def run(self, text):
        """What a text of JavaScript comes to; a promise is waited for. None where it throws."""
        told = await self.ask("Runtime.evaluate", expression=text, awaitPromise=True, returnByValue=True)
        return None if "exceptionDetails" in told else told["result"].get("value")

    async def shows(self, what, text, wanted, seconds=5):
        found = None
        for _ in range(seconds * 50):
            found = await self.run(text)
            if found == wanted:
                break
            await asyncio.sleep(0.02)
        check(what, found, wanted)

    async def picture(self, path):
        await self.ask("Page.bringToFront")
        shot = await self.ask("Page.captureScreenshot", format="png")
        with open(path, "wb") as it:
            it.write(base64.b64decode(shot["data"]))


class Browser:
    def __init__(self, port):
        self.port = port

    async def open(self, url):
        asked = urllib.request.Request(f"http://127.0.0.1:{self.port}/json/new?{urllib.parse.quote(url, safe=':/?=')}", method="PUT")
        told = json.load(urllib.request.urlopen(asked))
        return Tab(await websockets.connect(told["webSocketDebuggerUrl"], max_size=None, ping_interval=None))


@contextlib.asynccontextmanager
async def browsing(width=640, height=520):
    """A headless Chromium."""
    port = free_port()
    with tempfile.TemporaryDirectory(ignore_cleanup_errors=True) as room:
        words = ["chromium", "--headless=new", "--no-sandbox", "--disable-gpu", "--no-first-run", "--disable-background-networking"]
        words += [f"--user-data-dir={room}", f"--remote-debugging-port={port}", f"--window-size={width},{height}", "about:blank"]
        process = subprocess.Popen(words, stderr=subprocess.DEVNULL, env={**os.environ, "TMPDIR": room})
        try:
            for _ in range(300):
                with socket.socket() as it:
                    if it.connect_ex(("127.0.0.1", port)) == 0:
                        break
                await asyncio.sleep(0.1)
            yield Browser(port)
        finally:
            process.terminate()
            process.wait()
