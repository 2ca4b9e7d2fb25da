#!/usr/bin/env python3
"""Times of edits in a language server beside its first check, on 4,096 classes in 64 files.

Usage: bench/lsp.py PROGRAM [RUNS]

PROGRAM is a built nullcheck_lsp. A client opens the folder of each program of bench/recheck.py, waits until it is checked, opens the middle file and edits one
body by ranges, edit by edit. Behind each message it asks a request that isn't known; since messages are answered in their order, the time until the refusal
comes is what the message took. Each session is run RUNS times (3), and the best time of each step counts. That what was published last is what a fresh
server publishes is held against one at the end.
"""
import json
import os
import subprocess
import sys
import tempfile
import time

import recheck


class Client:
    """A client of a running server."""

    def __init__(self, program, folder):
        self.server = subprocess.Popen([program], stdin=subprocess.PIPE, stdout=subprocess.PIPE, stderr=subprocess.DEVNULL)
        self.folder, self.asked, self.published = folder, 0, {}
        self.request("initialize", {"processId": None, "rootUri": self.uri(""), "capabilities": {}})

    def uri(self, name):
        return "file://" + os.path.join(self.folder, name).rstrip("/")

    def send(self, **message):
        body = json.dumps({"jsonrpc": "2.0", **message}).encode()
        self.server.stdin.write(b"Content-Length: %d\r\n\r\n%b" % (len(body), body))
        self.server.stdin.flush()

    def receive(self):
        length = 0
        while line := self.server.stdout.readline().strip():
            if line.lower().startswith(b"content-length:"):
                length = int(line.split(b":")[1])
        if length == 0:
            sys.exit("the server ended")
        return json.loads(self.server.stdout.read(length))

    def wait(self):
        """Takes what comes until the last request is answered."""
        while True:
            message = self.receive()
            if message.get("method") == "textDocument/publishDiagnostics":
                self.published[message["params"]["uri"]] = message["params"]["diagnostics"]
            elif message.get("id") == self.asked:
                return message

    def request(self, method, params):
        self.asked += 1
        self.send(id=self.asked, method=method, params=params)
        return self.wait()

    def timed(self, method, params):
        """Sends a notification, and gives the seconds until it was taken."""
        before = time.perf_counter()
        self.send(method=method, params=params)
        self.request("bench/none", {})
        return time.perf_counter() - before

    def end(self):
        self.request("shutdown", None)
        self.send(method="exit")
        self.server.wait()

    def told(self):
        return {uri: told for uri, told in self.published.items() if told}


def whole(before, after):
    """The change of a text to another as one range: lines and units of UTF-16, which are characters here."""
    front = os.path.commonprefix([before, after])
    back = os.path.commonprefix([before[len(front):][::-1], after[len(front):][::-1]])
    end = len(before) - len(back)

    def place(at):
        return {"line": before.count("\n", 0, at), "character": at - (before.rfind("\n", 0, at) + 1)}

    return {"range": {"start": place(len(front)), "end": place(end)}, "text": after[len(front):len(after) - len(back)]}


def session(program, folder, edited, texts):
    """The times of a session's steps: the first check, the opening, each edit; and what was published last."""
    client = Client(program, folder)
    times = [client.timed("initialized", {})]
    document = {"uri": client.uri(edited), "version": 0}
    times.append(client.timed("textDocument/didOpen", {"textDocument": {**document, "languageId": "java", "text": texts[0]}}))
    for before, after in zip(texts, texts[1:]):
        times.append(client.timed("textDocument/didChange", {"textDocument": document, "contentChanges": [whole(before, after)]}))
    told = client.told()
    client.end()
    return times, told


def main(program, runs):
    program = os.path.abspath(program)
    print(f"{'program':10} {'first check':>12} {'opening':>8} {'an edit':>8} {'share':>6}")
    for name, (shape, body) in recheck.PROGRAMS.items():
        with tempfile.TemporaryDirectory() as folder:
            for file in range(recheck.FILES):
                recheck.write(folder, f"F{file:02}.java", recheck.text(shape, body, file))
            middle = recheck.FILES // 2
            edited = f"F{middle:02}.java"
            texts = [recheck.text(shape, body, middle)] + recheck.edits_of(name, "a body")
            best, told = None, None
            for _ in range(runs):
                times, told = session(program, folder, edited, texts)
                best = times if best is None else [min(pair) for pair in zip(best, times)]
            recheck.write(folder, edited, texts[-1])
            if session(program, folder, edited, [texts[-1]])[1] != told:
                sys.exit(f"{name}: what was published last isn't what a fresh server publishes")
            edit = sum(best[2:]) / len(best[2:])
            print(f"{name:10} {best[0]:12.3f} {best[1]:8.3f} {edit:8.3f} {edit / best[0]:6.2f}")


if __name__ == "__main__":
    if len(sys.argv) not in (2, 3):
        print(__doc__, file=sys.stderr)
        sys.exit(64)
    main(sys.argv[1], int(sys.argv[2]) if len(sys.argv) == 3 else 3)
