#!/usr/bin/env python3
"""Looks at the page of rudderraisin_status in Chromium, by hand: of a lobby without users, of one whose players write
what no page should take as HTML, and of one with many users and battles; says how long a change takes to show and what
the page costs; then stops and starts the server and the page's program, and sees that the page says so and comes back.
Leaves pictures to look at in a folder.

    checks/status_page.py FOLDER [USERS [BATTLES]]

They are 2000 and 300 if left out. $LOBBY_MAIN names the server's program; the Python package is the repository's, and
$LIBLOBBY names its library, if that is not bin/liblobby.so. It wants Debian's chromium, and `ulimit -n 8192`."""
import asyncio
import base64
import contextlib
import json
import os
import resource
import statistics
import subprocess
import sys
import tempfile
import threading
import time
import urllib.request
from pathlib import Path

from lobby_server import ADDRESS, PATIENCE, ROOT, Account, Difference, Server, free_port, run

WIDE, PHONE = (1280, 900), (390, 844)
# Members of a battle beside its founder.
MEMBERS = 5
TITLES = [
    "<script>document.title='taken'</script>",
    "<img src=x onerror=\"document.title='taken'\">",
    "\"quotes\" 'single' &amp; &lt;b&gt; </title></script><!--",
    "W" * 300,
    "\u202eright to left \u202eoverride",
    "\u05e9\u05dc\u05d5\u05dd \u2066 \u0645\u0631\u062d\u0628\u0627",
    "",
    "nul \x00 escape \x1b[31m tail",
    "Zalgo " + "e\u0301\u0302\u0303\u0304\u0306\u0307\u0308" * 8,
]


class Browser:
    """Chromium without a window, told what to do by its pipe."""

    def __init__(self, room):
        self.to, said = os.pipe(), os.pipe()
        read_end, write_end = self.to[0], said[1]

        def take_pipes():
            os.dup2(os.dup(read_end), 3)
            os.dup2(os.dup(write_end), 4)
        words = ["chromium", "--headless=new", "--no-sandbox", "--disable-gpu", "--remote-debugging-pipe",
                 "--no-first-run", f"--user-data-dir={room}/browser", "about:blank"]
        self.process = subprocess.Popen(words, preexec_fn=take_pipes, pass_fds=(3, 4, read_end, write_end),
                                        stdout=subprocess.DEVNULL, stderr=subprocess.DEVNULL)
        os.close(read_end)
        os.close(write_end)
        self.answers, self.number, self.rest = {}, 0, b""
        self.said = said[0]
        target = self.ask("Target.createTarget", url="about:blank")["targetId"]
        self.session = self.ask("Target.attachToTarget", targetId=target, flatten=True)["sessionId"]

    session = None

    def send(self, method, **parameters):
        self.number += 1
        message = {"id": self.number, "method": method, "params": parameters}
        if self.session:
            message["sessionId"] = self.session
        os.write(self.to[1], json.dumps(message).encode() + b"\0")
        return self.number

    def answer(self, number):
        while number not in self.answers:
            while b"\0" not in self.rest:
                piece = os.read(self.said, 1 << 20)
                if not piece:
                    raise Difference("the browser has ended")
                self.rest += piece
            one, _, self.rest = self.rest.partition(b"\0")
            it = json.loads(one)
            if "id" in it:
                self.answers[it["id"]] = it
        it = self.answers.pop(number)
        if "error" in it or "exceptionDetails" in it["result"]:
            raise Difference(f"the browser says: {it}")
        return it["result"]

    def ask(self, method, **parameters):
        return self.answer(self.send(method, **parameters))

    def value(self, expression):
        """What an expression comes to in the page; a promise, once it is kept."""
        return self.kept(self.send_value(expression))

    def send_value(self, expression):
        """Asks for it, and gives the number of the answer."""
        return self.send("Runtime.evaluate", expression=expression, returnByValue=True, awaitPromise=True)

    def kept(self, number):
        return self.answer(number)["result"].get("value")

    def go(self, url, wanted):
        """Goes to a page, which may not be there yet, and waits until this is true of it. What is asked of the page
        before is lost."""
        for turn in range(150):
            if turn % 30 == 0:
                self.ask("Page.navigate", url=url)
            time.sleep(0.1)
            with contextlib.suppress(Difference):
                if self.value(wanted):
                    return
        raise Difference(f"{url} does not come to {wanted}")

    def show(self, size, is_phone=False, scheme="light"):
        self.ask("Emulation.setDeviceMetricsOverride", width=size[0], height=size[1],
                 deviceScaleFactor=2 if is_phone else 1, mobile=is_phone)
        self.ask("Emulation.setEmulatedMedia", features=[{"name": "prefers-color-scheme", "value": scheme}])

    def picture(self, file):
        time.sleep(0.3)
        file.write_bytes(base64.b64decode(self.ask("Page.captureScreenshot", format="png")["data"]))

    def close(self):
        self.process.kill()
        self.process.wait()


def becomes_true(expression):
    """An expression that is kept once another is true, with the time of that in seconds."""
    return ("new Promise(kept => { const look = () => { if (!(" + expression + ")) return false; "
            "kept((performance.timeOrigin + performance.now()) / 1000); return true; }; "
            "if (!look()) { const eye = new MutationObserver(() => { if (look()) eye.disconnect(); }); "
            "eye.observe(document, { subtree: true, childList: true, characterData: true, attributes: true }); } })")


class Bot(asyncio.Protocol):
    """A client that reads all and keeps the end of it."""

    def connection_made(self, transport):
        self.transport, self.tail, self.awaited = transport, b"", None

    def data_received(self, data):
        self.tail = (self.tail + data)[-400:]
        if self.awaited and b"#7 PONG\n" in self.tail:
            self.awaited.set_result(None)
            self.awaited, self.tail = None, b""

    async def say(self, text):
        """Says it, and waits until the server has answered all of it."""
        self.awaited = asyncio.get_running_loop().create_future()
        self.transport.write(text.encode() + b"#7 PING\n")
        await asyncio.wait_for(self.awaited, PATIENCE)


class Crowd:
    """Clients of a server, in a thread of their own."""

    def __init__(self, port):
        self.port, self.bots = port, []
        self.loop = asyncio.new_event_loop()
        threading.Thread(target=self.loop.run_forever, daemon=True).start()

    def do(self, what):
        return asyncio.run_coroutine_threadsafe(what, self.loop).result(600)

    async def _enter(self, accounts):
        for it in accounts:
            _, bot = await self.loop.create_connection(Bot, ADDRESS, self.port)
            await bot.say(it.login())
            self.bots.append(bot)

    def enter(self, accounts):
        self.do(self._enter(accounts))

    def say(self, number, text):
        self.do(self.bots[number].say(text))

    def leave(self):
        async def left():
            for it in self.bots:
                it.transport.abort()
        self.do(left())
        self.bots = []


class Page:
    """The program of the page."""

    def __init__(self, room, port):
        self.port = free_port()
        (room / "password").write_text("password\n")
        words = [sys.executable, "-m", "rudderraisin.page", "--user", "Page", "--password-file", str(room / "password"),
                 "--server", f"{ADDRESS}:{port}", "--listen", f"{ADDRESS}:{self.port}", "--title", "Our <b>lobby</b>"]
        library = os.environ.get("LIBLOBBY") or str(ROOT / "bin/liblobby.so")
        self.environment = {**os.environ, "PYTHONPATH": str(ROOT / "python"), "PYTHONDONTWRITEBYTECODE": "1",
                            "LIBLOBBY": library}
        self.words = words
        self.start()

    def start(self):
        self.process = subprocess.Popen(self.words, env=self.environment)

    def stop(self):
        self.process.terminate()
        if self.process.wait(PATIENCE):
            raise Difference(f"the page's program ends with status {self.process.returncode}")

    def get(self, path, *headers):
        asked = urllib.request.Request(f"http://{ADDRESS}:{self.port}{path}", headers=dict(headers))
        with urllib.request.urlopen(asked, timeout=PATIENCE) as answer:
            return answer.read()

    def cost(self):
        """Seconds of a processor, and megabytes."""
        fields = Path(f"/proc/{self.process.pid}/stat").read_text().rpartition(")")[2].split()
        pages = int(Path(f"/proc/{self.process.pid}/statm").read_text().split()[1])
        return (int(fields[11]) + int(fields[12])) / os.sysconf("SC_CLK_TCK"), pages * resource.getpagesize() / 1e6


def accounts(users):
    countries = ("DE", "FR", "??")
    return [Account("Page", 0), *(Account(f"user{it}", it, it % 8, countries[it % 3]) for it in range(1, users + 1))]


def pictures(browser, folder, name):
    """Pictures of both widths, where nothing stands out of the page to the right."""
    for kind, size in (("wide", WIDE), ("phone", PHONE)):
        browser.show(size, kind == "phone")
        browser.picture(folder / f"{name}_{kind}.png")
        found = browser.value("[document.documentElement.scrollWidth, innerWidth]")
        if found[0] > size[0]:
            raise Difference(f"{name}: the page is {found[0]} wide at {size[0]}")
    browser.show(WIDE)


def opened(title, map_name="Delta Siege", most=16):
    return f"OPENBATTLE 0 0 * 8452 {most} 7 0 9 Recoil\t105.1\t{map_name}\t{title}\tBalanced Annihilation 12\n"


def look_at_hostile(browser, crowd, folder):
    """Battles with such titles: each is shown as it was written, and nothing of it ran."""
    for number, title in enumerate(TITLES):
        crowd.say(number, opened(title, title[:200] or "x"))
    crowd.say(len(TITLES), "JOIN main\n")
    browser.value(becomes_true(f"document.querySelectorAll('#battles li').length === {len(TITLES)}"))
    shown = browser.value("[...document.querySelectorAll('#battles h3 bdi')].map(it => it.textContent)")
    if sorted(shown) != sorted(it or "(no title)" for it in TITLES):
        raise Difference(f"the titles are shown as {shown}")
    inside = browser.value("[document.title, document.querySelectorAll('script, img, b:not([data-count])').length]")
    if inside != ["Our <b>lobby</b>", 1]:
        raise Difference(f"a title became HTML: {inside}")
    browser.value(becomes_true("document.querySelector('#channels li')"))
    pictures(browser, folder, "hostile")
    browser.show((PHONE[0], 2_400), True)
    browser.picture(folder / "hostile_whole.png")
    browser.show(WIDE)
    for number in range(len(TITLES)):
        crowd.say(number, "LEAVEBATTLE\n")


def fill(crowd, users, battles):
    for number in range(battles):
        crowd.say(number, opened(f"Game {number + 1}: all welcome", f"Map number {number % 40}"))
    # The battles before these had the first numbers.
    first = len(TITLES) + 1
    for number in range(battles, users):
        if number - battles < MEMBERS * battles:
            crowd.say(number, f"JOINBATTLE {first + (number - battles) % battles}\n")
        crowd.say(number, f"JOIN channel{number % 20}\n")
    for number in range(0, battles, 3):
        crowd.say(number, "MYSTATUS 1\n")


def time_changes(browser, crowd, users):
    """How long it takes in seconds from a client's line to the page that shows it, on a quiet lobby."""
    took = []
    for number in range(users - 20, users):
        name = f"user{number + 1}"
        found = f"[...document.querySelectorAll('#users li')].find(it => it.firstChild.textContent === '{name}')"
        number_of = browser.send_value(becomes_true(f"{found}.textContent.includes('away')"))
        time.sleep(1)
        begun = time.time()
        crowd.say(number, "MYSTATUS 2\n")
        took.append(browser.kept(number_of) - begun)
    return took


def measure(browser, crowd, page, users):
    """Says how long a change takes to show, and what the page costs while users set their status."""
    took = sorted(time_changes(browser, crowd, users))
    print(f"a change shows behind {statistics.median(took) * 1000:.0f} ms, {took[-1] * 1000:.0f} at most of {len(took)}")
    whole, packed = page.get("/status.json"), page.get("/status.json", ("Accept-Encoding", "gzip"))
    print(f"status.json has {len(whole)} bytes, packed {len(packed)}")
    for rate in (0, 20, 200):
        before, begun, turn = page.cost()[0], time.monotonic(), 0
        while time.monotonic() < begun + 10:
            if rate:
                crowd.say(turn % users, f"MYSTATUS {turn // users % 2 * 2 + turn % 2}\n")
            turn += 1
            time.sleep(max(0.0, begun + turn / max(rate, 1) - time.monotonic()))
        spent, memory = page.cost()
        seconds = time.monotonic() - begun
        print(f"{turn * bool(rate) / seconds:.0f} statuses a second change: "
              f"{(spent - before) / seconds * 100:.1f} percent of a processor, {memory:.0f} MB")


def state(browser, wanted):
    browser.value(becomes_true(f"/{wanted}/.test(document.getElementById('state').textContent)"))


def go_and_come_back(browser, server, page, folder, everyone):
    """The server stops and comes back at its port, and then the page's program."""
    server.stop()
    state(browser, "The lobby has been away since")
    pictures(browser, folder, "server_gone")
    with Server(1, everyone, port=server.port) as again:
        state(browser, "Live")
        page.stop()
        state(browser, "This page is not renewed")
        pictures(browser, folder, "page_gone")
        page.start()
        state(browser, "Live")
        return again.port


def check(folder, users="2000", battles="300"):
    folder, users, battles = Path(folder), int(users), int(battles)
    folder.mkdir(parents=True, exist_ok=True)
    everyone = accounts(users)
    with tempfile.TemporaryDirectory(prefix="lobby-page-") as room, Server(1, everyone) as server:
        page, browser, crowd = Page(Path(room), server.port), Browser(room), Crowd(server.port)
        try:
            browser.show(WIDE)
            browser.go(f"http://{ADDRESS}:{page.port}/", "document.getElementById('state').textContent === 'Live'")
            pictures(browser, folder, "empty")
            crowd.enter(everyone[1:20])
            look_at_hostile(browser, crowd, folder)
            crowd.enter(everyone[20:])
            fill(crowd, users, battles)
            browser.value(becomes_true(f"document.querySelectorAll('#battles li').length === {battles}"))
            pictures(browser, folder, "crowd")
            browser.show(PHONE, True, "dark")
            browser.picture(folder / "crowd_dark.png")
            browser.value("document.querySelector('#users').scrollIntoView()")
            browser.picture(folder / "crowd_users.png")
            browser.show(WIDE)
            measure(browser, crowd, page, users)
            crowd.leave()
            go_and_come_back(browser, server, page, folder, everyone)
        finally:
            browser.close()
            page.process.kill()
    print(f"status_page: pictures are in {folder}")


if __name__ == "__main__":
    run(check, sys.argv[1:])
