#!/usr/bin/env python3
"""Pictures of the pages that bin/shacl_show writes, by chromium without a window: of the library's report in
light and dark, filtered, sorted, narrow and without scripts, of a script's answers, and of a report of 10,000
results, with the seconds of work that it takes to open it, and how long a filter and a heading take. No part
of the tests; the pictures are to be looked at.

    bench/page_look.py FOLDER
"""
import base64
import json
import os
import subprocess
import sys

TOP = os.path.join(os.path.dirname(os.path.abspath(__file__)), "..")
SHOW = os.path.join(TOP, "bin", "shacl_show")
COUNT = 10_000
PAINTED = "new Promise((done) => requestAnimationFrame(() => setTimeout(done)))"


class Browser:
    """Chromium, spoken to over two pipes in messages that a zero byte ends (Chrome DevTools Protocol)."""

    def __init__(self):
        to_read, self.to = os.pipe()
        self.came, to_write = os.pipe()
        words = ["chromium", "--headless=new", "--no-sandbox", "--disable-gpu", "--remote-debugging-pipe",
                 "--hide-scrollbars"]

        def as_3_and_4():
            reading, writing = os.dup(to_read), os.dup(to_write)
            os.dup2(reading, 3)
            os.dup2(writing, 4)

        self.process = subprocess.Popen(words, preexec_fn=as_3_and_4, close_fds=False,
                                        stdout=subprocess.DEVNULL, stderr=subprocess.DEVNULL)
        os.close(to_read)
        os.close(to_write)
        self.left, self.number, self.tab = b"", 0, None

    def begin(self):
        """A new tab, which is asked from now on."""
        self.tab = None
        target = self.ask("Target.createTarget", url="about:blank")["targetId"]
        self.tab = self.ask("Target.attachToTarget", targetId=target, flatten=True)["sessionId"]
        self.ask("Page.enable")
        self.ask("Performance.enable", timeDomain="threadTicks")

    def worked(self):
        """The seconds that the page's thread has worked."""
        metrics = self.ask("Performance.getMetrics")["metrics"]
        return next(it["value"] for it in metrics if it["name"] == "TaskDuration")

    def message(self):
        while b"\0" not in self.left:
            piece = os.read(self.came, 1 << 20)
            if not piece:
                sys.exit("chromium has ended")
            self.left += piece
        first, self.left = self.left.split(b"\0", 1)
        return json.loads(first)

    def ask(self, method, **params):
        """The answer to a command."""
        self.number += 1
        said = {"id": self.number, "method": method, "params": params}
        if self.tab:
            said["sessionId"] = self.tab
        os.write(self.to, json.dumps(said).encode() + b"\0")
        while True:
            came = self.message()
            if came.get("id") == self.number:
                if "error" in came:
                    sys.exit(f"{method}: {came['error']['message']}")
                return came["result"]

    def open(self, page, scheme="light", width=1200, height=900, scripts=True):
        """Opens a page, and tells how many seconds its thread worked for it."""
        self.begin()
        self.ask("Emulation.setEmulatedMedia", features=[{"name": "prefers-color-scheme", "value": scheme}])
        self.ask("Emulation.setDeviceMetricsOverride", width=width, height=height, deviceScaleFactor=1,
                 mobile=False)
        self.ask("Emulation.setScriptExecutionDisabled", value=not scripts)
        self.ask("Page.navigate", url="file://" + os.path.abspath(page))
        while self.message().get("method") != "Page.loadEventFired":
            pass
        if scripts:
            self.run(PAINTED)
        return self.worked()

    def run(self, script):
        return self.ask("Runtime.evaluate", expression=script, awaitPromise=True)["result"].get("value")

    def picture(self, name):
        data = self.ask("Page.captureScreenshot", format="png")["data"]
        with open(name, "wb") as file:
            file.write(base64.b64decode(data))
        print(name)

    def close(self):
        os.close(self.to)
        self.process.wait()


def many_results(count):
    """A report of so many results: of 20 shapes, three results at a node or four."""
    yield f"report conforms=false results={count}\n"
    for number in range(count):
        node = f"<http://example.org/node/{number * 2 // 7}>"
        shape = f"<http://example.org/Shape{number % 20}>"
        severity = ("Violation", "Violation", "Warning", "Info")[number % 20 % 4]
        yield (f"result MaxLength {severity} {shape} {node} <http://example.org/name> "
               f'"a name that is too long, number {number}"\n')
        yield 'message "A name has at most twenty letters."@en\n'


def show(page, *files, report=None):
    words = [SHOW, "--html", page, *files]
    subprocess.run(words, input=report, stdout=subprocess.DEVNULL, cwd=TOP, check=False)


def filter_by(text):
    """Types a text into the filter; tells in how many milliseconds it was painted, and what is told then."""
    return f"""(async () => {{
        const text = document.getElementById("text");
        const begun = performance.now();
        text.value = {json.dumps(text)};
        text.dispatchEvent(new Event("input", {{ bubbles: true }}));
        await new Promise((done) => setTimeout(done, 121));
        await new Promise((done) => requestAnimationFrame(() => setTimeout(done)));
        return Math.round(performance.now() - begun) + " ms, " + document.getElementById("told").textContent;
    }})()"""


def sort_by(column):
    """Presses the heading of a column; tells how many milliseconds it took, and the values of the first
    rows."""
    return f"""(async () => {{
        const button = document.querySelector(".piece.first thead th:nth-child({column}) button");
        const begun = performance.now();
        button.click();
        await {PAINTED};
        const cells = document.querySelectorAll("tr.result td:nth-child({column})");
        const said = [...cells].slice(0, 3).map((cell) => cell.textContent).join(", ");
        return Math.round(performance.now() - begun) + " ms, " + said;
    }})()"""


def main(folder):
    os.makedirs(folder, exist_ok=True)
    library, script, large = (os.path.join(os.path.abspath(folder), f"{name}.html")
                              for name in ("library", "script", "large"))
    show(library, *(f"examples/library/{name}.ttl" for name in ("shapes", "data")))
    show(script, *(f"examples/slices/{name}" for name in ("shapes.ttl", "data.ttl", "script.txt")))
    show(large, report="".join(many_results(COUNT)).encode())
    browser = Browser()
    for scheme in ("light", "dark"):
        browser.open(library, scheme)
        browser.picture(f"{folder}/library_{scheme}.png")
    browser.open(library, "dark")
    print(browser.run(filter_by("isbn")))
    browser.run("document.getElementById('text').focus()")
    browser.picture(f"{folder}/library_filtered.png")
    browser.open(library, height=1500)
    print(f"sorted by component: {browser.run(sort_by(2))}")
    print(f"and downwards: {browser.run(sort_by(2))}")
    browser.picture(f"{folder}/library_sorted.png")
    browser.open(library, width=400)
    browser.picture(f"{folder}/library_narrow.png")
    browser.open(library, height=2400, scripts=False)
    browser.picture(f"{folder}/library_no_scripts.png")
    browser.open(script, height=1300)
    browser.picture(f"{folder}/script.png")
    print(f"{COUNT} results: {os.path.getsize(large)} bytes, opened with {browser.open(large):.2f} s of work")
    browser.picture(f"{folder}/large.png")
    for text in ("node/2856", "", "number 77"):
        print(f"filtered by {text!r}: {browser.run(filter_by(text))}")
    for column in (1, 4):
        print(f"sorted by column {column}: {browser.run(sort_by(column))}")
    browser.run(f"window.scrollTo(0, 3000); {PAINTED}")
    browser.picture(f"{folder}/large_filtered.png")
    print(f"and opened without scripts with {browser.open(large, scripts=False):.2f} s of work")
    browser.close()


if __name__ == "__main__":
    if len(sys.argv) != 2:
        sys.exit(__doc__)
    main(sys.argv[1])
