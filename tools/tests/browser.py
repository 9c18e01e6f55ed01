"""A headless Chromium that a test drives, over the pipe of its debugging protocol."""

import base64
import json
import os
import shutil
import subprocess
import tempfile

from harness import Skipped

CHROMIUM = os.environ.get("CHROMIUM") or shutil.which("chromium")


class Browser:
    def __init__(self):
        if CHROMIUM is None:
            raise Skipped("there is no chromium")
        self.home = tempfile.mkdtemp(prefix="page-test-")
        to_read, to_give = os.pipe()
        answers, to_answer = os.pipe()

        def in_place():
            # Chromium reads commands from 3 and writes answers to 4.
            low, high = os.dup2(to_read, 63), os.dup2(to_answer, 64)
            os.dup2(low, 3)
            os.dup2(high, 4)

        words = [
            CHROMIUM,
            "--headless=new",
            "--no-sandbox",
            "--disable-gpu",
            "--hide-scrollbars",
            "--remote-debugging-pipe",
        ]
        words += [f"--user-data-dir={self.home}", "--window-size=1500,900", "about:blank"]
        silent = {"stdin": subprocess.DEVNULL, "stdout": subprocess.DEVNULL, "stderr": subprocess.DEVNULL}
        self.process = subprocess.Popen(words, preexec_fn=in_place, close_fds=False, **silent)
        os.close(to_read)
        os.close(to_answer)
        self.give, self.answers = os.fdopen(to_give, "wb"), os.fdopen(answers, "rb")
        self.count, self.session, self.rest = 0, None, b""
        self.said = []
        targets = self.call("Target.getTargets")["targetInfos"]
        page = next(it["targetId"] for it in targets if it["type"] == "page")
        self.session = self.call("Target.attachToTarget", targetId=page, flatten=True)["sessionId"]
        self.call("Page.enable")
        self.call("Runtime.enable")

    def message(self):
        while b"\0" not in self.rest:
            piece = self.answers.read1(1 << 20)
            if not piece:
                raise RuntimeError("Chromium ended")
            self.rest += piece
        text, self.rest = self.rest.split(b"\0", 1)
        return json.loads(text)

    def call(self, method, **given):
        self.count += 1
        said = {"id": self.count, "method": method, "params": given}
        if self.session:
            said["sessionId"] = self.session
        self.give.write(json.dumps(said).encode() + b"\0")
        self.give.flush()
        while True:
            answer = self.message()
            if answer.get("id") == self.count:
                if "error" in answer:
                    raise RuntimeError(f"{method}: {answer['error']}")
                return answer["result"]
            self.said.append(answer)

    def open(self, path):
        self.said.clear()
        self.call("Page.navigate", url=f"file://{path}")
        while not any(it.get("method") == "Page.loadEventFired" for it in self.said):
            self.said.append(self.message())

    def evaluate(self, text):
        result = self.call("Runtime.evaluate", expression=text, returnByValue=True, awaitPromise=True)
        if "exceptionDetails" in result:
            raise RuntimeError(f"{text}: {result['exceptionDetails']}")
        return result["result"].get("value")

    def key(self, name):
        text = {"text": name} if len(name) == 1 else {}
        self.call("Input.dispatchKeyEvent", type="keyDown", key=name, **text)
        self.call("Input.dispatchKeyEvent", type="keyUp", key=name)

    def faults(self):
        """What the page threw, and what its policy refused."""
        return [it for it in self.said if it.get("method") == "Runtime.exceptionThrown"]

    def screenshot(self, path):
        with open(path, "wb") as it:
            it.write(base64.b64decode(self.call("Page.captureScreenshot", format="png")["data"]))

    def close(self):
        self.session = None
        try:
            self.call("Browser.close")
        except (RuntimeError, OSError):
            self.process.kill()
        self.process.wait()
        self.give.close()
        self.answers.close()
        shutil.rmtree(self.home, ignore_errors=True)
