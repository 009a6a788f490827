"""The browsers that open the page. Chromium is driven by selenium. Firefox is driven by its own protocol, Marionette,
because Debian does not have geckodriver. Both classes have the same calls for clicks, keys and texts."""
import base64
import contextlib
import json
import os
import shutil
import socket
import subprocess
import sys
import tempfile
import time

from shared import fail

# The WebDriver codes of keys, by the names of the keys.
KEYS = {"Enter": "\ue007", "Control": "\ue009", "Escape": "\ue00c", "End": "\ue010", "Home": "\ue011", "Left": "\ue012",
        "Right": "\ue014", "Delete": "\ue017", "Tab": "\ue004", "PageUp": "\ue00e",
        "PageDown": "\ue00f", "Up": "\ue013", "Down": "\ue015"}
SECONDS = 30
ELEMENT = "element-6066-11e4-a52e-4f735466cecf"


class Browser:
    """The calls that both browsers perform by a script in the page."""

    def wait(self, script, what):
        """Waits until a script returns a true value, and returns that value."""
        end = time.time() + SECONDS
        while time.time() < end:
            found = self.run(script)
            if found:
                return found
            time.sleep(0.05)
        return fail(f"{self.name}: this does not appear within {SECONDS} s: {what}")

    def text(self, selector):
        return self.run(f"return document.querySelector({json.dumps(selector)})?.textContent ?? null")

    def write(self, selector, text):
        """Replaces the text of a field, as typing does."""
        self.run(f"const field = document.querySelector({json.dumps(selector)}); field.focus();"
                 f"field.value = {json.dumps(text)};"
                 "field.dispatchEvent(new Event('input', { bubbles: true }))")

    def choose(self, selector, value):
        self.run(f"const field = document.querySelector({json.dumps(selector)}); field.value = {json.dumps(value)};"
                 "field.dispatchEvent(new Event('change', { bubbles: true }))")

    def open(self, url):
        self.go("about:blank")
        self.go(url)
        self.wait("return document.body?.dataset.started", "the page")


# ---- Chromium

def lacking_for_chromium():
    """The missing packages of Debian."""
    tools = (("chromium", "chromium"), ("chromium-driver", "chromedriver"))
    found = [package for package, tool in tools if not shutil.which(tool)]
    return found + ([] if has_selenium() else ["python3-selenium"])


def has_selenium():
    try:
        import selenium  # noqa: F401
    except ImportError:
        return False
    return True


def with_selenium():
    """Starts this script again with the system's Python if only that Python has selenium."""
    system = "/usr/bin/python3"
    if has_selenium() or not os.path.exists(system) or os.environ.get("MENCIUS_PYTHON"):
        return
    if subprocess.run([system, "-c", "import selenium"], stderr=subprocess.DEVNULL, check=False).returncode == 0:
        os.execve(system, [system, *sys.argv], {**os.environ, "MENCIUS_PYTHON": system})


class Chromium(Browser):
    name = "Chromium"

    def __init__(self, folder, width=1400, height=900):
        from selenium import webdriver
        from selenium.webdriver.chrome.service import Service
        options = webdriver.ChromeOptions()
        for word in ("--headless=new", "--no-sandbox", "--disable-gpu", f"--window-size={width},{height}",
                     f"--user-data-dir={folder}/chromium"):
            options.add_argument(word)
        options.set_capability("goog:loggingPrefs", {"browser": "ALL", "performance": "ALL"})
        self.driver = webdriver.Chrome(service=Service(shutil.which("chromedriver")), options=options)
        self.driver.execute_cdp_cmd("Browser.setDownloadBehavior", {"behavior": "allow", "downloadPath": folder})

    def go(self, url):
        self.driver.get(url)

    def run(self, script):
        return self.driver.execute_script(script)

    def click(self, selector):
        from selenium.common.exceptions import WebDriverException
        try:
            self.driver.find_element("css selector", selector).click()
        except WebDriverException as error:
            fail(f"Chromium can't click {selector}: {error.msg}")

    def double_click(self, selector):
        from selenium.webdriver.common.action_chains import ActionChains
        ActionChains(self.driver).double_click(self.driver.find_element("css selector", selector)).perform()

    def press(self, *keys):
        from selenium.webdriver.common.action_chains import ActionChains
        actions = ActionChains(self.driver)
        *held, last = [KEYS.get(key, key) for key in keys]
        for key in held:
            actions.key_down(key)
        actions.send_keys(last)
        for key in held:
            actions.key_up(key)
        actions.perform()

    def lines(self):
        """The lines on the console."""
        return [line["message"] for line in self.driver.get_log("browser")]

    def requests(self):
        """The addresses that the page requested, except its own file and its own objects."""
        messages = [json.loads(line["message"])["message"] for line in self.driver.get_log("performance")]
        asked = [message["params"] for message in messages if message["method"] == "Network.requestWillBeSent"]
        urls = [row["request"]["url"] for row in asked if row["documentURL"].startswith("file:")]
        return [url for url in urls if not url.startswith(("file:", "data:", "blob:"))]

    def own_time(self, script, until=None):
        """The processor time in milliseconds that the thread of the page needs for a script, styles and layout. With
        another script `until`, the time ends when that script returns a true value. The script runs as a listener of
        an event, because Chromium does not count scripts of its driver."""
        parts = ("ScriptDuration", "LayoutDuration", "RecalcStyleDuration")

        def used():
            rows = self.driver.execute_cdp_cmd("Performance.getMetrics", {})["metrics"]
            return sum(row["value"] for row in rows if row["name"] in parts)

        self.driver.execute_cdp_cmd("Performance.enable", {"timeDomain": "threadTicks"})
        before = used()
        self.run(f"const target = new EventTarget(); target.addEventListener('begin', () => {{ {script}; }});"
                 "target.dispatchEvent(new Event('begin')); document.body.offsetHeight")
        if until:
            self.wait(until, f"the end of {script}")
        return 1000 * (used() - before)

    def shot(self, path):
        self.driver.save_screenshot(path)

    def stop(self):
        self.driver.quit()


# ---- Firefox

def lacking_for_firefox():
    return [] if shutil.which("firefox-esr") else ["firefox-esr"]


class Firefox(Browser):
    name = "Firefox"

    def __init__(self, folder, width=1400, height=900):
        profile = os.path.join(folder, "firefox")
        os.makedirs(profile, exist_ok=True)
        with socket.socket() as free:
            free.bind(("127.0.0.1", 0))
            port = free.getsockname()[1]
        with open(os.path.join(profile, "user.js"), "w", encoding="utf-8") as file:
            file.write(f'user_pref("marionette.port", {port});\n'
                       'user_pref("datareporting.policy.dataSubmissionEnabled", false);\n')
        self.process = subprocess.Popen(
            ["firefox-esr", "--headless", "--marionette", "--remote-allow-system-access", "--profile", profile],
            stdout=subprocess.DEVNULL, stderr=subprocess.DEVNULL, env={**os.environ, "HOME": folder})
        self.socket, self.count = connected(port), 0
        self.receive()
        self.call("WebDriver:NewSession")
        self.call("WebDriver:SetWindowRect", width=width, height=height)

    def receive(self):
        head = b""
        while not head.endswith(b":"):
            head += self.part(1)
        body, left = b"", int(head[:-1])
        while len(body) < left:
            body += self.part(left - len(body))
        return json.loads(body)

    def part(self, most):
        found = self.socket.recv(most)
        return found or fail("Firefox ends the connection")

    def call(self, name, **parameters):
        self.count += 1
        body = json.dumps([0, self.count, name, parameters]).encode()
        self.socket.sendall(str(len(body)).encode() + b":" + body)
        _, _, error, result = self.receive()
        if error:
            fail(f"Firefox refuses {name}: {error['message']}")
        return result

    def go(self, url):
        self.call("WebDriver:Navigate", url=url)

    def run(self, script):
        return self.call("WebDriver:ExecuteScript", script=script, args=[])["value"]

    def click(self, selector):
        self.call("WebDriver:ElementClick", id=self.find(selector)[ELEMENT])

    def double_click(self, selector):
        clicks = [{"type": name, "button": 0} for name in ("pointerDown", "pointerUp") * 2]
        move = {"type": "pointerMove", "x": 0, "y": 0, "origin": self.find(selector)}
        self.call("WebDriver:PerformActions", actions=[
            {"type": "pointer", "id": "mouse", "parameters": {"pointerType": "mouse"}, "actions": [move, *clicks]}])

    def find(self, selector):
        return self.call("WebDriver:FindElement", using="css selector", value=selector)["value"]

    def press(self, *keys):
        codes = [KEYS.get(key, key) for key in keys]
        actions = [{"type": "keyDown", "value": code} for code in codes]
        actions += [{"type": "keyUp", "value": code} for code in reversed(codes)]
        self.call("WebDriver:PerformActions", actions=[{"type": "key", "id": "keyboard", "actions": actions}])

    def lines(self):
        self.call("Marionette:SetContext", value="chrome")
        try:
            return self.run("return Services.console.getMessageArray()"
                            ".map(line => [line.sourceName ?? '', line.message])"
                            ".filter(([source]) => source.startsWith('file:')).map(([, message]) => message)")
        finally:
            self.call("Marionette:SetContext", value="content")

    def requests(self):
        return self.run("return performance.getEntriesByType('resource').map(entry => entry.name)")

    def own_time(self, script, until=None):
        """The processor time in milliseconds that the thread of the page needs for a script, until another script
        `until` returns a true value. It contains all work of this thread, also the calls of this class."""
        before = self.used()
        self.run(f"{script}; document.body.offsetHeight")
        if until:
            self.wait(until, f"the end of {script}")
        return (self.used() - before) / 1e6

    def used(self):
        """The nanoseconds that the main threads of the processes for pages from the disk have worked."""
        used = 0
        for process in filter(str.isdigit, os.listdir("/proc")):
            with contextlib.suppress(OSError):
                name, parent = name_and_parent(process)
                # Firefox starts a process that starts the processes of pages.
                if name == "file:// Content" and self.process.pid in (parent, name_and_parent(parent)[1]):
                    with open(f"/proc/{process}/task/{process}/schedstat", encoding="ascii") as file:
                        used += int(file.read().split()[0])
        return used

    def shot(self, path):
        with open(path, "wb") as file:
            file.write(base64.b64decode(self.call("WebDriver:TakeScreenshot", full=False)["value"]))

    def stop(self):
        try:
            self.call("Marionette:Quit", flags=["eForceQuit"])
            self.process.wait(SECONDS)
        except (OSError, subprocess.TimeoutExpired):
            self.process.kill()


def name_and_parent(process):
    with open(f"/proc/{process}/stat", encoding="utf-8", errors="replace") as file:
        name, rest = file.read().split("(", 1)[1].rsplit(")", 1)
    return name, int(rest.split()[1])


def connected(port):
    for _ in range(4 * SECONDS):
        try:
            return socket.create_connection(("127.0.0.1", port))
        except OSError:
            time.sleep(0.25)
    return fail("Firefox does not answer")


def folder_for():
    return tempfile.TemporaryDirectory(ignore_cleanup_errors=True)
