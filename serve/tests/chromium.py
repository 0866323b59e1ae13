# A headless Chromium for tests, and how a test says what it wants. Outside the proof.
import shutil
import time

from selenium import webdriver
from selenium.webdriver.chrome.options import Options
from selenium.webdriver.chrome.service import Service
from selenium.webdriver.common.by import By
from selenium.webdriver.common.keys import Keys

TESTS = []


def test(function):
    """Marks a test, to be called with a browser and the room of the run."""
    TESTS.append(function)
    return function


class Browser:
    def __init__(self):
        options = Options()
        for word in ("--headless=new", "--no-sandbox", "--disable-gpu", "--disable-dev-shm-usage", "--hide-scrollbars", "--lang=en"):
            options.add_argument(word)
        options.set_capability("goog:loggingPrefs", {"browser": "ALL"})
        self.driver = webdriver.Chrome(service=Service(shutil.which("chromedriver")), options=options)
        self.look()

    def look(self, width=1280, height=900, dark=False):
        self.driver.execute_cdp_cmd("Emulation.setDeviceMetricsOverride", dict(width=width, height=height, deviceScaleFactor=1, mobile=width < 600))
        self.driver.execute_cdp_cmd("Emulation.setEmulatedMedia", {"features": [{"name": "prefers-color-scheme", "value": "dark" if dark else "light"}]})

    def open(self, url):
        self.driver.get(url + "/")
        self.run("sessionStorage.clear()")
        self.driver.get(url + "/")
        self.console()

    def enter(self, url, token):
        self.open(url)
        self.one("#token").send_keys(token, Keys.ENTER)

    def show(self, page):
        """Goes to a part of the page, as #agents/n7."""
        self.run("location.hash = arguments[0]", page)

    def ask(self, module, script, *given):
        """What a script returns that gets a module of the page as `m`."""
        self.driver.set_script_timeout(60)
        code = "const done = arguments[arguments.length - 1], given = [...arguments].slice(0, -1); import('/page/%s.js').then(m => { %s }).then(done, e => done(String(e)))"
        return self.driver.execute_async_script(code % (module, script), *given)

    def run(self, script, *given):
        return self.driver.execute_script(script, *given)

    def one(self, selector):
        return self.driver.find_element(By.CSS_SELECTOR, selector)

    def text(self, selector):
        return self.run("return document.querySelector(arguments[0])?.textContent ?? ''", selector)

    def texts(self, selector):
        return self.run("return [...document.querySelectorAll(arguments[0])].map(e => e.textContent)", selector)

    def keys(self, *keys):
        for key in keys:
            self.driver.switch_to.active_element.send_keys(key)

    def focused(self):
        """The element with the focus: its id, or what it is called."""
        return self.run("const e = document.activeElement; return e.id || e.getAttribute('aria-label') || e.textContent.slice(0, 30)")

    def console(self):
        return [entry["message"] for entry in self.driver.get_log("browser") if entry["level"] in ("SEVERE", "WARNING")]

    def processor_time(self):
        """The seconds for which a processor ran the page so far. Unlike the time of a clock, they do not grow while other programs run."""
        self.driver.execute_cdp_cmd("Performance.enable", {})
        return next(one["value"] for one in self.driver.execute_cdp_cmd("Performance.getMetrics", {})["metrics"] if one["name"] == "ThreadTime")

    def takes(self, what, seconds, action):
        """Does something that may take the page so much time of a processor, and returns its result."""
        begun = self.processor_time()
        result = action()
        spent = self.processor_time() - begun
        assert spent < seconds, f"{what} takes {spent:.2f} s of a processor, and not less than {seconds} s"
        return result

    def wait(self, what, holds, seconds=120):
        until = time.time() + seconds
        while time.time() < until:
            if got := holds():
                return got
            time.sleep(0.1)
        raise AssertionError(f"{what} did not come in {seconds} s")


def equal(what, got, wanted):
    assert got == wanted, f"{what}: {got!r} and not {wanted!r}"


def holds(what, fact):
    assert fact, what


class NotRun(Exception):
    """What a test needs is not here."""
