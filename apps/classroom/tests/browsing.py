"""For the tests: a chromium of its own, without a screen, that opens pages of the class."""

import json
import os
import shutil
import tempfile

from selenium import webdriver
from selenium.common.exceptions import StaleElementReferenceException, TimeoutException
from selenium.webdriver.chrome.service import Service
from selenium.webdriver.common.by import By
from selenium.webdriver.support.ui import Select, WebDriverWait

from classroom.tests.serving import ROOT

PICTURES = ROOT / "target" / "class"
# Long enough for a busy machine; a check that holds sooner does not wait.
PATIENCE = float(os.environ.get("CLASS_PATIENCE", "120"))


class Browser:
    """A browser with a profile of its own, as on a student's own machine."""

    def __init__(self, width=1400, height=1000, accept="en"):
        self._profile = tempfile.mkdtemp(prefix="class-")
        options = webdriver.ChromeOptions()
        options.binary_location = "/usr/bin/chromium"
        options.set_capability("goog:loggingPrefs", {"browser": "ALL"})
        for argument in (
            "--headless=new",
            "--no-sandbox",
            "--disable-gpu",
            "--disable-dev-shm-usage",
            "--disable-background-networking",
            "--disable-component-update",
            "--no-first-run",
            f"--user-data-dir={self._profile}",
            f"--window-size={width},{height}",
            f"--accept-lang={accept}",
        ):
            options.add_argument(argument)
        self.driver = webdriver.Chrome(service=Service("/usr/bin/chromedriver"), options=options)
        self.driver.set_script_timeout(PATIENCE)

    def close(self):
        """Ends the browser and throws its profile away."""
        self.driver.quit()
        shutil.rmtree(self._profile, ignore_errors=True)

    def open(self, address):
        """Opens an address."""
        self.driver.get(address)

    def all(self, css):
        """All elements that the selector finds."""
        return self.driver.find_elements(By.CSS_SELECTOR, css)

    def one(self, css):
        """The element that the selector finds, as soon as it is shown."""
        return self.until(lambda: next((e for e in self.all(css) if e.is_displayed()), None), css)

    def click(self, css):
        """Clicks at it."""
        self.until(lambda: self.one(css).is_enabled(), css)
        element = self.one(css)
        self.driver.execute_script("arguments[0].scrollIntoView({block: 'center'})", element)
        element.click()

    def tick(self, css, on=True):
        """Ticks a check box, or not."""
        if self.one(css).is_selected() != on:
            self.click(css)

    def choose(self, css, value):
        """Chooses from a list."""
        Select(self.one(css)).select_by_value(value)

    def type(self, css, text):
        """Writes into a field."""
        field = self.one(css)
        field.clear()
        field.send_keys(text)

    def text(self, css):
        """Its words."""
        return self.one(css).text

    def value(self, css):
        """The data-value of an element, read."""
        return self.attribute(css, "data-value")

    def values(self, css):
        """The data-values of all that the selector finds, at one moment."""
        script = "return [...document.querySelectorAll(arguments[0])].map((e) => e.dataset.value)"
        return self.driver.execute_script(script, css)

    def attribute(self, css, name):
        """An attribute of an element, whether it is shown or not, as JSON or words; None without."""
        found = self.all(css)
        returned = found[0].get_attribute(name) if found else None
        try:
            return json.loads(returned) if returned is not None else None
        except ValueError:
            return returned

    def cut(self, css):
        """The words of those that the selector finds which are not seen whole."""
        script = (
            "return [...document.querySelectorAll(arguments[0])]"
            ".filter((e) => e.scrollWidth > e.clientWidth || e.scrollHeight > e.clientHeight)"
            ".map((e) => e.textContent)"
        )
        return self.driver.execute_script(script, css)

    def until(self, wanted, words=""):
        """Waits until it is so; what it then is."""

        def holds(_):
            try:
                return wanted()
            except StaleElementReferenceException:
                return None

        try:
            return WebDriverWait(self.driver, PATIENCE, 0.05).until(holds)
        except TimeoutException:
            self.picture(PICTURES / "failed.png")
            raise AssertionError(f"waited for {words}: see {PICTURES / 'failed.png'}") from None

    def run(self, script, *arguments):
        """What a script in the page says at last, by its callback `done`."""
        text = f"const done = arguments[arguments.length - 1]; {script}"
        return self.driver.execute_async_script(text, *arguments)

    def picture(self, path):
        """Saves the page as it is seen."""
        path.parent.mkdir(parents=True, exist_ok=True)
        self.driver.save_screenshot(str(path))

    def complaints(self):
        """What the browser holds against the page: errors, refused files."""
        return [entry["message"] for entry in self.driver.get_log("browser") if entry["level"] == "SEVERE"]
