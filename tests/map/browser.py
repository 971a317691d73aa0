"""A browser without a window, the map's program beside it, and the page as one who uses it finds it."""

# mypy: allow-untyped-calls
# (selenium is annotated in part)

import contextlib
import http.server
import os
import subprocess
import sys
import threading
import time
from collections.abc import Callable, Iterator, Sequence
from typing import Any, TypeVar

from harness.places import CLIENTS
from harness.setting import Setting
from selenium import webdriver
from selenium.common.exceptions import NoSuchElementException, StaleElementReferenceException
from selenium.webdriver import ActionChains
from selenium.webdriver.chrome.options import Options
from selenium.webdriver.chrome.service import Service
from selenium.webdriver.common.by import By
from selenium.webdriver.common.keys import Keys
from selenium.webdriver.remote.webelement import WebElement

Driver = webdriver.Chrome
Found = TypeVar("Found")
PATIENCE = 100
"""Seconds after which what the page should show is taken for not there."""
MOVING = ".leaflet-pan-anim, .leaflet-zoom-anim"
"""The map while it moves: meanwhile it takes no key."""
ZONE = "Europe/Zurich"
"""The local time of the browser: never that of UTC."""
IS_STILL = """
    const [element, done] = arguments;
    element.scrollIntoView({ block: 'center' });
    const place = () => JSON.stringify(element.getBoundingClientRect());
    const before = place();
    requestAnimationFrame(() => requestAnimationFrame(() => {
        const { left, top, width, height } = element.getBoundingClientRect();
        const there = document.elementFromPoint(left + width / 2, top + height / 2);
        const isBusy = document.querySelector('[aria-busy=true]') !== null;
        done(!isBusy && place() === before && element.contains(there));
    }))"""
"""Whether nothing is being found out that would move an element, it stays where it is over two frames, and is what a
press at its middle meets."""
SHOWN = "const [done] = arguments; requestAnimationFrame(() => requestAnimationFrame(() => done()))"
"""Waits for two frames."""
WORDS = [
    "--headless=new",
    "--disable-gpu",
    "--disable-dev-shm-usage",
    "--hide-scrollbars",
    "--no-first-run",
    "--lang=en-GB",
    "--disable-background-networking",
    "--disable-component-update",
]


@contextlib.contextmanager
def browser() -> Iterator[Driver]:
    """A browser, which ends with its profile."""
    options = Options()
    for word in WORDS + (["--no-sandbox"] if os.geteuid() == 0 else []):
        options.add_argument(word)
    options.set_capability("goog:loggingPrefs", {"browser": "ALL"})
    service = Service("/usr/bin/chromedriver", env={**os.environ, "TZ": ZONE})
    driver = webdriver.Chrome(options=options, service=service)
    driver.set_script_timeout(PATIENCE)
    try:
        yield driver
    finally:
        driver.quit()


class Program:
    """The map's program for one operator, with a file of its password. `opens` is what it opens as its browser."""

    def __init__(self, setting: Setting, name: str, patience: int, *more: str, opens: os.PathLike[str] | None = None):
        self.name = name
        self.password_file = setting.folder / f"password-{name}"
        self.set_password(setting.operators[name])
        words = [
            sys.executable,
            "-m",
            "uss_desk_map",
            "--url",
            setting.url,
            "--user",
            name,
            "--password-file",
            str(self.password_file),
            "--port",
            "0",
            "--patience",
            str(patience),
            *more,
            *([] if opens else ["--no-browser"]),
        ]
        paths = os.pathsep.join(str(CLIENTS / part) for part in ("python", "map"))
        self._errors = open(setting.folder / f"map-{name}.errors", "w+", encoding="utf-8")
        self._process = subprocess.Popen(
            words,
            stdout=subprocess.PIPE,
            stderr=self._errors,
            text=True,
            env={**os.environ, "PYTHONPATH": paths, "PYTHONDONTWRITEBYTECODE": "1", "BROWSER": f"{opens} %s"},
        )
        assert self._process.stdout
        self.address = self._process.stdout.readline().split()[-1]
        self.port, self.token = int(self.address.split(":")[2].split("/")[0]), self.address.split("/")[3]

    def set_password(self, password: str) -> None:
        """Writes the file of the password anew."""
        self.password_file.write_text(password + "\n", encoding="utf-8")

    def complaints(self) -> str:
        """What it has written to its standard error."""
        self._errors.seek(0)
        return self._errors.read()

    def end(self) -> str:
        """Ends it; its complaints."""
        self._process.terminate()
        self._process.communicate(timeout=PATIENCE)
        with self._errors:
            return self.complaints()


Programs = dict[str, Program]
"""The map's programs by the names of their operators."""


class Tiles:
    """A server of tiles, which counts who asks for what."""

    PICTURE = bytes.fromhex(
        "89504e470d0a1a0a0000000d49484452000000010000000108060000001f15c489"
        "0000000d49444154789c6368686870000004c501c12570d2310000000049454e44ae426082"
    )
    """One grey pixel."""

    def __init__(self) -> None:
        self.asked = asked = list[tuple[str, dict[str, str]]]()

        class Answering(http.server.BaseHTTPRequestHandler):
            """Answers each request by the same picture."""

            def do_GET(self) -> None:
                """Notes who asks for what."""
                asked.append((self.path, dict(self.headers)))
                self.send_response(200)
                self.send_header("content-type", "image/png")
                self.end_headers()
                self.wfile.write(Tiles.PICTURE)

            def log_message(self, *_: Any) -> None:
                """Says nothing."""

        self._server = http.server.ThreadingHTTPServer(("127.0.0.1", 0), Answering)
        self.url = f"http://127.0.0.1:{self._server.server_address[1]}"
        threading.Thread(target=self._server.serve_forever, daemon=True).start()

    def end(self) -> None:
        """Ends it."""
        self._server.shutdown()
        self._server.server_close()


class Page:
    """The page of one operator in a window of its own."""

    def __init__(self, driver: Driver, address: str) -> None:
        self.driver, self.address = driver, address
        driver.switch_to.new_window("window")
        self._window = driver.current_window_handle
        self.size(1280, 860)
        self.load()

    def load(self) -> None:
        """Loads it, also again."""
        self.driver.get(self.address)
        self.until("the page", lambda: bool(self.js("return document.documentElement.dataset.ready")))

    def front(self) -> "Page":
        """Makes its window the one that is driven."""
        self.driver.switch_to.window(self._window)
        return self

    def size(self, width: int, height: int, is_mobile: bool = False) -> None:
        """The inner size of the window."""
        self.driver.execute_cdp_cmd(
            "Emulation.setDeviceMetricsOverride",
            {"width": width, "height": height, "deviceScaleFactor": 1, "mobile": is_mobile},
        )
        has_size = "return screen.width === arguments[0] || innerWidth === arguments[0]"
        self.until("the window's size", lambda: bool(self.js(has_size, width)))
        time.sleep(0.4)
        self.rest()

    def rest(self) -> None:
        """Waits until the map has come to rest, and until what was drawn is shown."""
        self.until("the map is at rest", lambda: not self.all(MOVING))
        self.driver.execute_async_script(SHOWN)

    def scheme(self, name: str) -> None:
        """The system's colours: dark or light."""
        self.driver.execute_cdp_cmd(
            "Emulation.setEmulatedMedia", {"features": [{"name": "prefers-color-scheme", "value": name}]}
        )

    def js(self, script: str, *words: Any) -> Any:
        """What a script returns in the page."""
        return self.driver.execute_script(script, *words)

    def find(self, selector: str) -> WebElement:
        """The first element of a selector."""
        return self.driver.find_element(By.CSS_SELECTOR, selector)

    def all(self, selector: str) -> Sequence[WebElement]:
        """All elements of a selector."""
        return self.driver.find_elements(By.CSS_SELECTOR, selector)

    def text(self, selector: str) -> str:
        """The text of an element; empty if it isn't there."""
        try:
            return self.find(selector).text
        except (NoSuchElementException, StaleElementReferenceException):
            return ""

    def value(self, selector: str, name: str) -> str:
        """An attribute of an element; empty if either isn't there."""
        try:
            return self.find(selector).get_attribute(name) or ""
        except (NoSuchElementException, StaleElementReferenceException):
            return ""

    def until(self, what: str, condition: Callable[[], Found], seconds: float = PATIENCE) -> Found:
        """Waits until a condition holds; its value."""
        end = time.monotonic() + seconds
        while True:
            found = condition()
            if found or time.monotonic() > end:
                if not found:
                    raise TimeoutError(f"{what}: not within {seconds} s; the page says {self.messages()[:3]}")
                return found
            time.sleep(0.05)

    def act(self, selector: str, do: Callable[[WebElement], object]) -> None:
        """Does something with an element once it is there, stands still and can be used; again, if the page has drawn
        it anew."""

        def tried() -> bool:
            try:
                element = self.find(selector)
                if element.get_attribute("disabled") is None and self.driver.execute_async_script(IS_STILL, element):
                    do(element)
                    return True
            except (NoSuchElementException, StaleElementReferenceException):
                pass
            return False

        self.until(selector, tried)

    def click(self, selector: str) -> None:
        """Clicks by the mouse."""
        self.act(selector, lambda element: element.click())

    def drag(self, selector: str, across: int, down: int) -> None:
        """Drags an element by the mouse, by so many pixels."""
        self.act(
            selector,
            lambda element: ActionChains(self.driver)
            .move_to_element(element)
            .click_and_hold()
            .move_by_offset(across // 2, down // 2)
            .move_by_offset(across - across // 2, down - down // 2)
            .release()
            .perform(),
        )

    def keys(self, selector: str, *keys: str) -> None:
        """Presses keys at an element."""
        self.act(selector, lambda element: element.send_keys(*keys))

    def press(self, *keys: str) -> None:
        """Presses keys, whatever has the focus."""
        ActionChains(self.driver).send_keys(*keys).perform()

    def press_back(self) -> None:
        """Moves the focus to what comes before, as the shifted tabulator does."""
        ActionChains(self.driver).key_down(Keys.SHIFT).send_keys(Keys.TAB).key_up(Keys.SHIFT).perform()

    def type(self, selector: str, words: str) -> None:
        """Types into a field in place of what it has."""
        self.keys(selector, Keys.CONTROL, "a")
        self.keys(selector, words)

    def altitudes(self, lower: float, upper: float, above: str = "ellipsoid") -> None:
        """Fills in the altitudes of the chosen draft."""
        self.js(
            """const select = document.getElementById("draft-above");
            select.value = arguments[0];
            select.dispatchEvent(new Event("change"))""",
            above,
        )
        self.type("#draft-lower", str(lower))
        self.type("#draft-upper", str(upper))

    def lengthen(self, seconds: int) -> None:
        """Gives the chosen draft a later end, as the field of its end would."""
        self.js(
            """const input = document.getElementById("draft-end");
            const later = new Date(input.value).getTime() + arguments[0] * 1000;
            input.value = new Date(later - new Date(later).getTimezoneOffset() * 60000).toISOString().slice(0, 16);
            input.dispatchEvent(new Event("input"))""",
            seconds,
        )

    def messages(self) -> list[str]:
        """What the page has told, newest first."""
        found: list[str] = self.js(
            "return [...document.querySelectorAll('.message p')].map((one) => one.textContent)"
        )
        return found

    def said(self) -> str:
        """What stands beneath the buttons of the chosen flight."""
        return self.text("#chosen .said .message p")

    def told(self, words: str, seconds: float = PATIENCE) -> str:
        """Waits until a message has these words; it."""

        def found() -> str:
            return next((it for it in self.messages() if words in it), "")

        return self.until(f"a message {words!r}", found, seconds)

    def verdict(self) -> str:
        """What was found out of the chosen draft, once it is known."""
        ends = ("free", "blocked", "refused", "stopped", "trouble")
        return self.until(
            "a verdict", lambda: next((it for it in ends if it == self.value("#asked", "data-state")), "")
        )

    def go_to(self, latitude: float, longitude: float) -> None:
        """Moves the map to a place, by the field that is there for it."""
        self.type("#go-to", f"{latitude}, {longitude}")
        self.press(Keys.ENTER)
        self.until("the map's focus", lambda: bool(self.js("return document.activeElement.id === 'map'")))

    def draw_by_keys(self, kind: str, steps: Sequence[tuple[str, int]]) -> None:
        """Draws a flight by keys alone: steps are arrow keys, each with how often, and after each a place is put."""
        self.keys(f"#new-{kind}", Keys.ENTER)
        for key, times in steps:
            for _ in range(times):
                self.press(key)
                time.sleep(0.35)
                self.rest()
            self.press(Keys.ENTER)
        self.press(Keys.ESCAPE)

    def draw_by_mouse(self, kind: str, points: Sequence[tuple[float, float]]) -> None:
        """Draws a flight by clicks at points of the map, as shares of its width and height."""
        self.click(f"#new-{kind}")
        for across, down in points:
            self.click_map(across, down)
        if kind != "circle":
            self.click("#drawing button:last-child")

    def click_map(self, across: float, down: float) -> None:
        """Clicks a point of the map, by shares of its width and height."""
        field = self.find("#map")
        x, y = (
            round(size * (share - 0.5))
            for size, share in ((field.size["width"], across), (field.size["height"], down))
        )
        ActionChains(self.driver).move_to_element_with_offset(field, x, y).click().perform()
        time.sleep(0.3)
        self.rest()

    def drafts(self) -> list[dict[str, Any]]:
        """What the browser keeps of drafts."""
        found: list[dict[str, Any]] = self.js(
            """const key = Object.keys(localStorage).find((one) => one.startsWith("uss_desk_map drafts"));
            return JSON.parse(localStorage.getItem(key) ?? "[]")"""
        )
        return found

    def is_in_view(self, selector: str) -> bool:
        """Whether all of an element is in the window, and nothing lies over it."""
        found: bool = self.js(
            """const element = document.querySelector(arguments[0]);
            const { left, top, right, bottom } = element.getBoundingClientRect();
            const there = document.elementFromPoint((left + right) / 2, (top + bottom) / 2);
            return top > -1 && bottom < innerHeight + 1 && (element === there || element.contains(there))""",
            selector,
        )
        return found

    def errors(self) -> list[str]:
        """What the browser has complained of since it was last asked, but for answers that say no."""
        return [
            entry["message"]
            for entry in self.driver.get_log("browser")
            if entry["level"] == "SEVERE" and "Failed to load resource" not in entry["message"]
        ]
