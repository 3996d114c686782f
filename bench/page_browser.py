"""A headless Chromium that opens pages of pictures, for bench/page.py."""
import pathlib
import re
import subprocess
import sys
import time

from selenium import webdriver
from selenium.webdriver.chrome.options import Options
from selenium.webdriver.chrome.service import Service
from selenium.webdriver.common.action_chains import ActionChains
from selenium.webdriver.common.by import By

TOP = pathlib.Path(__file__).resolve().parent.parent
WORK = TOP / "bench" / "work" / "page"
EMBED = [sys.executable, str(TOP / "page" / "embed.py"), "--page"]
PATIENCE = 30  # seconds until something that has to come is given up
EDGE = 4  # pixels that a stroke may reach beyond its way
DRAWN = """const done = arguments[0];
    requestAnimationFrame(() => requestAnimationFrame(() => setTimeout(done)));"""
FRAMES = """window.frames_ = []; let last = performance.now();
    const tick = now => { frames_.push(now - last); last = now; requestAnimationFrame(tick); };
    requestAnimationFrame(tick);"""
APART = """const boxes = [...document.querySelectorAll('#sheet .names text')].map(text => text.getBoundingClientRect());
    return boxes.every((a, i) => boxes.every((b, j) => i >= j || a.right <= b.left + 2 || b.right <= a.left + 2
        || a.bottom <= b.top + 4 || b.bottom <= a.top + 4));"""
DISPLAY = "document.querySelector('#sheet .names').style.display = arguments[0];"
TEXTS = "return [...document.querySelectorAll(arguments[0])].map(one => one.textContent.trim());"
BOXES = """return arguments[0].map(text => {
    const { left, top, right, bottom } = document.querySelector(text).getBoundingClientRect();
    return { left, top, right, bottom };
});"""


def middle(box):
    return (box["left"] + box["right"]) / 2, (box["top"] + box["bottom"]) / 2


def comes(test):
    """Whether something comes to hold."""
    begun = time.time()
    while time.time() < begun + PATIENCE:
        if test():
            return True
        time.sleep(.1)
    return False


class Browser:
    def __init__(self):
        options = Options()
        for word in ["--headless=new", "--no-sandbox", "--disable-gpu", "--hide-scrollbars"]:
            options.add_argument(word)
        options.binary_location = "/usr/bin/chromium"
        options.set_capability("goog:loggingPrefs", {"browser": "ALL"})
        self.driver = webdriver.Chrome(service=Service("/usr/bin/chromedriver"), options=options)
        self.script = self.driver.execute_script
        self.ask = self.driver.execute_cdp_cmd
        self.ask("Browser.setDownloadBehavior", dict(behavior="allow", downloadPath=str(WORK)))
        self.ask("Performance.enable", {"timeDomain": "threadTicks"})
        self.sized()

    # what is opened, and in which surroundings

    def sized(self, width=1280, height=800, mobile=False):
        self.ask("Emulation.setDeviceMetricsOverride",
                 dict(width=width, height=height, deviceScaleFactor=1, mobile=mobile))
        self.ask("Emulation.setTouchEmulationEnabled", dict(enabled=mobile))

    def surroundings(self, scheme):
        self.ask("Emulation.setEmulatedMedia", {"features": [dict(name="prefers-color-scheme", value=scheme)]})

    def open(self, name, svg, link=""):
        """Opens the page of a picture. How long it took until all was drawn, in seconds."""
        picture, page = WORK / f"{name}.svg", WORK / f"{name}.html"
        picture.write_bytes(svg)
        page.write_bytes(subprocess.run(EMBED + [str(picture)], check=True, capture_output=True).stdout)
        begun = time.time()
        self.driver.get("about:blank")
        self.driver.get(page.as_uri() + link)
        self.driver.execute_async_script(DRAWN)
        return time.time() - begun

    def follow(self, link):
        self.script("location.hash = arguments[0]", link)

    # what is done

    def one(self, id):
        return self.driver.find_element(By.ID, id)

    def all(self, selector):
        return self.driver.find_elements(By.CSS_SELECTOR, selector)

    def press(self, *keys):
        """Presses keys where the focus is."""
        for key in keys:
            ActionChains(self.driver).send_keys(key).perform()

    def point(self, element):
        ActionChains(self.driver).move_to_element(element).perform()

    def hover(self, x, y):
        self.ask("Input.dispatchMouseEvent", dict(type="mouseMoved", x=x, y=y))

    def wheel(self, down, x=780, y=400):
        self.ask("Input.dispatchMouseEvent", dict(type="mouseWheel", x=x, y=y, deltaX=0, deltaY=down))

    def drag(self, kind, x, y):
        self.ask("Input.dispatchMouseEvent", dict(type=kind, x=x, y=y, button="left", buttons=1, clickCount=1))

    def saved(self, kind, name):
        """The bytes of the picture that is saved as this kind under this name."""
        path = WORK / f"{name}.{kind}"
        path.unlink(missing_ok=True)
        self.script("document.getElementById('save').open = true")
        self.one(kind).click()
        comes(lambda: path.is_file() and path.stat().st_size > 0)
        time.sleep(.5)
        return path.read_bytes() if path.is_file() else b""

    # what is seen

    def shot(self, name):
        self.driver.save_screenshot(str(WORK / f"{name}.png"))

    def texts(self, selector):
        """What elements say, whether they are in sight or not."""
        return self.script(TEXTS, selector)

    def said(self, id):
        return self.one(id).text

    def active(self):
        return self.driver.switch_to.active_element

    def log(self):
        return self.driver.get_log("browser")

    def boxes(self, *selectors):
        return self.script(BOXES, selectors)

    def scale(self):
        found = re.search(r"scale\(([\d.e-]+)\)", self.one("plane").get_attribute("style"))
        return float(found.group(1))

    def names_shown(self):
        return len(self.all("#sheet .names text"))

    def names_apart(self):
        return self.names_shown() > 0 and self.script(APART)

    def names_painted(self):
        """Whether names are seen: whether less is when they are hidden, by 50 bytes of a screenshot for each."""
        shown, hidden = (self.script(DISPLAY, how) or len(self.driver.get_screenshot_as_png()) for how in ["", "none"])
        self.script(DISPLAY, "")
        return shown - hidden > 50 * self.names_shown() > 0

    def seen_whole(self):
        """Whether lines and markers are in the frame of the map, with their strokes."""
        *drawn, frame = self.boxes("#sheet .routes", "#sheet .markers", "#view")
        return all(box["left"] >= frame["left"] + EDGE and box["right"] <= frame["right"] - EDGE
                   and box["top"] >= frame["top"] + EDGE and box["bottom"] <= frame["bottom"] - EDGE for box in drawn)

    def chosen_seen(self):
        """Whether the marker of the chosen station is in the frame of the map."""
        (x, y), frame = middle(self.boxes("#lifted .markers")[0]), self.boxes("#view")[0]
        return frame["left"] + 20 < x < frame["right"] - 20 and frame["top"] + 20 < y < frame["bottom"] - 20

    def chosen_centred(self):
        """Whether the marker of the chosen station is in the middle of the frame of the map."""
        (x, y), (right, down) = map(middle, self.boxes("#lifted .markers", "#view"))
        return abs(x - right) < 2 and abs(y - down) < 2

    def seconds_spent(self):
        """How much of the processor's time the page has taken since it was opened."""
        metrics = self.ask("Performance.getMetrics", {})["metrics"]
        return next(metric["value"] for metric in metrics if metric["name"] == "TaskDuration")

    def frames(self, act):
        """How long frames take while something is done in 40 steps."""
        self.script(FRAMES)
        for step in range(40):
            act(step)
            time.sleep(.016)
        times = sorted(self.script("const all = frames_.slice(2); requestAnimationFrame = () => 0; return all;"))
        half, most = (times[len(times) * tenths // 10] for tenths in (5, 9))
        return f"{len(times)} frames, half within {half:.0f} ms, nine of ten within {most:.0f} ms"
