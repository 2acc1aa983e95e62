"""Drives pages of tools/page in headless Chromium, and writes what it found as JSON lines: a name, what was there, what
should be. test_page.py runs it with a python3 that has selenium, and counts.

usage: browser.py FOLDER, which has node.html, plain.html, odd.html, again.html, kubelet.html, reasons.html, gap.html
and big.html
"""

import json
import sys

from selenium import webdriver
from selenium.webdriver.chrome.options import Options
from selenium.webdriver.chrome.service import Service
from selenium.webdriver.common.action_chains import ActionChains
from selenium.webdriver.common.by import By
from selenium.webdriver.common.keys import Keys

WIDTH, HEIGHT = 1280, 900
# the lanes begin after the names and end before the edge, as lanes.js and draw.js have it
LEFT, RIGHT = 170, 10
# processor seconds of a page that is quick
LONGEST_STEP, LONGEST_LOAD = 1.5, 8.0
FOUND = """const done = arguments[arguments.length - 1];
requestAnimationFrame(() => requestAnimationFrame(() => setTimeout(done, 0)));"""


def tell(name, got, wanted):
    print(json.dumps([name, got, wanted]), flush=True)


class Page:
    """A page in a browser of its own size."""

    def __init__(self, chromedriver, path, width=WIDTH, height=HEIGHT, dark=False):
        options = Options()
        for word in ("--headless=new", "--no-sandbox", "--disable-gpu", "--hide-scrollbars"):
            options.add_argument(word)
        options.set_capability("goog:loggingPrefs", {"browser": "ALL"})
        self.driver = webdriver.Chrome(service=Service(chromedriver), options=options)
        self.driver.execute_cdp_cmd("Emulation.setDeviceMetricsOverride",
                                    {"width": width, "height": height, "deviceScaleFactor": 1, "mobile": False})
        self.driver.execute_cdp_cmd("Emulation.setEmulatedMedia", {"features": [
            {"name": "prefers-color-scheme", "value": "dark" if dark else "light"}]})
        self.driver.execute_cdp_cmd("Performance.enable", {"timeDomain": "threadTicks"})
        self.driver.get(f"file://{path}")
        self.wait()

    def __enter__(self):
        return self

    def __exit__(self, *_):
        self.driver.quit()

    def wait(self):
        """Two frames, after which what was asked for is drawn."""
        self.driver.execute_async_script(FOUND)

    def text(self, selector):
        return self.driver.find_element(By.CSS_SELECTOR, selector).text

    def texts(self, selector):
        return [found.text for found in self.driver.find_elements(By.CSS_SELECTOR, selector)]

    def click(self, selector, place=0):
        self.driver.find_elements(By.CSS_SELECTOR, selector)[place].click()
        self.wait()

    def press(self, *keys):
        ActionChains(self.driver).send_keys(*keys).perform()
        self.wait()

    def script(self, words):
        return self.driver.execute_script(f"return {words}")

    def seconds(self):
        """The processor seconds that the page's own thread has taken."""
        metrics = self.driver.execute_cdp_cmd("Performance.getMetrics", {})["metrics"]
        return next(each["value"] for each in metrics if each["name"] == "TaskDuration")

    def is_open(self):
        return not self.script("document.getElementById('panel').hidden")

    def log(self):
        return [entry["message"] for entry in self.driver.get_log("browser")]

    def point(self, canvas, share, y):
        """A point of a canvas, at a share of its lanes, from its middle as the driver counts."""
        box = canvas.rect
        x = LEFT + share * (box["width"] - LEFT - RIGHT)
        return round(x - box["width"] / 2), round(y - box["height"] / 2)

    def click_at(self, canvas, share, y):
        self.driver.execute_script("arguments[0].scrollIntoView({block: 'center'})", canvas)
        self.wait()
        ActionChains(self.driver).move_to_element_with_offset(canvas, *self.point(canvas, share, y)).click().perform()
        self.wait()

    def tip(self, canvas, share, y):
        """What is shown where one points at a place of a canvas."""
        self.driver.execute_script("arguments[0].scrollIntoView({block: 'center'})", canvas)
        self.wait()
        ActionChains(self.driver).move_to_element_with_offset(canvas, *self.point(canvas, share, y)).perform()
        self.wait()
        return self.text("#tip")

    def drag(self, canvas, share, to_share, y):
        (x, over), (to_x, _) = self.point(canvas, share, y), self.point(canvas, to_share, y)
        ActionChains(self.driver).move_to_element_with_offset(canvas, x, over).click_and_hold() \
            .move_by_offset((to_x - x) // 2, 0).move_by_offset(to_x - x - (to_x - x) // 2, 0).release().perform()
        self.wait()

    def pinch(self, canvas, xs, to_xs):
        """Two fingers at these places of the page, which move to others."""
        self.driver.execute_script("arguments[0].scrollIntoView({block: 'center'})", canvas)
        self.wait()
        y = self.driver.execute_script("return arguments[0].getBoundingClientRect().top", canvas) + 10
        self.driver.execute_cdp_cmd("Emulation.setTouchEmulationEnabled", {"enabled": True, "maxTouchPoints": 2})
        for kind, places in (("touchStart", xs[:1]), ("touchStart", xs), ("touchMove", to_xs), ("touchEnd", ())):
            self.driver.execute_cdp_cmd("Input.dispatchTouchEvent", {"type": kind, "touchPoints": [
                {"x": x, "y": y, "id": number} for number, x in enumerate(places)]})
        self.driver.execute_cdp_cmd("Emulation.setTouchEmulationEnabled", {"enabled": False})
        self.wait()

    def row(self, key):
        """The canvas of a pod's row."""
        names = self.texts(".pod .name")
        return self.driver.find_elements(By.CSS_SELECTOR, ".pod canvas")[names.index(key)]


def check_load(page):
    tell("loads without an error", page.log(), [])
    tell("has no outside part", page.script("performance.getEntriesByType('resource').length"), 0)
    tell("names the node", page.text("#node"), "n1")
    tell("shows the whole span", page.text("#range"), "0 – 40 (40 s)")
    tell("puts the evicted first", page.texts(".pod .name"),
         ["default/a", "default/late", "default/b", "default/job"])


def check_filter(page):
    page.click("#filter")
    page.press("la")
    tell("filters by name", (page.texts(".pod .name"), page.text("#shown")), (["default/late"], "1 of 4 pods"))
    page.press(Keys.ESCAPE)
    tell("clears the filter by a key", len(page.texts(".pod .name")), 4)
    page.click("#chips button", 1)
    page.press("/", "job")
    tell("says why no pod is shown", page.text("#none"),
         "No pod has “job” in its name and is among “evicted”.show all pods")
    page.click("#none button")
    tell("shows all again", (len(page.texts(".pod .name")), page.text("#none")), (4, ""))
    page.click("#chips button", 1)
    tell("shows the evicted alone", sorted(page.texts(".pod .name")), ["default/a", "default/late"])
    page.click("#chips button", 0)


def check_zoom(page):
    axis = page.driver.find_element(By.ID, "axis")
    page.drag(axis, 0.25, 0.75, 10)
    tell("zooms by dragging", page.text("#range"), "10 – 30 (20 s)")
    page.click("#whole")
    tell("shows the whole span again", page.text("#range"), "0 – 40 (40 s)")
    page.drag(page.row("default/b"), 0.75, 0.5, 20)
    tell("zooms by dragging to the left over a lane", page.text("#range"), "20 – 30 (10 s)")
    page.press("0")
    page.click("#in")
    tell("zooms in by a button", page.text("#range"), "10 – 30 (20 s)")
    page.click("#out")
    tell("zooms out by a button", page.text("#range"), "0 – 40 (40 s)")


def check_story(page):
    page.click(".pod .name", page.texts(".pod .name").index("default/job"))
    story = page.text("#panel")
    tell("opens a story", (page.text("#panel h2"), "ended 10 as Succeeded" in story), ("default/job", True))
    tell("lists the events", page.texts("#panel .event > button"),
         ["0\nc started (attempt 0)", "0\nc ready", "0\nphase Running", "10\nc died with code 0 (attempt 0)",
          "10\nc unready", "10\nphase Succeeded"])
    page.click("#panel .event > button", 3)
    tell("unfolds an event's why", page.text("#panel .why"),
         "This tick listed attempt 0 as CONTAINER_EXITED with code 0.\n"
         "Until 0 the ticks listed attempt 0 as CONTAINER_RUNNING.")
    page.press(Keys.ESCAPE)
    tell("closes a story by a key", page.is_open(), False)


def check_why(page):
    page.click_at(page.row("default/a"), 0.75, 10)
    why = page.text("#panel")
    tell("names the threshold of an eviction", page.text(".pod .meta .bad"), "evicted 30 by nodefs.available")
    tell("opens the why of an eviction in a lane", [words in why for words in (
        "nodefs.available soft: below 10Gi (10%), cleared at 11Gi, grace 20 s; active since 10", "after reclaim",
        "Their order: usage above the request first")], [True] * 3)
    cells = [row.split() for row in page.texts("#panel tr")]
    tell("has its samples", [row for row in cells if len(row) == 3],
         [["10", "9Gi", "-"], ["20", "10.5Gi", "-"], ["30", "8Gi", "9Gi"]])
    tell("marks the evicted pod", page.text("tr.victim"), "1 default/a 9Gi 4Gi 5Gi 5 BestEffort evicted")
    page.press(Keys.ESCAPE)
    chart = page.driver.find_elements(By.CSS_SELECTOR, "#charts canvas")[2]
    page.click_at(chart, 0.999, 30)
    tell("opens the why of an eviction in a chart", page.text("tr.victim"),
         "1 default/late 700 - - -1 BestEffort evicted")
    page.press(Keys.ESCAPE)


CONTRAST = """const [ink, ...grounds] = ['failed', 'ground', 'panel', 'faint'].map((name) => {
  const hex = getComputedStyle(document.documentElement).getPropertyValue('--' + name).trim();
  const [r, g, b] = [1, 3, 5].map((at) => parseInt(hex.slice(at, at + 2), 16) / 255)
    .map((one) => one <= 0.03928 ? one / 12.92 : ((one + 0.055) / 1.055) ** 2.4);
  return 0.2126 * r + 0.7152 * g + 0.0722 * b;
});
return Math.min(...grounds.map((one) => (Math.max(one, ink) + 0.05) / (Math.min(one, ink) + 0.05)));"""
LEAST_CONTRAST = 4.5


def check_theme(page):
    grounds = [page.script("getComputedStyle(document.body).backgroundColor")]
    contrasts = [page.driver.execute_script(CONTRAST)]
    page.click("#theme")
    contrasts.append(page.driver.execute_script(CONTRAST))
    tell("has red text that can be read in both themes", [one >= LEAST_CONTRAST for one in contrasts], [True] * 2)
    grounds.append(page.script("getComputedStyle(document.body).backgroundColor"))
    page.press("t")
    grounds.append(page.script("getComputedStyle(document.body).backgroundColor"))
    tell("is light, dark and light again", grounds, ["rgb(251, 252, 253)", "rgb(16, 22, 29)", "rgb(251, 252, 253)"])


def check_keys(page):
    found = []
    page.press("j", Keys.ENTER)
    found.append(page.text("#panel h2"))
    page.press(Keys.ESCAPE, "k", "n")
    found.append(page.text("#panel h2"))
    page.press("n", "n", "n")
    found.append(page.text("#panel h2"))
    page.press(Keys.ESCAPE, "+")
    found.append(page.text("#range"))
    page.press(Keys.ARROW_RIGHT)
    found.append(page.text("#range"))
    page.press("-", "0", "u")
    found.append(page.text("#range"))
    page.press("u", "?")
    found.append(page.text("#panel h2"))
    page.press(Keys.ESCAPE, "/")
    found.append(page.script("document.activeElement.id"))
    tell("is used by keys", found, [
        "default/late", "why: started (attempt 0)", "why: evicted by nodefs.available soft, grace 15 s",
        "10 – 30 (20 s)", "15 – 35 (20 s)", "1970-01-01 00:00:00Z – 1970-01-01 00:00:40Z (40 s)", "Keys",
        "filter"])
    page.press(Keys.ESCAPE)


def check_narrow(chromedriver, path):
    with Page(chromedriver, path, 360, 740, dark=True) as page:
        widths = "[document.documentElement.scrollWidth, document.body.scrollWidth]"
        tell("has no horizontal scroll at 360 px", page.script(widths), [360, 360])
        tell("is dark where the system is", page.script("document.documentElement.dataset.theme"), "dark")
        cut = "[...document.querySelectorAll('.meta')].some((one) => one.scrollWidth > one.clientWidth)"
        tell("shows there what became of a pod", (page.text(".meta"), page.script(cut)),
             ("evicted 30 by nodefs.available · BestEffort", False))
        page.pinch(page.row("default/a"), (180, 220), (140, 260))
        # the lanes have 226 px, of 104 on the left: 11.7 and 18.8 s are then 26 and 146 px after these
        tell("zooms there by two fingers", page.text("#range"), "10 – 23 (13 s)")
        page.click("#whole")
        page.click(".pod .name")
        page.click("#panel .event > button", -1)
        tell("nor with a story", (page.script(widths), page.script("document.getElementById('panel').scrollWidth")),
             ([360, 360], 360))
        tell("and no error there", page.log(), [])


def check_plain(chromedriver, path):
    """A page without a trace."""
    with Page(chromedriver, path) as page:
        tell("a page without a trace says what it leaves out", "no trace was given" in page.text("footer"), True)
        page.press("j", "n")
        tell("and its why says so too", "made without a trace" in page.text("#panel"), True)
        tell("and it loads without an error", page.log(), [])


def check_odd(chromedriver, path):
    """Names that would be markup."""
    with Page(chromedriver, path) as page:
        tell("a name is no markup", (page.text("#node"), page.texts(".pod .name")),
             ("</script><script>document.title='x'</script>", ["shop/<img/src=x/onerror=document.title='x'>"]))
        page.click(".pod .name")
        tell("nor in a story", page.text("#panel h2"), "shop/<img/src=x/onerror=document.title='x'>")
        tell("and nothing of it ran", (page.script("document.title") != "x", page.log()), (True, []))


def check_again(chromedriver, path):
    """Pods of one name."""
    with Page(chromedriver, path) as page:
        tell("pods of one name have their numbers", page.texts(".pod .name"),
             ["shop/a, number 0", "shop/b", "shop/a, number 2"])
        page.click(".pod .name", 2)
        tell("and each its story", (page.text("#panel h2"), "first tick 5" in page.text("#panel")),
             ("shop/a, number 2", True))
        tell("pods of one name: no error came", page.log(), [])


def check_kubelet(chromedriver, path):
    """What the kubelet did, as whys/kubelet has it."""
    with Page(chromedriver, path) as page:
        tell("counts whom the kubelet evicted", page.text("#chips button:nth-child(2)"), "evicted 5")
        metas = dict(zip(page.texts(".pod .name"), page.texts(".pod .meta .bad")))
        tell("tells when it did, and what the rules alone do", (metas["shop/agree"], metas["shop/paused"]),
             ("evicted 11: low on memory", "evicted by the rules alone, by memory.available"))
        page.click(".pod .name", page.texts(".pod .name").index("shop/first"))
        told = page.text("#panel")
        tell("tells it in a story", [words in told for words in (
            "the kubelet evicted it at 20: low on memory", "they do not evict it; no sample below the threshold")],
             [True, True])
        page.press(Keys.ESCAPE)
        page.click_at(page.row("shop/agree"), 11 / 52, 20)
        tell("has the why of a cross", "the rules, over the recorded samples, agree: they evict it at 10, 1 s before"
             in page.text("#panel"), True)
        tell("of what the kubelet did: no error came", page.log(), [])


def check_ends(chromedriver, path):
    """Pods that the node ended, that are deleted and that are named, as summaries/ has them, in the order of all tools;
    and the clock in turn."""
    with Page(chromedriver, path) as page:
        tell("ranks pods as all tools do", page.texts(".pod .name"), [
            f"shop/{name}" for name in ("hog", "late", "probed", "loop", "guessed", "once", "never", "named", "gone",
                                        "calm")])
        metas = dict(zip(page.texts(".pod .name"), page.texts(".pod .meta .bad")))
        told = metas["shop/late"][:47], metas["shop/named"], metas["shop/gone"]
        tell("tells what ended a pod, and who deleted it", told,
             ("ended by the kubelet 00:00:30: DeadlineExceeded", "named by the rules alone",
              "deleted by the eviction API, 30 s of grace 00:00:30"))
        page.click(".pod .name", 1)
        tell("has it in a story, with the pod's rank", [words in page.text("#panel") for words in (
            "the kubelet ended it at 2026-01-01 00:00:30Z: DeadlineExceeded",
            "the worst: 2026-01-01 00:00:30Z ended by the kubelet", "place 2 of 10")], [True] * 3)
        page.press(Keys.ESCAPE)
        page.click(".pod .name", 4)
        tell("tells no code that was guessed", ["died, code unknown" in page.text("#panel"),
                                                "code 1" in page.text("#panel")], [True, False])
        page.press(Keys.ESCAPE)
        clocks = [page.text("#clock")]
        for _ in range(3):
            page.press("u")
            clocks.append((page.text("#clock"), page.text("#range").split(" –")[0][-1:]))
        tell("goes from one clock to the next", clocks, ["local", ("seconds", "0"), ("UTC", "0"), ("local", "Z")])
        tell("of ends: no error came", page.log(), [])


def check_reasons(chromedriver, path):
    """Why instances died and containers waited, as recordings/reasons has it."""
    with Page(chromedriver, path) as page:
        metas = dict(zip(page.texts(".pod .name"), page.texts(".pod .meta .bad")))
        tell("says why beside a pod's name", [metas[f"shop/{name}"] for name in ("oom", "config", "command", "image")],
             ["OOMKilled · 1 restart", "CreateContainerConfigError", "StartError", ""])
        page.click(".pod .name", page.texts(".pod .name").index("shop/oom"))
        events = page.texts("#panel .event > button")
        died = next(place for place, event in enumerate(events) if "died" in event)
        tell("says why in an event", events[died].split("\n")[1],
             "app died with code 137: OOMKilled, its memory limit is 32Mi (attempt 0)")
        page.click("#panel .event > button", died)
        tell("and what that means", page.text("#panel .why").split("\n")[0],
             "OOM-killed because it came to its memory limit, 32Mi (resources.limits.memory); the node had 4Gi of memory "
             "available")
        page.press(Keys.ESCAPE)
        page.click(".pod .name", page.texts(".pod .name").index("shop/config"))
        tell("says in a story why a container waits", [words in page.text("#panel") for words in (
            "Waits", "app waits: CreateContainerConfigError")], [True, True])
        page.press(Keys.ESCAPE)
        tell("says it where one points at the lane", page.tip(page.row("shop/image"), 12 / 20, 20).split("\n")[1:],
             ["app: waiting", 'waits: ImagePullBackOff: registry.example/shop/web:v9'])
        tell("says why it died there too", page.tip(page.row("shop/late"), 18 / 20, 20).split("\n")[1],
             "app: terminated with code 137: OOMKilled, it has no memory limit, attempt 0")
        tell("of reasons: no error came", page.log(), [])


INK = """const [canvas, x, y] = arguments;
const scale = canvas.width / canvas.clientWidth;
return [...canvas.getContext('2d').getImageData(x * scale, y * scale, 1, 1).data.slice(0, 3)];"""


def check_said(chromedriver, path):
    """What the kubelet reported is among the events of a story, and a pointer shows it."""
    with Page(chromedriver, path) as page:
        page.click(".pod .name", 0)
        told = page.text("#panel")
        tell("tells what the kubelet said in a story", [words in told for words in (
            "kill order: liveness (HTTP 503) (attempt 0)", "web said: Unhealthy, liveness: HTTP 503",
            "said: FailedPostStartHook: exec: <b>", "said: BackOff: Back-off 10s")], [True] * 4)
        page.press(Keys.ESCAPE)
        page.click_at(page.row("shop/web-0"), 15 / 40, 20)
        tell("tells it beside the event", "said: Killing, liveness, grace period 5 s" in page.text("#panel"), True)
        tell("has it in the legend", "reported of it" in page.text("#legend"), True)
        tell("of what was said: no error came", page.log(), [])


def check_gap(chromedriver, path):
    """Two traces with a gap of 20 s between, of 81 s in all."""
    with Page(chromedriver, path) as page:
        row = page.row("shop/web")
        chart = page.driver.find_elements(By.CSS_SELECTOR, ".chart canvas")[-1]
        told = "2026-01-01 00:00:50Z\nnothing was recorded here"
        tell("says in a lane that nothing was recorded", page.tip(row, 50 / 81, 20), told)
        tell("says it in a chart", page.tip(chart, 50 / 81, 10), told)
        page.click(".pod .name", page.texts(".pod .name").index("shop/web"))
        tell("says in a story what is not known", [words in page.text("#panel") for words in (
            "started (attempt 4) (by then, in the gap since 2026-01-01 00:00:40Z)",
            "restart backed off by 10 s (exits counted only since 2026-01-01 00:00:20Z)")], [True, True])
        page.press(Keys.ESCAPE)
        tell("tells what was before it", page.tip(row, 36 / 81, 20).split("\n")[1], "app: running, attempt 2")
        tell("tells what was behind it", page.tip(row, 65 / 81, 20).split("\n")[1], "app: running, attempt 4")
        tell("says what is left out", any("of which nothing was recorded" in text for text in page.texts("#left li")),
             True)
        tell("of a gap: no error came", page.log(), [])
        width = row.rect["width"] - LEFT - RIGHT
        inks = [page.driver.execute_script(INK, row, LEFT + width * second / 81, 20) for second in (34, 52, 63)]
        tell("draws no bar in it", (inks[0] == inks[2], inks[0] == inks[1]), (True, False))


def timed(page, act):
    began = page.seconds()
    act()
    return page.seconds() - began


def check_big(chromedriver, path):
    """256 pods by 20,000 ticks."""
    with Page(chromedriver, path) as page:
        load = page.seconds()
        axis = page.driver.find_element(By.ID, "axis")
        steps = [
            ("drag", lambda: page.drag(axis, 0.4, 0.5, 10)), ("right", lambda: page.press(Keys.ARROW_RIGHT)),
            ("whole", lambda: page.press("0")), ("filter", lambda: page.press("/", "web-12", Keys.ESCAPE)),
            ("next", lambda: page.press("j", "j", "j")), ("story", lambda: page.press(Keys.ENTER)),
            ("why", lambda: page.press("n")),
        ]
        times = {name: timed(page, act) for name, act in steps}
        drawn = float(page.script("document.documentElement.dataset.drawn"))
        print(f"a page of 256 pods by 20,000 ticks: {load:.1f} s of a processor to load, "
              f"{max(times.values()):.2f} s of a processor the longest step, {drawn:.0f} ms the last drawing",
              file=sys.stderr)
        slow = {name: took for name, took in times.items() if took > LONGEST_STEP}
        tell("a page of 256 pods by 20,000 ticks is quick", (slow, load < LONGEST_LOAD), ({}, True))
        elements = page.script("document.getElementsByTagName('*').length")
        tell("it has no more rows than are in sight", elements < 1000, True)
        tell("it has no error", page.log(), [])


def main(folder, chromedriver):
    with Page(chromedriver, f"{folder}/node.html") as page:
        for check in (check_load, check_filter, check_zoom, check_story, check_why, check_theme, check_keys):
            check(page)
        tell("no error came of all that", page.log(), [])
    check_narrow(chromedriver, f"{folder}/node.html")
    check_plain(chromedriver, f"{folder}/plain.html")
    check_odd(chromedriver, f"{folder}/odd.html")
    check_again(chromedriver, f"{folder}/again.html")
    check_kubelet(chromedriver, f"{folder}/kubelet.html")
    check_ends(chromedriver, f"{folder}/ends.html")
    check_reasons(chromedriver, f"{folder}/reasons.html")
    check_gap(chromedriver, f"{folder}/gap.html")
    check_said(chromedriver, f"{folder}/said.html")
    check_big(chromedriver, f"{folder}/big.html")


if __name__ == "__main__":
    main(*sys.argv[1:])
