"""Opens pages of tools/draw in a headless Chromium, and prints as JSON what a reader of each would find.

It is run by Debian's own Python, which has python3-selenium, and not by the one that runs the tests.
"""

import json
import sys
from typing import Any, Dict, List

from selenium import webdriver  # type: ignore
from selenium.webdriver.common.action_chains import ActionChains  # type: ignore
from selenium.webdriver.common.actions.action_builder import ActionBuilder  # type: ignore
from selenium.webdriver.common.actions.pointer_input import PointerInput  # type: ignore
from selenium.webdriver.chrome.options import Options  # type: ignore
from selenium.webdriver.chrome.service import Service  # type: ignore

# A4 paper without its margins, in the points of a screen.
PAPER = (718, 1046)

SAID = "const said = document.getElementById('said'); return said.hidden ? null : said.textContent"
SIDEWAYS = "return document.documentElement.scrollWidth - document.documentElement.clientWidth"
SHOWN_ROWS = "return [...document.querySelectorAll('[data-row]')].filter(row => row.checkVisibility()).length"
BOTTOM = "return document.querySelector('.chart').getBoundingClientRect().bottom"
OPEN_RANGES = "return [...document.querySelectorAll('details[id][open]')].map(part => part.id)"
# Is the bar of the sentence on the screen, in the picture of all places? (It is the last of its row.)
IN_PICTURE = """const link = document.querySelector('#sentence a'), chart = document.querySelector('.chart');
const row = [...chart.querySelectorAll('[data-row]')].find(row => row.dataset.row == link.dataset.shows);
const bars = [...row.children].filter(item => !item.classList.contains('held'));
const left = Math.max(...bars.map(item => item.getBoundingClientRect().left));
return left >= chart.querySelector('.labels').getBoundingClientRect().right && left < innerWidth"""
# Is the begin of what is told now on the screen?
IN_SIGHT = """const item = document.querySelector('.now'), box = item && item.getBoundingClientRect();
if (!item) return false;
const labels = item.closest('.chart').querySelector('.labels').getBoundingClientRect();
return box.top >= 0 && box.bottom <= innerHeight && box.left >= labels.right && box.left < innerWidth"""
MARK = "return document.querySelector(arguments[0])"
MIDDLE = """const mark = document.querySelector(arguments[0]);
mark.scrollIntoView({block: 'center', inline: 'center'});
const box = mark.getBoundingClientRect();
return [box.x + box.width / 2, box.y + box.height / 2].map(Math.round)"""


class Browser:
    """A headless Chromium."""

    def __init__(self, chromium: str, driver: str) -> None:
        options = Options()
        for word in ("--headless=new", "--no-sandbox", "--disable-gpu"):
            options.add_argument(word)
        options.binary_location = chromium
        options.set_capability("goog:loggingPrefs", {"browser": "ALL"})
        self.driver = webdriver.Chrome(service=Service(driver), options=options)

    def run(self, script: str, *words: object) -> Any:
        return self.driver.execute_script(script, *words)

    def open(self, page: str, width: int, height: int, media: str = "screen") -> None:
        size = {"width": width, "height": height, "deviceScaleFactor": 1, "mobile": width < 600}
        self.driver.execute_cdp_cmd("Emulation.setDeviceMetricsOverride", size)
        self.driver.execute_cdp_cmd("Emulation.setEmulatedMedia", {"media": media})
        self.driver.get(f"file://{page}")

    def follow_sentence(self) -> Dict[str, Any]:
        """What the sentence on top leads to: the ranges that are open then, what is told, and whether that is
        seen."""
        self.driver.find_element("css selector", "#sentence a").click()
        return {"open": self.run(OPEN_RANGES), "said": self.run(SAID), "seen": self.run(IN_SIGHT)}

    def press(self, keys: List[str]) -> List[Any]:
        """What is told after each key in the first picture."""
        self.run("document.querySelector('.chart').focus({preventScroll: true})")
        told = []
        for key in keys:
            ActionChains(self.driver).send_keys(key).perform()
            told.append(self.run(SAID))
        return told

    def tap(self, mark: str) -> Any:
        """What is told where a mark is touched."""
        x, y = self.run(MIDDLE, mark)
        actions = ActionBuilder(self.driver, mouse=PointerInput("touch", "finger"))
        actions.pointer_action.move_to_location(x, y)
        actions.pointer_action.pointer_down()
        actions.pointer_action.pointer_up()
        actions.perform()
        return self.run(SAID)

    def press_button(self) -> List[int]:
        """How many rows are shown before and after the button that opens the rest is pressed."""
        before = self.run(SHOWN_ROWS)
        self.driver.find_element("css selector", ".place .button").click()
        return [before, self.run(SHOWN_ROWS)]

    def look_at(self, page: str) -> Dict[str, Any]:
        """What is found on a page: at 1280 points, at 390, and on paper."""
        found: Dict[str, Any] = {"sideways": {}}
        for width in (1280, 390):
            self.open(page, width, 800)
            found["sideways"][width] = self.run(SIDEWAYS)
        if self.run(MARK, "#sentence a"):
            found["sight"] = self.run(IN_PICTURE)
        found["tapped"] = self.tap(".chart .read") if self.run(MARK, ".chart .read") else None
        if self.run(MARK, "#sentence a"):
            found["sentence"] = self.follow_sentence()
        self.open(page, 1280, 800)
        found["keys"] = self.press(["\ue014", "\ue014", "\ue015", "\ue00c"])
        found["rows"] = self.press_button() if self.run(MARK, ".button") else None
        self.open(page, *PAPER, "print")
        found["paper"] = self.run(BOTTOM) <= PAPER[1]
        found["console"] = [entry["message"] for entry in self.driver.get_log("browser")]
        return found


def main() -> None:
    browser = Browser(*sys.argv[1:3])
    try:
        print(json.dumps({page: browser.look_at(page) for page in sys.argv[3:]}))
    finally:
        browser.driver.quit()


if __name__ == "__main__":
    main()
