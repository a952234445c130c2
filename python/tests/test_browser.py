"""The page in a browser, where the machine has one: it says nothing on the console, asks for nothing but itself, shows
what it has to, wide and narrow, light, dark and on paper, and no text lies on another or leaves its drawing. With a
folder in the environment variable PICTURES the pictures are written there, to look at."""

import os
import pathlib
import tempfile
import unittest

import browser
import recordings
from mlat_solver import Files, Fix, State, open_records, page

#: What is looked at: the width, and the choices of `Browser.open`.
LOOKS = (("wide", 1280, {}), ("narrow", 390, {}), ("dark", 1280, {"dark": True}),
         ("printed", 800, {"dark": True, "printed": True}))

#: Texts of drawings that leave them, and pairs that lie on each other; a box has some air above and below.
TEXTS = """[...document.querySelectorAll('figure svg')].flatMap(svg => {
    const whole = svg.getBoundingClientRect();
    const boxes = [...svg.querySelectorAll('text')].map(text => {
        const box = text.getBoundingClientRect();
        return {told: text.textContent, left: box.left + 1, right: box.right - 1, top: box.top + 3,
                bottom: box.bottom - 3};
    });
    const within = box => box.left >= whole.left && box.right <= whole.right + 2 && box.top >= whole.top - 1
        && box.bottom <= whole.bottom + 1;
    const meet = (a, b) => a.left < b.right && b.left < a.right && a.top < b.bottom && b.top < a.bottom;
    return boxes.flatMap((box, k) => [...(within(box) ? [] : [box.told + ' leaves its drawing']),
        ...boxes.slice(k + 1).filter(other => meet(box, other)).map(other => box.told + ' lies on ' + other.told)]);
})"""

#: The least contrast of the page's text with its ground, by the rule of WCAG 2.
CONTRAST = """(() => {
    const parts = colour => colour.match(/[0-9.]+/g).slice(0, 3).map(part => part / 255)
        .map(part => part <= 0.03928 ? part / 12.92 : ((part + 0.055) / 1.055) ** 2.4);
    const light = colour => { const [r, g, b] = parts(colour); return 0.2126 * r + 0.7152 * g + 0.0722 * b; };
    const ground = light(getComputedStyle(document.body).backgroundColor);
    const ratio = other => (Math.max(ground, other) + 0.05) / (Math.min(ground, other) + 0.05);
    const texts = [...document.querySelectorAll('h1, p, td, figcaption')].map(part => getComputedStyle(part).color);
    const drawn = [...document.querySelectorAll('svg text')].map(part => getComputedStyle(part).fill);
    return Math.min(...[...texts, ...drawn].map(colour => ratio(light(colour))));
})()"""


def count(selector):
    """How many elements there are, as an expression."""
    return f"document.querySelectorAll('{selector}').length"


def seen():
    """The pages by name: the examples, their records, and recorded problems with many receptions or other refusals."""
    for name in recordings.FOLDERS:
        yield name, page.of_files(f"examples/{name}", Files.of_folder(recordings.EXAMPLES / name))
    for place, record in enumerate(open_records(recordings.EXAMPLES / "records.bin")):
        yield f"record-{place}", page.of_record(f"examples/records.bin, place {place}", record)
    there = set()
    for place, (files, _) in enumerate(recordings.solved()):
        shown = page.of_files(f"recorded problem {place}", files)
        kind = shown.answer.n // 8 if isinstance(shown.answer, Fix) else -shown.answer.number
        states = {state.state for state in shown.states}
        if (kind, *sorted(states)) not in there:
            there.add((kind, *sorted(states)))
            yield f"recorded-{place}", shown


@unittest.skipUnless(browser.found(), "no browser is there")
class Browser(unittest.TestCase):
    """Every kind of page, as a browser lays it out."""

    @classmethod
    def setUpClass(cls):
        cls.browser = browser.Browser()
        cls.room = tempfile.TemporaryDirectory()
        cls.pages = dict(seen())

    @classmethod
    def tearDownClass(cls):
        cls.browser.close()
        cls.room.cleanup()

    def opened(self, name, look, width, choice):
        path = pathlib.Path(self.room.name, f"{name}.html")
        path.write_text(page.html(self.pages[name]), "utf-8")
        self.browser.open(path, width, **choice)
        if "PICTURES" in os.environ:
            self.browser.picture(pathlib.Path(os.environ["PICTURES"], f"{name}-{look}.png"))
        return path

    def quiet(self, path):
        """No word on the console, and no request but the page's own."""
        said = ("Log.entryAdded", "Runtime.consoleAPICalled", "Runtime.exceptionThrown")
        self.assertEqual([event for event in self.browser.events if event.get("method") in said], [])
        asked = [event["params"]["request"]["url"] for event in self.browser.events
                 if event.get("method") == "Network.requestWillBeSent"]
        self.assertEqual(asked, [f"file://{path}"])

    def shown(self, answer, receptions, states):
        """What the page of such an answer has."""
        fixed, value = isinstance(answer, Fix), self.browser.evaluate
        self.assertEqual(value(count("figure.plane")), int(bool(receptions)))
        self.assertEqual(value(count("figure.closeup ellipse")), int(fixed))
        self.assertEqual(value(count("figure.residuals")), int(bool(states)))
        self.assertEqual(value(count("table.numbers tbody tr")), (12 + bool(answer.altitude)) if fixed else 0)
        self.assertEqual(value(count("table.receivers tbody tr")), len(receptions))
        self.assertEqual(value(count(".refusal")), int(not fixed))
        self.assertEqual(value(count("figure.plane text.label")), len(receptions))
        kinds = {State.USED: "circle.used", State.REMOVED: "path.removed", State.LEFT_OUT: "path.leftout:not(.ray)"}
        for kind, selector in kinds.items():
            due = sum(state.state == kind for state in states)
            self.assertEqual(value(count(f"figure.plane > svg > {selector}")), due)
            self.assertEqual(value(count(f"table.receivers {selector}")), due)

    def test_pages(self):
        self.assertGreaterEqual(len(self.pages), 30)
        for name, shown in self.pages.items():
            for look, width, choice in LOOKS:
                with self.subTest(page=name, look=look):
                    path = self.opened(name, look, width, choice)
                    self.quiet(path)
                    self.assertLessEqual(self.browser.evaluate("document.documentElement.scrollWidth"), width)
                    self.assertEqual(self.browser.evaluate(TEXTS), [])
                    self.assertGreater(self.browser.evaluate(CONTRAST), 4.5)
            self.shown(shown.answer, shown.receptions, shown.states)

    def test_a_fault_is_seen(self):
        path = pathlib.Path(self.room.name, "wrong.html")
        text = page.html(self.pages["fix"])
        path.write_text(text.replace("</main>", '<img src="http://localhost:9/x"></main>'), "utf-8")
        self.browser.open(path)
        with self.assertRaises(AssertionError):
            self.quiet(path)
        path.write_text(text.replace("</svg>", '<text x="16" y="386">on the scale</text></svg>', 1), "utf-8")
        self.browser.open(path)
        self.assertIn("20 km lies on on the scale", self.browser.evaluate(TEXTS))


if __name__ == "__main__":
    unittest.main()
