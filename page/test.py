#!/usr/bin/env python3
"""Drives the page in Chromium: test.py PAGE PROGRAM BROWSER [PICTURES]

Each example, and texts that are changed at random (as plain/compare.py makes them), have to print and draw what PROGRAM
does. Then the page is used: by keys, by a mouse, with files, with a run that is long and one that never ends. Then it is
looked at in a wide and a narrow window, light and dark: nothing is cut or overlaps, contrasts are those of WCAG AA, each
control has a name. With PICTURES, a folder, pictures of all these windows are left there.
"""

import json
import os
import subprocess
import sys
import tempfile
import time

from browser import Browser, Failed

HERE = os.path.dirname(os.path.abspath(__file__))
WINDOWS = [(1440, 900), (375, 800)]


class Tests:
    def __init__(self, browser, page, program, folder):
        self.browser, self.page, self.program, self.folder = browser, page, program, folder
        self.tried = self.failed = 0
        self.began = self.said = time.monotonic()

    def far(self):
        """Each ten seconds: how far this is."""
        now = time.monotonic()
        if now - self.said >= 10:
            print(f"page: {now - self.began:.0f} s in the browser: {self.tried} things looked at", file=sys.stderr, flush=True)
            self.said = now

    def holds(self, what, is_so, seen=""):
        self.far()
        self.tried += 1
        if not is_so:
            self.failed += 1
            print(f"page: {what}{f': {str(seen)[:300]}' if seen != '' else ''}")

    def are(self, what, seen, wanted):
        self.holds(what, seen == wanted, f"{str(seen)[:140]!r} and not {str(wanted)[:140]!r}")

    def value(self, script, seconds=360):
        return self.browser.evaluate(script, seconds)

    def open(self, address=""):
        """Opens the page anew."""
        self.browser.open("about:blank")
        self.browser.open(f"file://{self.page}{address}")
        self.value("new Promise((done) => document.readyState === 'complete' ? done() : addEventListener('load', () => done()))")
        with open(os.path.join(HERE, "test.js"), encoding="utf-8") as script:
            self.value(script.read())
        self.value("answerIs()")

    def take(self, command, text, options=None):
        """What the page has for a text: the words that it ran, their result, the picture."""
        return self.value(f"answerTo({json.dumps(command)}, {json.dumps(text)}, {json.dumps(options or {})})")

    def example(self, command, index=0):
        example = self.value(f"EXAMPLES[{json.dumps(command)}][{index}]")
        return self.take(command, example["text"], example["options"])

    def run(self, words, text):
        done = subprocess.run([self.program, *words], input=text.encode(), capture_output=True)
        return {"status": done.returncode, "output": done.stdout.decode(), "errors": done.stderr.decode()}

    # ---- what it prints and draws

    def same(self, seen):
        """Whether an answer of the page is the program's. Gives whether it has a picture."""
        words = " ".join(seen["words"])
        for name, wanted in self.run(seen["words"], seen["text"]).items():
            self.are(f"{words}: {name}", seen["result"][name], wanted)
        if seen["drawnWords"]:
            self.are(f"{' '.join(seen['drawnWords'])}: picture", seen["drawn"], self.run(seen["drawnWords"], seen["text"])["output"])
        return seen["drawn"].startswith("<svg")

    def examples(self):
        count = pictures = 0
        for command, examples in self.value("EXAMPLES").items():
            for index in range(len(examples)):
                pictures += self.same(self.example(command, index))
                count += 1
        return count, pictures

    def changed(self, each=30):
        """Texts of each subcommand with changes, through the page; those of other options by its worker alone. What isn't
        text is left out: a browser can't have it."""
        sys.path.insert(0, os.path.join(HERE, "..", "plain"))
        import compare

        modes = self.value("Object.keys(MODES)")
        named = self.value("Object.fromEntries(Object.entries(OPTIONS).map(([command, all]) => [command, all.map(({ name }) => name)]))")
        count = pictures = 0
        for words, (files, choices, rate) in compare.inputs(self.program).items():
            command, *given = words.split()
            mutate, made = compare.Mutator("page " + words), 0
            while made < each:
                text = mutate.file(compare.lines_of(mutate.random.choice(files))[:60], rate)
                if not text.isascii() or b"\r" in text or b"\0" in text:
                    continue
                text, made = text.decode(), made + 1
                all_words = [*given, *mutate.random.choice(choices)]
                options = options_of(all_words)
                if command in modes and all(name in named[command] for name in options):
                    pictures += self.same(self.take(command, text, options))
                else:
                    all_words = [command, *all_words]
                    result = self.value(f"runner.ask({json.dumps(all_words)}, {json.dumps(text)})")
                    self.are(f"{' '.join(all_words)}: result", result, self.run(all_words, text))
            count += made
        return count, pictures

    # ---- how it is used

    def keys(self):
        """Tabs by arrows, and each control by the Tab key, once, with an outline."""
        self.open()
        tabs = self.value("TASKS.map(({ name }) => 'tab-' + name)")
        self.value("at('tabs').querySelector('[aria-selected=true]').focus()")
        for key, wanted in [("Home", 0), ("ArrowLeft", -1), ("ArrowRight", 0), ("ArrowRight", 1), ("End", -1), ("ArrowRight", 0)]:
            self.browser.press(key)
            state = self.value("""[document.activeElement.id, document.querySelector("#tabs [aria-selected=true]").id,
                at("panel").getAttribute("aria-labelledby"), document.querySelectorAll("#tabs [tabindex='0']").length]""")
            self.are(f"{key} in the tabs", state, [tabs[wanted], tabs[wanted], tabs[wanted], 1])
        for command in ("step", "generate", "endpoint"):
            self.example(command)
            self.value("at('skip').focus()")
            seen = []
            while (now := self.value("focusNow()")) and now["name"] not in seen[:1] and len(seen) < 200:
                seen.append(now["name"])
                self.holds(f"{command}: the focus is seen on {now['name']}", now["isOutlined"] and now["isThere"], now)
                self.browser.press("Tab")
            wanted = self.value("""[...document.querySelectorAll(CONTROLS)].filter((element) => isSeen(element) && element.tabIndex === 0
                && !(element.type === "radio" && !element.checked)).map(nameOf)""")
            self.are(f"{command}: the Tab key comes to each control", sorted(set(wanted) - set(seen)), [])

    def typing(self):
        """A line is typed, its fault is said and marked, and gone to; it is taken away again."""
        self.example("step", 1)
        good = self.value("at('verdict-box').dataset.is")
        self.value("at('text').focus(); at('text').setSelectionRange(at('text').value.length, at('text').value.length)")
        self.browser.type("colect 1")
        self.value("answerIs()")
        line = self.value("at('text').value.split('\\n').length")
        self.are("a good script, and one with a wrong line", [good, self.value("at('verdict-box').dataset.is")], ["good", "bad"])
        self.are("the wrong line is red", self.value("[...document.querySelectorAll('#gutter .wrong')].map((one) => Number(one.textContent))"), [line])
        self.browser.click("#reasons button")
        self.are("a reason's line is gone to", self.value("at('text').value.slice(at('text').selectionStart, at('text').selectionEnd)"), "colect")
        self.browser.press("Backspace")
        self.browser.type("collect")
        self.value("answerIs()")
        self.holds("a line that is mended is read", "refused" in self.value("at('detail').textContent"))
        self.value("at('forms').open = true")
        self.browser.click("#forms li:nth-child(8) button")
        self.value("answerIs()")
        self.are("a form is put in", self.value("at('text').value.split('\\n').length"), line + 1)
        self.value("at('forms').open = false")

    def options(self):
        """A wrong option is said and marked, on either side; the words for the command line are those that are run."""
        self.example("tlp")
        self.browser.click("#tlp-size")
        self.browser.type("3")
        self.value("answerIs()")
        self.are("a wrong option", self.value("[last.result.status, at('tlp-size').getAttribute('aria-invalid'), at('words').textContent]"),
                 [2, "true", "pciex tlp --size 40963 packets.txt"])
        self.value("at('tlp-size').value = ''; at('tlp-size').dispatchEvent(new Event('input'))")
        self.value("answerIs()")
        self.are("an option that is emptied has its default", self.value("[last.result.status === 2, at('words').textContent]"),
                 [False, "pciex tlp packets.txt"])
        self.example("step", 0)
        self.value("at('drawing').querySelector('details').open = true")
        for text, is_good in (("9", True), ("x", False), ("", True)):
            self.value(f"at('chart-to').value = {json.dumps(text)}; at('chart-to').dispatchEvent(new Event('input'))")
            self.value("answerIs()")
            seen = self.value("""[isSeen(at("paper")), at("undrawn").hidden, at("chart-to").getAttribute("aria-invalid") === null,
                isSeen(at("chart-to"))]""")
            self.are(f"the picture to line {text!r}", seen, [is_good, is_good, is_good, True])
        self.are("the script's own verdict stays", self.value("at('verdict-box').dataset.is"), "good")

    def hands(self):
        """Each output is handed on, by its button, to a subcommand that reads it. The browser's way back leads back."""
        starts = {"generate": 0, "step": 0, "search": 1, "check": 3, "upgrade": 0, "tlp": 1, "decode": 0, "encode": 0, "endpoint": 0}
        pressed = 0
        for command, index in starts.items():
            self.example(command, index)
            for place in range(self.value("at('hands').children.length")):
                says = self.value(f"at('hands').children[{place}].textContent")
                before = self.value("[state.command, textOf()]")
                self.value("last.isOld = true")
                self.browser.click(f"#hands button:nth-child({place + 1})")
                self.value("until(() => last && last.isWhole && !last.isOld, 'what is handed on')")
                pressed += 1
                self.holds(f"{says}: it is read", not self.value("/^fault/m.test(last.result.output) || last.result.status === 2"),
                           self.value("at('verdict').textContent"))
                self.holds(f"{says}: it is a text of its own", self.value("[state.command, textOf()]") != before or says.startswith("Is there"))
                self.value("history.back()")
                self.value(f"until(() => state.command === {json.dumps(before[0])} && last && last.isWhole)")
                self.are(f"{says}: and back", self.value("[state.command, textOf()]"), before)
        self.are("each hand is tried, but for that of a trace that is found", pressed, self.value("Object.values(HANDS).flat().length") - 1)
        self.take("search", self.value("EXAMPLES.check[0].text"))
        self.browser.click("#hands button")
        self.value("until(() => state.command === 'check' && last && last.isWhole)")
        self.are("a trace that is found is checked", self.value("last.result.output"), "ok\n")

    def address(self):
        """The address brings text, options and those of the picture back; one that is odd does no harm."""
        self.example("step", 2)
        self.value("state.options.chart = { levels: true }; state.options.step = { 'keep-going': true }; show()")
        self.value("answerIs()")
        before = self.value("[commandLines(), textOf()]")
        self.open(self.value("location.hash"))
        self.are("the address brings all back", self.value("[commandLines(), textOf()]"), before)
        self.open("#do=constructor&text=x&seed=%3Cimg%20src=x%20onerror=alert(1)%3E")
        self.are("an odd address", self.value("state.command"), "step")
        seen = self.take("check", "<img src=x onerror=alert(1)>\n")
        self.are("markup in a text stays text", [seen["result"]["status"], self.value("document.querySelectorAll('#answered img').length")], [1, 0])

    def written(self, name, text):
        path = os.path.join(self.folder, name)
        with open(path, "w", encoding="utf-8", newline="") as out:
            out.write(text)
        return path

    def saved(self, selector, name):
        """The bytes of the file that a button saves."""
        path = os.path.join(self.folder, name)
        if os.path.exists(path):
            os.remove(path)
        self.browser.click(selector)
        until = time.monotonic() + 300
        while not os.path.exists(path) and time.monotonic() < until:
            time.sleep(.02)
        with open(path, encoding="utf-8", newline="") as file:
            return file.read()

    def files(self):
        log, script, trace = (self.value(f"EXAMPLES.{command}[0].text") for command in ("search", "step", "check"))
        self.example("tlp")
        self.browser.choose_file("#file", self.written("my.log", log.replace("\n", "\r\n")))
        self.value("until(() => state.command === 'search' && last && last.isWhole)")
        self.are("a log is opened", self.value("[textOf(), at('told').textContent]"), [log, "my.log is open."])
        self.browser.drop_file(self.written("my.script", script))
        self.value("until(() => state.command === 'step' && last && last.isWhole)")
        self.are("a script is dropped", self.value("[textOf(), at('drop').hidden]"), [script, True])
        self.browser.choose_file("#file", self.written("my.trace", trace))
        self.value("until(() => state.command === 'check' && last && last.isWhole)")
        self.are("a trace is opened", self.value("textOf()"), trace)
        self.browser.choose_file("#file", self.written("large", "#" * 2000001))
        self.value("until(() => at('told').textContent.includes('large'))")
        self.are("a file that is too large leaves all as it is", self.value("textOf()"), trace)
        self.are("the text is saved", self.saved("#keep", "trace.txt"), trace)
        self.are("the picture is saved", self.saved("#save-picture", "picture.svg"), self.run(["draw"], trace)["output"])

    def picture_sizes(self):
        self.browser.window(1440, 900)
        self.example("step", 0)
        wide = self.value("[picture.element.getBoundingClientRect().width, at('paper').clientWidth, picture.wide]")
        self.holds("a picture is as wide as the paper, or has its own size", abs(wide[0] - min(wide[1], wide[2])) <= 2, wide)
        self.browser.click("#larger")
        self.browser.click("#larger")
        larger = self.value("[picture.element.getBoundingClientRect().width, at('paper').scrollWidth > at('paper').clientWidth]")
        self.holds("a larger picture scrolls on its paper", larger[0] > 1.5 * wide[0] and larger[1], larger)
        self.value("at('paper').focus()")
        self.browser.press("-")
        self.holds("the key - makes it smaller", self.value("picture.element.getBoundingClientRect().width") < larger[0])
        self.browser.click("#fit")
        self.are("Fit brings its width back", self.value("picture.element.getBoundingClientRect().width"), wide[0])

    def long_output(self):
        """A million events: the page answers within a second, shows a part, and saves them all."""
        self.example("generate")
        gaps = []
        for _ in range(3):
            self.take("generate", "", {"seed": "1", "events": "10"})
            gaps.append(self.value("""longestGap(() => take("generate", "", { seed: "1", events: "1000000" }), () => last && last.isWhole)"""))
            if gaps[-1] < 1000:
                break
        self.holds("a million events: the page answers within a second", gaps[-1] < 1000, [round(gap) for gap in gaps])
        shown = self.value("[at('output').textContent.length, at('cut').textContent, at('verdict').textContent]")
        self.holds("a million events: a part is shown", 0 < shown[0] <= 200000 and shown[1] != "" and "1,000,000" in shown[2], shown)
        wanted = self.run(["generate", "--seed", "1", "--events", "1000000"], "")["output"]
        self.holds("a million events are saved", self.saved("#save", "output.txt") == wanted)
        return gaps[-1]

    def long_run(self):
        """A run that doesn't end: nothing old is shown beside it, it can be stopped, it is stopped, and it isn't in the way."""
        self.example("generate")
        self.value("take('generate', '', { seed: '1', events: '1000000000' })")
        self.are("what is old can't be used", self.value("[at('results').inert, last, at('answered').getAttribute('aria-busy')]"), [True, None, "true"])
        self.value("until(() => !at('stop').hidden)")
        seen = self.value("[at('output').textContent, isSeen(at('printed')), at('hands').children.length, at('verdict').textContent]")
        self.are("nothing old is shown while it runs", seen, ["", False, 0, "Running."])
        self.browser.click("#stop")
        self.value("until(() => at('verdict').textContent.startsWith('The run stopped'))")
        self.are("it is stopped", self.value("[at('stop').hidden, at('longer').hidden, last, runner.worker, document.activeElement.id]"),
                 [True, True, None, None, "verdict-box"])
        self.value("void run(600)")
        self.value("until(() => at('verdict').textContent.startsWith('The run stopped after 0.6 seconds'))")
        self.are("it is stopped after its time, and a minute is offered", self.value("[at('longer').hidden, at('verdict-box').dataset.is]"), [False, "unsure"])
        self.browser.click("#longer")
        self.value("until(() => !at('stop').hidden && at('detail').textContent.endsWith('of 60 s'))")
        self.value("take('check', EXAMPLES.check[0].text)")
        self.value("answerIs()")
        self.are("the next one isn't kept waiting", self.value("[last.result.output, at('stop').hidden]"), ["ok\n", True])

    # ---- how it looks

    def looks(self, pictures):
        shown = {"tlp": 0, "decode": 0, "encode": 0, "step": 0, "search": 2, "check": 3, "upgrade": 0, "generate": 0, "endpoint": 0}
        roles = {"button", "textbox", "combobox", "checkbox", "radio", "tab", "link", "DisclosureTriangle", "img", "region", "form", "table"}
        for scheme in ("light", "dark"):
            for wide, high in WINDOWS:
                self.browser.window(wide, high, scheme)
                for command, index in shown.items():
                    self.example(command, index)
                    self.value("for (const one of document.querySelectorAll('details')) one.open = true; at('text').blur(); scrollTo(0, 0)")
                    self.value("new Promise((done) => requestAnimationFrame(() => setTimeout(done, 200)))")
                    what = f"{command}, {wide} pixels, {scheme}"
                    self.are(f"{what}: places", self.value("badPlaces()"), [])
                    self.are(f"{what}: contrast", self.value("lowContrast()"), [])
                    if pictures:
                        self.value("for (const one of document.querySelectorAll('details')) one.open = false")
                        self.browser.picture(os.path.join(pictures, f"{command}-{wide}-{scheme}.png"))
                    if scheme == "light":
                        nodes = self.browser.call("Accessibility.getFullAXTree")["nodes"]
                        named = [(node["role"]["value"], node.get("name", {}).get("value", "").strip()) for node in nodes if not node.get("ignored")]
                        self.are(f"{what}: controls without a name", [role for role, name in named if role in roles and not name], [])

    def nothing_else(self):
        """No error, and nothing was asked of a network."""
        errors = [event["exceptionDetails"].get("exception", {}).get("description", "") for event in self.browser.events("Runtime.exceptionThrown")]
        self.are("errors of scripts", errors, [])
        said = [event["args"] for event in self.browser.events("Runtime.consoleAPICalled") if event["type"] in ("error", "assert")]
        self.are("errors on the console", said, [])
        asked = {event["request"]["url"].partition(":")[0] for event in self.browser.events("Network.requestWillBeSent")}
        self.are("what was asked for", sorted(asked - {"file", "blob", "data", "about"}), [])


def options_of(words):
    """The options of a command line, as the page has them."""
    made, name = {}, None
    for word in words:
        if word.startswith("--"):
            name = word[2:]
            made[name] = True
        else:
            made[name] = word
    return made


def main(page, program, browser, pictures=None):
    if pictures:
        os.makedirs(pictures, exist_ok=True)
    page, program = os.path.abspath(page), os.path.abspath(program)
    room = tempfile.TemporaryDirectory(dir=os.path.dirname(page), ignore_cleanup_errors=True)
    with room as folder, Browser(browser, folder) as driven:
        tests = Tests(driven, page, program, folder)
        driven.window(*WINDOWS[0])
        tests.open()
        examples, drawn = tests.examples()
        changed, more = tests.changed()
        for part in (tests.keys, tests.typing, tests.options, tests.hands, tests.address, tests.files, tests.picture_sizes, tests.long_run):
            part()
        gap = tests.long_output()
        tests.looks(pictures)
        tests.nothing_else()
    verdict = "each as the program" if not tests.failed else f"{tests.failed} of {tests.tried} differ"
    print(f"page: {examples} examples, {changed} changed texts, {drawn + more} pictures, {tests.tried} things looked at, "
          f"at a million events {gap:.0f} ms without an answer: {verdict}")
    return 1 if tests.failed else 0


if __name__ == "__main__":
    try:
        sys.exit(main(*sys.argv[1:]))
    except Failed as failure:
        sys.exit(f"page: not tried to the end: {failure}")
