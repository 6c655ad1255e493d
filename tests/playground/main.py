#!/usr/bin/env python3
"""Opens the playground in chromium, and compares what it shows: main.py FOLDER [--pictures FOLDER]

In FOLDER lies the playground as `rust/playground/build.sh` makes it. It is served on 127.0.0.1.
The expected values are worked out by hand from the enums. With --pictures it writes pictures of the
page at two widths, light and dark. The last line is `N passed, M failed`."""
import argparse
import functools
import http.server
import json
import sys
import threading
import urllib.parse

from browser import Browser

README = """use logos::Logos;

#[derive(Debug, Logos)]
#[logos(skip r"[ \\t\\n]+")]
enum Token {
    #[regex("[a-z]+")]
    Word,
    #[token("=")]
    Equals,
}
"""
CODES = """#[derive(logos::Logos)]
#[logos(skip " +")]
enum Code {
    #[token("add")]
    Add,
    #[regex("[a-z_]+")]
    Name,
    #[regex("[0-9a-f]+")]
    Hex,
}
"""
# Markup, quotes, a mark that turns the direction of letters, and NUL, in patterns that are found.
HOSTILE = "#[derive(Logos)]\nenum H {\n    #[token(r#\"<script>document.title='bad'</script>\"#)]\n    Script,\n    #[token(\"\u202e&quot;\0\")]\n    Mark,\n}\n"
HOSTILE_TEXT = "<script>document.title='bad'</script>\u202e&quot;\0<b>"
# Two leaves whose message contains markup: 40 bytes, so the priority of each is 80.
MARKUP = "<img src=x onerror=document.title='bad'>"
ALIKE = f"#[derive(Logos)]\nenum M {{\n    #[token(\"{MARKUP}\")]\n    One,\n    #[token(\"{MARKUP}\")]\n    Two,\n}}\n"
# Its positions are so many that the time runs out, on fast machines too.
SLOW = "#[derive(Logos)]\nenum S {\n    #[regex(r\"(?:\\w?){300}!\")]\n    A,\n}\n"
# 70 words of one letter, so the graph has the root and a state for each: more than are drawn.
MANY = "#[derive(Logos)]\nenum W {\n" + "".join(f"    #[token(\"{chr(0x4e00 + it)}\")]\n    W{it},\n" for it in range(70)) + "}\n"
TWO = "#[derive(Logos)]\nenum A {\n    #[token(\"x\")]\n    X,\n}\nmod m {\n    #[derive(Logos)]\n    enum B {\n        #[regex(\"[x-z]+\")]\n        Y,\n    }\n}\n"


class Quiet(http.server.SimpleHTTPRequestHandler):
    """Serves the folder without a log."""

    def log_message(self, *_):
        pass


class Test:
    """The page in a browser, and the counts."""

    def __init__(self, browser, base):
        self.browser, self.base, self.passed, self.failed = browser, base, 0, 0

    def expect(self, what, found, wanted):
        if found == wanted:
            self.passed += 1
        else:
            self.failed += 1
            print(f"failed: {what}\n  found  {found!r}\n  wanted {wanted!r}")

    def open(self, enum=None, text=None, limit=60000):
        """Opens the page with these texts, and waits for all answers."""
        given = {"enum": enum, "text": text, "limit": limit}
        words = urllib.parse.urlencode({key: it for key, it in given.items() if it is not None}, quote_via=urllib.parse.quote)
        self.browser.open(f"{self.base}/index.html#{words}")
        self.browser.until("document.documentElement?.dataset.state")
        self.browser.value("document.getElementById('tokens-details').open = true")
        self.settle()

    def edit(self, area, text):
        """Types a text in the place of all that is in a field, and waits for the answers."""
        self.browser.value(f"(document.getElementById('{area}').focus(), document.getElementById('{area}').select())")
        if len(text) < 10000:
            self.browser.call("Input.insertText", text=text)
        else:
            self.browser.value(f"(document.activeElement.value = {json.dumps(text)}, document.activeElement.dispatchEvent(new Event('input')))")
        self.settle()

    def settle(self):
        """Waits until the page has been idle for a moment."""
        if not self.browser.until("new Promise((done) => setTimeout(() => done(document.documentElement.dataset.state === 'idle'), 100))"):
            raise OSError("the page does not become idle")

    def put_cursor(self, offset):
        self.browser.value(f"(document.getElementById('text').focus(), document.getElementById('text').setSelectionRange({offset}, {offset}))")
        self.settle()

    def texts(self, selector):
        return self.browser.value(f"[...document.querySelectorAll({json.dumps(selector)})].map((it) => it.textContent)")

    def rows(self, table):
        return self.browser.value(f"[...document.getElementById('{table}').tBodies[0].rows].map((row) => [...row.cells].map((it) => it.textContent))")

    def painted(self, editor):
        """Returns the pieces of an editor that have colors, with their classes."""
        return self.browser.value(f"[...document.querySelectorAll('#{editor} .paint span')].filter((it) => it.className).map((it) => [it.className, it.textContent])")

    def text(self, name):
        return self.browser.value(f"document.getElementById('{name}').textContent")


def test_readme(test):
    test.open(README, "size = big\nanswer = 42\n")
    words = [["token leaf-1", "size"], ["token leaf-2", "="], ["token leaf-1", "big"], ["token leaf-1", "answer"], ["token leaf-2", "="], ["token error", "4"], ["token error", "2"]]
    test.expect("the colors of the text", test.painted("text-editor"), words)
    test.expect("no fault", [test.text("fault-count"), test.painted("source-editor")], ["No faults.", []])
    test.expect("the tokens", test.rows("tokens")[:3], [["0..4", "1 Word", "2", '"size"'], ["5..6", "2 Equals", "2", '"="'], ["7..10", "1 Word", "2", '"big"']])
    leaves = [["0", "skip", "regex", 'r"[ \\t\\n]+"', "2 (default)", "", "4"], ["1", "Word", "regex", '"[a-z]+"', "2 (default)", "", "6"], ["2", "Equals", "token", '"="', "2 (default)", "", "8"]]
    test.expect("the leaves", test.rows("leaves"), leaves)
    # The root, and a state after each leaf. Blanks and letters lead back to theirs.
    drawn = [len(test.texts("#diagram .state")), len(test.texts("#diagram .edge")), len(test.rows("states"))]
    test.expect("the states that are drawn", drawn, [4, 5, 4])
    marks = sorted(row[1] for row in test.rows("states"))
    test.expect("the marks of the states", marks, ["", "Equals", "Word", "skip"])
    test.put_cursor(2)
    test.expect("the token at the cursor", test.text("token"), "Word: leaf 1, bytes 0..4, priority 2.")
    test.expect("why it is found", test.rows("why"), [["1", "2", "0..4", '"size"', "Word wins"]])
    test.put_cursor(23)
    test.expect("the end of the text", test.text("token"), "No token: the text ends here.")
    test.put_cursor(4)
    test.expect("a point that is skipped", test.text("token"), "No token: this is skipped.")
    test.expect("why it is skipped", test.rows("why"), [["0", "2", "4..5", '" "', "skip wins"]])
    test.put_cursor(20)
    test.expect("an error at the cursor", test.text("token"), "Error, bytes 20..21: no leaf matches here.")
    test.expect("no leaf matches there", test.rows("why"), [])
    test.edit("text", "größe=x")
    # `ö` and `ß` have two bytes each.
    test.expect("letters that are not ASCII", test.painted("text-editor"), [["token leaf-1", "gr"], ["token error", "ö"], ["token error", "ß"], ["token leaf-1", "e"], ["token leaf-2", "="], ["token leaf-1", "x"]])
    test.expect("their spans in bytes", [row[0] for row in test.rows("tokens")], ["0..2", "2..4", "4..6", "6..7", "7..8", "8..9"])


def test_ambiguous(test):
    test.open(CODES, "add fee feel")
    test.expect("the faults under their characters", test.painted("source-editor"), [["fault", '"[a-z_]+"'], ["fault", '"[0-9a-f]+"']])
    test.expect("their count", test.text("fault-count"), "Faults: 2. Warnings: 0.")
    test.expect("their code", test.texts("#faults .message strong"), ["error[Disambiguation]"] * 2)
    test.expect("their spans", test.texts("#faults button"), ["Line 6, column 13", "Line 8, column 13"])
    test.expect("their helps", test.texts("#faults .help"), ["help: give the pattern that should win a higher `priority`"] * 2)
    test.expect("a note", 'note: both match "a" with priority 2, so 3 would decide' in test.texts("#faults .note"), True)
    test.expect("no tokens", [test.painted("text-editor"), test.rows("tokens"), test.rows("leaves")], [[], [], []])
    test.browser.value("document.querySelector('#faults button').click()")
    test.expect("the span that is selected", test.browser.value("String(document.getSelection()) || document.activeElement.value.slice(document.activeElement.selectionStart, document.activeElement.selectionEnd)"), '"[a-z_]+"')
    test.edit("source", CODES.replace('f]+"', 'f]+", priority = 3'))
    test.expect("no fault after the edit", [test.text("fault-count"), test.texts("#faults li")], ["No faults.", []])
    test.expect("its tokens", test.painted("text-editor"), [["token leaf-1", "add"], ["token leaf-3", "fee"], ["token leaf-2", "feel"]])
    test.put_cursor(9)
    test.expect("the longest match", test.rows("why"), [["2", "2", "8..12", '"feel"', "Name wins"], ["3", "3", "8..11", '"fee"', "Hex"]])
    test.put_cursor(4)
    test.expect("the highest priority", test.rows("why"), [["2", "2", "4..7", '"fee"', "Name"], ["3", "3", "4..7", '"fee"', "Hex wins"]])


def test_hostile(test):
    test.open(HOSTILE, HOSTILE_TEXT)
    front, mark = HOSTILE_TEXT[:37], HOSTILE_TEXT[37:45]
    wanted = [["token leaf-0", front], ["token leaf-1", mark], ["token error", "<"], ["token error", "b"], ["token error", ">"]]
    test.expect("the tokens of markup", test.painted("text-editor"), wanted)
    test.expect("invisible characters by their numbers", test.rows("tokens")[1][2:], ["20", '"\\u{202e}&quot;\\u{0}"'])
    test.open(ALIKE, MARKUP)
    message = f'The pattern #[token("{MARKUP}")] ::One can match simultaneously with the following variants:'
    test.expect("markup in a message", test.texts("#faults .message span")[:1], [message])
    test.expect("its priority", "note: (all at the priority 80)" in test.texts("#faults .note"), True)
    test.expect("no element of it", test.browser.value("[document.images.length, document.scripts.length, document.title]"), [0, 1, "logos playground"])
    test.open("#[derive(Logos)]\nenum \"<b>\" {", "a")
    test.expect("a source that is no enum", [test.text("status") != "", test.rows("tokens")], [True, []])


def test_limits(test):
    test.open(SLOW, "abab", limit=1500)
    test.settle()
    found = test.texts("#faults li") + [test.text("status")]
    test.expect("a slow enum is ended", any("stopped" in it or "memory" in it for it in found), True)
    test.edit("source", README)
    test.expect("the page goes on", test.painted("text-editor"), [["token leaf-1", "abab"]])
    long = "word = other\n" * 6000
    test.edit("text", long)
    test.expect("a long text is cut", test.text("cut"), "The text is long: only its first 64 KiB are lexed and colored.")
    # 64 KiB are 5,041 lines of 13 bytes and `wor`.
    test.expect("its tokens", len(test.painted("text-editor")), 3 * 5041 + 1)
    test.expect("the table of tokens is cut", [len(test.rows("tokens")), test.text("tokens-note")], [200, "15124 items, with errors and without skips. The table has the first 200."])
    test.open(MANY, "一丁")
    # A word has three bytes with a state after each; the graph shares those of equal rests, but not
    # the last, since each leaf has its own.
    test.expect("many states are a table", [len(test.texts("#diagram svg")), "More than 60 are not drawn." in test.text("diagram-note"), len(test.rows("states")) > 70], [0, True, True])
    test.expect("its edges are links", test.browser.value("document.querySelectorAll('#states a[href=\"#state-1\"]').length > 0"), True)


def test_enums(test):
    test.open(TWO, "xyx")
    test.expect("the enums of a file", test.texts("#enum option"), ["A", "m::B"])
    test.expect("the first one", test.painted("text-editor"), [["token leaf-0", "x"], ["token error", "y"], ["token leaf-0", "x"]])
    test.browser.value("(document.getElementById('enum').selectedIndex = 1, document.getElementById('enum').dispatchEvent(new Event('change')))")
    test.settle()
    test.expect("the second one", test.painted("text-editor"), [["token leaf-0", "xyx"]])


def test_access(test):
    test.open(CODES, "add")
    tree = test.browser.call("Accessibility.getFullAXTree")["nodes"]
    shown = [it for it in tree if not it["ignored"]]
    roles = ("textbox", "button", "combobox", "region", "link", "table")
    unnamed = [it["role"]["value"] for it in shown if it["role"]["value"] in roles and not it.get("name", {}).get("value")]
    test.expect("each control has a name", unnamed, [])
    test.expect("the fields", [it["name"]["value"] for it in shown if it["role"]["value"] == "textbox"], ["Enum", "Text"])
    levels = test.browser.value("[...document.querySelectorAll('h1, h2, h3')].map((it) => Number(it.tagName[1]))")
    test.expect("the headings", [levels[0], max(b - a for a, b in zip(levels, levels[1:]))], [1, 1])
    test.expect("live regions", test.browser.value("[document.querySelector('#status').role || document.querySelector('#status').getAttribute('role'), document.querySelector('#token').ariaLive]"), ["status", "polite"])
    test.browser.value("document.activeElement.blur()")
    reached = []
    for _ in range(4):
        test.browser.press("Tab", 9)
        reached.append(test.browser.value("document.activeElement.id || document.activeElement.textContent"))
    test.expect("the order of the keyboard", reached, ["example", "source", "Line 6, column 13", "Line 8, column 13"])


def test_widths(test, pictures):
    for width, height in ((1280, 900), (360, 740)):
        for scheme in ("light", "dark"):
            test.browser.call("Emulation.setDeviceMetricsOverride", width=width, height=height, deviceScaleFactor=1, mobile=False)
            test.browser.call("Emulation.setEmulatedMedia", features=[{"name": "prefers-color-scheme", "value": scheme}])
            for name, enum, text in (("json", None, None), ("words", README, "size = big\nanswer = 42\n"), ("codes", CODES, "add fee feel"), ("hostile", HOSTILE, HOSTILE_TEXT), ("many", MANY, "一丁")):
                test.open(enum, text)
                if name == "json":
                    test.browser.value("(document.getElementById('example').selectedIndex = 3, document.getElementById('example').dispatchEvent(new Event('change')))")
                test.settle()
                test.expect(f"nothing is cut at the right, {name} at {width}, {scheme}", test.browser.value("document.documentElement.scrollWidth <= innerWidth"), True)
                if pictures:
                    test.browser.picture(f"{pictures}/{name}-{width}-{scheme}.png")
    test.browser.call("Emulation.clearDeviceMetricsOverride")


def test_network(test):
    sent = [it["params"]["request"]["url"] for it in test.browser.events if it["method"] == "Network.requestWillBeSent"]
    others = [it for it in sent if not it.startswith((test.base, "about:", "data:"))]
    test.expect("no other request to the network", others, [])
    errors = [it["params"] for it in test.browser.events if it["method"] == "Runtime.exceptionThrown" or it["method"] == "Log.entryAdded" and it["params"]["entry"]["level"] == "error"]
    test.expect("no error in the console", errors, [])


def main():
    parser = argparse.ArgumentParser(prog="main.py")
    parser.add_argument("folder")
    parser.add_argument("--pictures", metavar="FOLDER")
    given = parser.parse_args()
    serving = http.server.ThreadingHTTPServer(("127.0.0.1", 0), functools.partial(Quiet, directory=given.folder))
    threading.Thread(target=serving.serve_forever, daemon=True).start()
    browser = Browser()
    test = Test(browser, f"http://127.0.0.1:{serving.server_address[1]}")
    try:
        for part in (test_readme, test_ambiguous, test_hostile, test_limits, test_enums, test_access):
            part(test)
        test_widths(test, given.pictures)
        test_network(test)
    finally:
        browser.end()
        serving.shutdown()
    print(f"{test.passed} passed, {test.failed} failed")
    return 1 if test.failed else 0


if __name__ == "__main__":
    sys.exit(main())
