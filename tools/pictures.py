#!/usr/bin/env python3
"""Makes the pictures of docs/handbook/see.md: tools/pictures.py LOGOS_SHOW

Each picture is a part of a page that `logos_show FILE [INPUT] --html PAGE` writes, in light colors,
as chromium shows it. `tests/html_pages.py` compares the pages with the texts beside the pictures.
The last line is `pictures: N pictures`."""
import base64
import os
import shutil
import subprocess
import sys
import tempfile

ROOT = os.path.dirname(os.path.dirname(os.path.realpath(__file__)))
FOLDER = "docs/handbook/pictures"
# For each picture the arguments of the page, the name of the part that it shows, and the width of
# the window.
PICTURES = {
    "json-leaves": ("examples/lexers/json.rs", "leaves", 960),
    "json-text": ("examples/lexers/json.rs examples/lexers/json.input", "text", 760),
    "mustache-text": ("examples/lexers/mustache.rs examples/lexers/mustache.input", "text", 760),
    "words-drawing": ("docs/guide/words.rs", "drawing", 480),
}
# The space around a part, in pixels.
MARGIN = 8


def take(browser, page, part, width):
    """Returns the picture of a part of a page."""
    browser.call("Emulation.setDeviceMetricsOverride", width=width, height=600, deviceScaleFactor=1, mobile=False)
    browser.open(f"file://{page}")
    if not browser.until(f"location.pathname === '{page}' && document.readyState === 'complete'"):
        sys.exit(f"pictures: {page} does not open")
    place = f"((it) => [it.left + scrollX, it.top + scrollY, it.width, it.height])(document.getElementById('{part}').getBoundingClientRect())"
    left, top, wide, high = browser.value(place)
    clip = {"x": left - MARGIN, "y": top - MARGIN, "width": wide + 2 * MARGIN, "height": high + 2 * MARGIN, "scale": 1}
    return base64.b64decode(browser.call("Page.captureScreenshot", format="png", captureBeyondViewport=True, clip=clip)["data"])


def main():
    if len(sys.argv) != 2 or sys.argv[1].startswith("-"):
        sys.exit("usage: tools/pictures.py LOGOS_SHOW")
    if not shutil.which("chromium"):
        sys.exit("pictures: chromium is missing")
    sys.path.insert(0, f"{ROOT}/tests/playground")
    from browser import Browser

    program, browser = os.path.realpath(sys.argv[1]), Browser()
    os.makedirs(f"{ROOT}/{FOLDER}", exist_ok=True)
    try:
        browser.call("Emulation.setEmulatedMedia", features=[{"name": "prefers-color-scheme", "value": "light"}])
        with tempfile.TemporaryDirectory() as room:
            for name, (words, part, width) in PICTURES.items():
                page = f"{os.path.realpath(room)}/{name}.html"
                subprocess.run([program, *words.split(), "--html", page], cwd=ROOT, check=True)
                with open(f"{ROOT}/{FOLDER}/{name}.png", "wb") as file:
                    file.write(take(browser, page, part, width))
    finally:
        browser.end()
    print(f"pictures: {len(PICTURES)} pictures")


if __name__ == "__main__":
    main()
