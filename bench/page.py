#!/usr/bin/env python3
"""Draws pages by Chromium, and looks at what they show: page.py FOLDER

Each line that it prints is a figure: its name, what is allowed, what was reached and the unit, with tabs between. What has to
be as the model of the file says is a figure whose unit is `wrong`. FOLDER is for the pages and for pictures of them.
"""
import os
import sys

from browser import SHIFT, Browser
from hunk_pages import (ATTACK, LoadHunk, document_of, example_units, game, large, linked, object_document_of, page_of, strange)
from model import BSS, KINDS, Unit, words

FOLDER = os.path.abspath(sys.argv[1])
WIDTHS = (360, 768, 1280, 1920, 3840)
# The place of an element's middle, from what the page finds under a selector.
MIDDLE = "(() => { const box = document.querySelector(%r).getBoundingClientRect(); return [box.x + box.width / 2, box.y + box.height / 2] })()"
TEXTS = "[...document.querySelectorAll(%r)].map((it) => it.textContent)"
# What the tab key leads to: the part of the page, or what is outside of the parts.
PART = "document.activeElement.id || document.activeElement.closest('.scroller')?.id || document.activeElement.tagName"
DETAIL = "[...document.querySelectorAll('#detail dd')].map((it) => it.textContent)"
SITES = "[...document.querySelectorAll('#bytes .site')].map((it) => [+it.dataset.offset, it.textContent.replaceAll(' ', '')])"
# Whether each row of the dump ends inside it.
FITS = """[...document.querySelectorAll('#bytes .ascii')].every((it) =>
  it.getBoundingClientRect().right <= it.closest('.scroller').getBoundingClientRect().right)"""
# The texts that are drawn with less contrast than 4.5, against the first opaque ground below them.
PALE = """(() => {
  const numbers = (color) => color.match(/[0-9.]+/g).map(Number);
  const light = (color) => numbers(color).slice(0, 3).map((it) => it / 255)
    .map((it) => (it <= 0.04045 ? it / 12.92 : ((it + 0.055) / 1.055) ** 2.4))
    .reduce((sum, it, index) => sum + it * [0.2126, 0.7152, 0.0722][index], 0);
  const ground = (it) => (numbers(getComputedStyle(it).backgroundColor)[3] === 0 ? ground(it.parentElement) : getComputedStyle(it).backgroundColor);
  const contrast = (it) => {
    const [one, other] = [light(getComputedStyle(it).color), light(ground(it))];
    return (Math.max(one, other) + 0.05) / (Math.min(one, other) + 0.05);
  };
  const own = (it) => [...it.childNodes].some((child) => child.nodeType === 3 && child.textContent.trim());
  return [...document.body.querySelectorAll("*:not(script, noscript)")].filter(own).filter((it) => contrast(it) < 4.5).length;
})()"""


def figure(name, allowed, reached, unit):
    print(name, allowed, reached, unit, sep="\t", flush=True)


def wrong(name, *pairs):
    """How many of these pairs are no equals: what the page shows, and what it should."""
    unlike = [pair for pair in pairs if pair[0] != pair[1]]
    for shown, due in unlike:
        print(f"{name}: {shown!r:.300} and not {due!r:.300}", file=sys.stderr)
    figure(name, 0, len(unlike), "wrong")


def page(name, document):
    path = os.path.join(FOLDER, f"{name}.html")
    with open(path, "w", encoding="utf-8") as file:
        file.write(page_of(document))
    return path


def dump_row(bytes_, at):
    """The row of a dump with the bytes from here on, without its space."""
    part = bytes_[at : at + 16]
    text = "".join(chr(it) if 32 <= it < 127 else "." for it in part)
    return f"{at:08x}{part.hex()}{text.replace(' ', '')}"


# ---- what is drawn of a load file


def drawn_hunks(browser, hunks):
    told = browser.value(TEXTS % "#hunks .row")
    due = [f"hunk {number}{KINDS[it.kind]}{it.memory}{4 * it.size:,} bytes" for number, it in enumerate(hunks)]
    wrong("hunks: number, kind, memory and size", (told, due))
    widths = browser.value("[...document.querySelectorAll('#hunks .bar')].map((it) => it.getBoundingClientRect().width)")
    most, largest = max(widths), max(it.size for it in hunks)
    figure("hunks: a bar from its share", 1, max(abs(it - most * hunk.size / largest) for it, hunk in zip(widths, hunks)), "pixels")


def marked_sites(browser):
    """The bytes that are marked as those of each site, by its offset."""
    marked = {}
    for offset, digits in browser.value(SITES):
        marked[offset] = marked.get(offset, "") + digits
    return marked


def drawn_bytes(browser, hunks):
    rows = browser.value("[...document.querySelectorAll('#bytes .row:not(.heading)')]"
                         ".map((it) => [...it.children].slice(0, 3).map((part) => part.textContent).join('').replaceAll(' ', ''))")
    wrong("bytes: the rows of the first hunk", *((row, dump_row(hunks[0].bytes(), 16 * at)) for at, row in enumerate(rows[:20])))
    figure("bytes: rows that are drawn, of all", 200, len(rows), "rows")
    marked = marked_sites(browser)
    # The last may go on in a row that is not drawn.
    del marked[max(marked)]
    due = sorted(hunks[0].sites)[: len(marked)]
    wrong("bytes: the marked sites", (marked, {it: hunks[0].bytes()[it : it + 4].hex() for it in due}))


def drawn_zeros(browser, hunks):
    """The second half of a hunk that is stored in part."""
    browser.value("location.hash = '#2:00002000'")
    browser.drawn()
    rows = "[...document.querySelectorAll('#bytes .row:not(.heading)')].filter((it) => it.querySelector('.bytes .run.zeros'))"
    first = browser.value(f"{rows}.map((it) => it.firstChild.textContent)[0]")
    wrong("bytes: zeros after what is stored", (first, f"{len(hunks[2].content):08x}"))


def followed_site(browser, hunks):
    """A site is hovered over and clicked: its target is told, marked and gone to, and the way back leads to it."""
    offset = next(it for it in sorted(hunks[0].sites) if it > 1000 and hunks[0].sites[it] == 3)
    at = int.from_bytes(hunks[0].bytes()[offset : offset + 4], "big")
    name, start = max((it for it in hunks[3].symbols if it[1] <= at), key=lambda it: it[1])
    place = f"hunk 3 + {at:08x}, {name.decode()}" + (f" + {at - start}" if at > start else "")
    browser.value(f"location.hash = '#0:{offset - 32:08x}'")
    browser.drawn()
    site = browser.value(MIDDLE % f"#bytes .site[data-offset='{offset}']")
    browser.mouse(site)
    told = browser.value(DETAIL)
    marked = browser.value(TEXTS % "#hunks .target .title")
    browser.click(site)
    cursor = browser.value("document.querySelector('#bytes .here').closest('.row').firstChild.textContent")
    wrong("site: what is told when hovered over", (told[2:], ["base of hunk 3", f"{at:08x}", place]), (marked, ["hunk 3"]))
    wrong("site: a click goes to its target", (browser.value("location.hash"), f"#3:{at:08x}"), (cursor, f"{at & ~15:08x}"))
    browser.value("new Promise((done) => { addEventListener('hashchange', () => done(0), { once: true }); history.back() })")
    browser.drawn()
    wrong("site: the way back", (browser.value("document.activeElement.dataset.offset"), str(offset)))


def keyboard(browser, hunks):
    parts = []
    for _ in range(5):
        browser.press("Tab")
        parts.append(browser.value(PART))
    first = parts.index("hunks")
    wrong("keys: the order of tab", (parts[first:] + parts[:first], ["hunks", "bytes", "filter", "names", "BODY"]))
    browser.value("location.hash = '#0:00000000'")
    browser.drawn()
    offsets = sorted(hunks[0].sites)
    told = []
    for key in ("ArrowRight", "ArrowRight", "ArrowDown", "ArrowLeft", "ArrowUp"):
        browser.press(key)
        told.append(int(browser.value("document.activeElement.dataset.offset")))
    below = next(it for it in offsets if it >= offsets[1] + 16)
    left = max(it for it in offsets if it < below)
    due = [offsets[0], offsets[1], below, left, max(it for it in offsets if it <= left - 16)]
    wrong("keys: arrows between sites", (told, due))
    ring = browser.value("getComputedStyle(document.activeElement).outlineStyle")
    target = browser.value("document.activeElement.hash")
    browser.press("Enter")
    wrong("keys: a visible focus, and Enter", (ring, "solid"), (browser.value("location.hash"), target))


def filtered(browser, hunks):
    names = [name.decode() for hunk in hunks for name, _ in hunk.symbols]
    browser.press("/")
    for letter in "SHIP":
        browser.press(letter, SHIFT)
    due = [name for name in names if "ship" in name]
    wrong("names: a filter as one types", (browser.value(TEXTS % "#names .name"), due),
          (browser.value("document.querySelector('#names-count').textContent"), f"{len(due)} of {len(names)} names"))
    browser.press("ArrowDown")
    browser.press("End")
    browser.press("Enter")
    cursor = browser.value("document.activeElement.closest('.row').textContent.includes('ship_planes')")
    wrong("names: Enter goes to the place", (cursor, True))
    browser.press("/")
    browser.press("Escape")
    wrong("names: Escape shows all again", (browser.value("document.querySelector('#names-count').textContent"), f"{len(names)} names"))


def load_files(browser):
    hunks = game()
    browser.look(1440, 900)
    browser.open(page("game", document_of(hunks)))
    for look in (drawn_hunks, drawn_bytes, drawn_zeros, followed_site, keyboard, filtered):
        look(browser, hunks)


# ---- what is drawn of an object file, and of names in any bytes


def object_files(browser):
    browser.look(1440, 900)
    browser.open(page("strange", object_document_of(strange())))
    units = browser.value(TEXTS % "#hunks .unit .title")
    wrong("units: all of an object file", (units, ["unit 0", "unit 1", "unit 2"]))
    names = browser.value(TEXTS % "#names .name")
    due = ["\\xff\\xfe name", "a\\x0ab\\x00c\\x5cd", "grüße 日本", "\\u202edrow", "(empty)", "<!--<script>"]
    wrong("names: in any bytes", *((it in names, True) for it in due), (names.count(ATTACK.decode()), 3))
    wrong("names: none is markup", (browser.value("document.querySelectorAll('img').length"), 0),
          (browser.value("document.querySelectorAll('script').length"), 2))
    told = []
    hunk = strange()[0][0]
    for offset, _ in hunk.sites:
        browser.value(f"location.hash = '#0:{offset:08x}'")
        browser.drawn()
        told.append(browser.value(DETAIL)[-1])
    content = words(*hunk.words)
    wrong("sites: their bytes, over the ends of rows", (marked_sites(browser), {it: content[it : it + 4].hex() for it, _ in hunk.sites}))
    attacked = 4 + 0x10111213
    wrong("sites: what they point at", (told, [
        "unit 0 hunk 0 − 00000001, before it", "unit 0 hunk 1 + 01020304, past its end", "there is no hunk 7 in its unit",
        f"unit 0 hunk 0 + {attacked:08x}, past its end", "this file does not define the name", f"the number {0xDFF000 + 0x21222324:08x}",
        "unit 0 hunk 2 + 38393a3b, past its end"]))


def empty_files(browser):
    """A unit without hunks, and a hunk without bytes."""
    browser.open(page("none", object_document_of([Unit([], b"none")])))
    told = browser.value("['#where', '#names-count'].map((it) => document.querySelector(it).textContent)")
    browser.open(page("empty", document_of([LoadHunk(BSS, 0)])))
    browser.press("ArrowRight")
    browser.value("document.querySelector('#hunks a').click()")
    browser.drawn()
    here = browser.value("document.activeElement.textContent")
    wrong("empty: units and hunks", (told, ["none in this file"] * 2), (here, "hunk 0"))


# ---- large files


def large_files(browser):
    browser.look(1440, 900)
    hunks = large()
    path = page("large", document_of(hunks))
    figure("drawn: 10 MB with 100,000 relocations", 2, min(browser.open(path) for _ in range(3)), "s")
    told = []
    for number, offset in ((0, 9_999_984), (0, 5_000_000), (1, 3984)):
        browser.value(f"location.hash = '#{number}:{offset:08x}'")
        browser.drawn()
        row = browser.value("[...document.querySelector('#bytes .here').closest('.row').children].slice(0, 3)"
                            ".map((part) => part.textContent).join('').replaceAll(' ', '')")
        told.append((row, dump_row(hunks[number].bytes(), offset // 16 * 16)))
    wrong("large: rows that one goes to", *told)
    figure("large: elements in the page", 5000, browser.value("document.querySelectorAll('*').length"), "")
    start = "performance.now()"
    browser.value(f"window.began = {start}; document.querySelector('#filter').value = '199'; "
                  "document.querySelector('#filter').dispatchEvent(new Event('input'))")
    browser.drawn()
    figure("large: a filter of 20,000 names", 200, browser.value(f"{start} - window.began"), "ms")


def largest_files(browser):
    """More rows than a browser places, and as many hunks as a file may have."""
    longwords = (1 << 24) - 4
    path = page("high", document_of([LoadHunk(BSS, longwords, b"", "any", {4 * longwords - 4: 0})]))
    figure("drawn: a hunk of 64 MiB", 2, browser.open(path), "s")
    told = []
    for offset in (4 * longwords - 4, 0x2000000, 0x10):
        browser.value(f"location.hash = '#0:{offset:08x}'")
        browser.drawn()
        box = browser.value("(() => { const box = document.querySelector('#bytes .here').getBoundingClientRect(), all ="
                            " document.querySelector('#bytes').getBoundingClientRect(); return box.top >= all.top && box.bottom <= all.bottom })()")
        told.append((box, True))
    browser.value("document.querySelector('#bytes').scrollTop = 1e9")
    browser.drawn()
    last = browser.value("[...document.querySelectorAll('#bytes .row')].filter((it) => it.getBoundingClientRect().bottom <="
                         " document.querySelector('#bytes').getBoundingClientRect().bottom + 1).at(-1).firstChild.textContent")
    wrong("high: places that one goes to, and the end", *told, (last, f"{4 * longwords - 16:08x}"))
    first = ("parseInt([...document.querySelectorAll('#bytes .row')].find((it) => it.getBoundingClientRect().top >="
             " document.querySelector('#bytes').getBoundingClientRect().top).firstChild.textContent, 16)")
    browser.value("location.hash = '#0:02000000'")
    browser.drawn()
    before = browser.value(first)
    browser.mouse(browser.value(MIDDLE % "#bytes"), "mouseWheel", deltaX=0, deltaY=440)
    browser.value("new Promise((done) => setTimeout(done, 1000))")
    height = browser.value("document.querySelector('#bytes .row').clientHeight")
    wrong("high: the wheel moves by rows", (browser.value(first) - before, 16 * 440 / height))
    path = page("many", document_of([LoadHunk(BSS, 1, b"", "any", {0: at}) for at in range(65_535)]))
    figure("drawn: 65,535 hunks", 2, browser.open(path), "s")


# ---- windows, color schemes, and what the pages complained of


def looks(browser):
    paths = [os.path.join(FOLDER, f"{name}.html") for name in ("game", "strange")]
    wider, pale = [], []
    for path in paths:
        for width in WIDTHS:
            browser.look(width, 800 if width < 3000 else 2160)
            browser.open(path)
            wider.append((browser.value("document.documentElement.scrollWidth <= innerWidth"), True))
            wider.append((browser.value(FITS), True))
        for scheme in ("light", "dark"):
            browser.look(1440, 900, scheme)
            browser.open(path)
            pale.append((browser.value(PALE), 0))
    wrong("windows of 360 to 3840 pixels: no wider page or row", *wider)
    wrong("contrast of texts, light and dark: below 4.5", *pale)


def pictures(browser):
    page("hello", document_of(linked(example_units())))
    page("objects", object_document_of(example_units()))
    for name, width, height in (("hello", 1280, 520), ("objects", 1000, 800), ("game", 1440, 900), ("strange", 768, 1024), ("game", 360, 1600),
                                ("game", 3840, 2160)):
        for scheme in ("light", "dark"):
            browser.look(width, height, scheme)
            browser.open(os.path.join(FOLDER, f"{name}.html"))
            browser.mouse(browser.value(MIDDLE % "#bytes .site:not(.here)"))
            browser.picture(os.path.join(FOLDER, f"{name}-{width}-{scheme}.png"))


def complaints(browser):
    told = browser.complaints()
    for complaint in told:
        print(complaint, file=sys.stderr)
    figure("errors, warnings, dialogs, violations of the policy", 0, len(told), "")
    figure("requests of anything but the pages", 0, sum(not it.startswith(f"file://{FOLDER}/") for it in browser.requests()), "")


def main():
    with Browser(os.path.join(FOLDER, "profile")) as browser:
        for look in (load_files, object_files, empty_files, large_files, largest_files, looks, pictures, complaints):
            look(browser)


main()
