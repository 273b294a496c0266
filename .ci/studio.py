"""The studio in a browser without a window: what a person would do there, and what is seen then.

  studio.py PAGE COMMAND [--firefox] [STORY..]
  studio.py PAGE COMMAND --pictures FOLDER

COMMAND is the program, beside which trees and values are held. In Firefox the ten of TEN are told. Ends with status 1 where one fails.
"""

import base64
import json
import os
import re
import struct
import subprocess
import sys
import tempfile
import time
import traceback

import drivers
from pages import blocks, commands

HERE = os.path.dirname(os.path.abspath(__file__))
TOP = os.path.dirname(HERE)
STORIES = {}
TEN = ["tutorial_4_a_length", "png_is_broken_and_mended", "calls_that_go_round", "a_name_with_markup", "a_broken_link", "a_link_there_and_back",
       "completion_by_keys", "selection_both_ways", "a_tree_in_json", "nothing_is_asked"]
PAIRS = "Pairs -> many Pair End ;\nPair -> U8 {size = U8.val} ?(size > 0) Bytes[size] ;\nEnd -> ?(EOI == 0) \"\" ;\n"
TYPED = "(() => { const area = document.getElementById('grammar'); area.value = words[0]; area.dispatchEvent(new Event('input')); })()"
ROWS = ("[...document.querySelectorAll('#tree .row')].map((row) => ({level: Number(row.getAttribute('aria-level')),"
        " name: row.querySelector('b').textContent, text: row.textContent.replace(/^[\u25b8\u25be]/, ''), row: Number(row.dataset.row)}))")
FRAMES = "new Promise((done) => requestAnimationFrame(() => requestAnimationFrame(() => done(true))))"


class Wrong(Exception):
    """Something isn't as it should be."""


def story(body):
    STORIES[body.__name__] = body
    return body


def same(what, got, due):
    if got != due:
        raise Wrong(f"{what}: {got!r}, due {due!r}")


def holds(what, is_so):
    if not is_so:
        raise Wrong(what)


class Person:
    """Somebody before the page, with a folder of samples."""

    def __init__(self, browser, page, command, room):
        self.browser, self.page, self.command, self.room = browser, page, command, room
        self.value, self.until, self.keys = browser.value, browser.until, browser.keys

    def arrives(self, behind="", page=None):
        self.browser.go("about:blank")
        self.browser.go("file://" + (page or self.page) + behind)
        self.until("document.body.dataset.ready", 60)
        if not behind:
            self.settles()

    def settles(self, seconds=60):
        """Until the parser has answered, and what it said is drawn."""
        self.until("document.body.dataset.busy !== 'true'", seconds)
        self.value(FRAMES)

    def writes(self, grammar):
        self.value(TYPED, grammar)
        self.settles()

    def opens(self, *paths):
        before = self.value("document.title + document.body.dataset.answers")
        self.browser.choose("#open", [os.path.join(self.room, path) for path in paths])
        self.until(f"document.title + document.body.dataset.answers !== {json.dumps(before)} && document.body.dataset.busy !== 'true'")
        self.value(FRAMES)

    def makes(self, name, content):
        with open(os.path.join(self.room, name), "wb") as file:
            file.write(content)
        return name

    def resizes(self, width, height):
        self.browser.command("SetWindowRect", {"width": width, "height": height})

    def starts(self, grammar, content, name="input"):
        """A grammar, and a file that was made."""
        self.arrives()
        self.writes(grammar)
        self.opens(self.makes(name, content))

    def text(self, name):
        return self.value("document.querySelector(words[0]).textContent", name)

    def rows(self):
        return self.value(ROWS)

    def marked(self):
        return self.value("[...document.querySelectorAll('.byte.in')].map((one) => Number(one.dataset.at))")

    def row(self, start):
        """The first shown row whose text begins so."""
        found = [row for row in self.rows() if row["text"].startswith(start)]
        holds(f"no row {start}", found)
        return found[0]

    def says(self, *words):
        return subprocess.run([self.command, *words], capture_output=True, cwd=self.room, timeout=120).stdout


# ---- the tutorial

def steps():
    """The ten sections of the tutorial that are numbered: grammars, and commands with what they say."""
    with open(os.path.join(TOP, "docs", "TUTORIAL.md"), encoding="utf-8") as file:
        text = file.read()
    for part in re.split(r"^## ", text, flags=re.M)[1:]:
        title = part.split("\n")[0]
        if title[0].isdigit():
            yield "tutorial_" + re.sub(r"\W+", "_", title.lower()).strip("_"), blocks(part)


def asked(block):
    """The parses and checks of a block, each with the lines that are due."""
    for words, due in commands(block):
        found = re.findall(r"ipg (check|parse) (\S+)(?: (\S+))?", words.replace(";", " ;"))
        for i, (verb, grammar, file) in enumerate(found):
            yield verb, grammar, file, due[i:i + 1] if len(found) > 1 else due


def is_seen(person, line):
    """Whether the page shows what a line of the program says."""
    head = person.value("(document.querySelector('#report .head') || {}).textContent || ''")
    if line == "accepted":
        return not head.startswith("refused")
    if line == "no parse" or line.startswith("refused"):
        return head == line
    depth, name, *rest = line.split(" ")
    if name in ("many", "for"):
        return any(row["name"] == f"{name} {rest[0]}" and row["text"].endswith(f"\u00d7 {rest[1]}") for row in person.rows())
    places = dict(word.split("=") for word in rest[2:] if "=" in word)
    attributes = " ".join(word for word in rest[4:]) if "start" in places else places.get("val", "")
    begin, end = (places["start"], places["end"]) if "start" in places else rest[:2]
    due = f"{name} {begin}\u2013{end} {attributes}"
    return any(row["level"] == int(depth) + 1 and row["text"].startswith(due) for row in person.rows())


def tutorial(parts, grammars):
    """A section; grammars are those of the ones before it too."""
    def told(person):
        person.arrives()
        seen = 0
        with open(os.path.join(person.room, "png"), "rb") as file:
            whole = file.read()
        person.makes("cut", whole[:164])
        person.makes("longer", whole + b"x")
        for kind, lines, _ in parts:
            if kind == "ipg":
                grammars[lines[0][2:]] = "\n".join(lines) + "\n"
            for verb, grammar, file, due in asked(lines) if kind == "console" else []:
                with open(os.path.join(TOP, "formats", "png.ipg"), encoding="utf-8") as known:
                    person.writes(known.read() if grammar.startswith("formats") else grammars.get(grammar, ""))
                person.opens(file.replace("samples/", "") or "png")
                for line in due:
                    holds(f"{verb} {grammar}: {line!r} isn't seen, but {person.text('#report')!r}", is_seen(person, line))
                    seen += 1
        holds("nothing was told", seen)
    return told


def tutorials():
    """The last grammar of each name is known to the sections behind it."""
    known = {}
    for name, parts in steps():
        STORIES[name] = tutorial(parts, dict(known))
        known.update({lines[0][2:]: "\n".join(lines) + "\n" for kind, lines, _ in parts if kind == "ipg"})


tutorials()


# ---- where it breaks

@story
def png_is_broken_and_mended(person):
    person.arrives()
    same("the root", person.rows()[0]["text"], "Png 0\u2013165 ")
    person.browser.click("#bytes .byte[data-at='11']")
    person.keys("0", "e")
    person.settles()
    same("the answer", person.text("#report .head"), "no parse")
    same("the byte that fails", person.value("[...document.querySelectorAll('.byte.fault')].map((one) => one.dataset.at)"), ["12"])
    holds("the values", "size = 14" in person.text("#report"))
    person.keys("Control+z")
    person.settles()
    same("the root again", person.rows()[0]["text"], "Png 0\u2013165 ")
    same("the byte again", person.text("#bytes .byte[data-at='11']"), "0d")


@story
def each_call_of_a_failure(person):
    person.starts(PAIRS, b"\2ab\7c")
    same("the answer", person.text("#report .head"), "no parse")
    holds("the value of the length", "size = 7" in person.text("#report"))
    same("the byte", person.value("document.querySelector('.byte.fault').dataset.at"), "4")
    same("its place", person.value("document.querySelector('.wrong').textContent"), "Bytes")
    person.value("[...document.querySelectorAll('#report button')].find((one) => one.textContent.startsWith('in Pair ')).click()")
    person.value(FRAMES)
    same("the part of the call", person.marked(), [3, 4])


@story
def calls_that_go_round(person):
    person.arrives()
    person.writes("List -> Item Rest ;\nItem -> Bytes[0] ;\nRest -> ?(EOI > 3) List / \"\" ;\n")
    same("the refusal", person.text("#report .head"), "refused G13 MayLoop EOI=4 List/0/1/0 Rest/0/1/0")
    same("arrows", person.value("document.querySelectorAll('#editor svg > path').length"), 2)
    labels = person.value("[...document.querySelectorAll('#editor svg text')].map((one) => one.textContent)")
    same("values", labels, ["EOI = 4Item.start = 4Item.end = 0", ""])
    same("calls", person.value("[...document.querySelectorAll('.wrong')].map((one) => one.textContent)"), ["Rest", "List"])
    person.writes("List -> Item ?(Item.end > 0) Rest[Item.end, EOI] ;\nItem -> U8 ;\nRest -> ?(EOI > 3) List / \"\" ;\n")
    same("no arrow", person.value("document.querySelectorAll('#editor svg > path').length"), 0)


@story
def a_refusal_at_its_place(person):
    person.arrives()
    person.writes("S -> U24 {n = U24.val} ;\n")
    same("the refusal", person.text("#report .head"), "refused G7 UnknownRule 5")
    same("the place", person.value("[...document.querySelectorAll('.wrong')].map((one) => one.textContent)"), ["U24"])
    person.writes("S -> \"\u00e4\" ;\n")
    same("a byte that isn't plain", person.text("#report .head"), "refused G2 Lex 5")


@story
def what_may_stand_there(person):
    person.arrives()
    person.writes("S -> U8 {n U8.val} ;\n")
    same("the refusal", person.text("#report .head"), "refused G4 Syntax 11")
    same("what may stand there", person.value("document.querySelector('#report p:last-child').textContent"), "Here may stand: =")


@story
def how_far_a_parse_came(person):
    person.starts("File -> \"CHNK\" many Chunk Rest ;\nChunk -> U8 {size = U8.val} Bytes[size] \"!\" ;\nRest -> Bytes ;\n", b"CHNK\2ab\tcd\0")
    person.browser.click("#report button")
    person.settles()
    same("the answer", person.text("#report .head"), "parsed")
    holds("where it stopped", "The furthest failure is at byte 7." in person.text("#report"))


# ---- the tree and the bytes

@story
def selection_both_ways(person):
    person.arrives()
    row = person.row("Ihdr ")
    person.browser.click(f"#row{row['row']} b")
    person.value(FRAMES)
    same("bytes of a row", person.marked(), list(range(16, 29)))
    holds("its values", "width3 (0x3)height2 (0x2)depth8 (0x8)" in person.text("#details"))
    person.browser.click("#bytes .byte[data-at='18']")
    person.value(FRAMES)
    same("the row of a byte", person.text(".row.picked b"), "U32BE")
    same("its bytes", person.marked(), [16, 17, 18, 19])
    holds("its value", "value3 (0x3)" in person.text("#details"))
    place = person.value("(() => { const box = document.querySelector(\"#bytes .text[data-at='0']\").getBoundingClientRect();"
                         " return [box.x + box.width * 3.5 / 8, box.y + 9].map(Math.round); })()")
    person.browser.point(*place)
    person.value(FRAMES)
    same("the byte of a letter", person.value("document.querySelector('.byte.cursor').dataset.at"), "3")
    person.browser.click("#bytes .byte[data-at='18']")
    person.keys("Down")
    person.value(FRAMES)
    holds("keys move the cursor", person.value("document.querySelector('.byte.cursor').dataset.at") == "34")


@story
def parts_that_share_a_byte(person):
    """The smallest is picked, also where a larger one comes later; of equal ones the last."""
    person.starts("S -> \"ab\"[0, EOI] Bytes[0, EOI] Tail[3, EOI] ;\nTail -> U8 Bytes ;\n", b"abcdef")
    for byte, due in ((0, "tok"), (2, "Bytes"), (3, "U8"), (4, "Bytes")):
        person.browser.click(f"#bytes .byte[data-at='{byte}']")
        person.value(FRAMES)
        same(f"byte {byte}", person.text(".row.picked b"), due)
    same("of two that are raw", person.marked(), [4, 5])


@story
def a_search(person):
    person.arrives()
    found = []
    for text in ("gama", "gama", "2835", "0x7e8", "red", "nowhere"):
        person.value("(() => { const box = document.getElementById('search'); box.value = words[0]; box.focus(); })()", text)
        person.keys("Enter")
        person.settles()
        person.value(FRAMES)
        found.append(person.text(".row.picked").strip(" \u25be\u25b8"))
    same("a number of four letters", found[0], "U32BE 37\u201341 1732332865 \u201cgAMA\u201d")
    same("a name", found[1], "Gama 41\u201345 gamma=45455")
    same("a value behind it", found[2], "Phys 57\u201366 x=2835 y=2835 unit=1")
    same("a number in hexadecimal", found[3], "U16BE 99\u2013101 2024")
    holds("a text, round the end", "\u201cred\u201d" in found[4])
    same("nothing", person.text("#status"), "Nothing is called nowhere, or has it.")


@story
def a_path_marks_what_it_picks(person):
    person.arrives()
    with open(os.path.join(person.room, "png.ipg"), "wb") as file, open(os.path.join(TOP, "formats", "png.ipg"), "rb") as known:
        file.write(known.read())
    for path in ("Header/Ihdr", "Chunk", "Chunk(1)/Phys.x", "Chunk(4)", "Chunk(5)", "Header/U32BE(1)", "**/U8.val", "*", "**", "Chunk/*/U32BE", "Nothing", "**/Keyword.end", "Header.size"):
        person.value("(() => { const box = document.getElementById('path'); box.value = words[0]; box.focus(); })()", path)
        person.keys("Enter")
        person.until(f"document.getElementById('status').textContent.startsWith({json.dumps(path + ' picks')})")
        due = person.says("query", "png.ipg", "png", path).decode().splitlines()
        same(path, person.text("#status"), f"{path} picks {len(due)}.")
        person.value(FRAMES)
        if path == "Chunk":
            shown = person.value("[...document.querySelectorAll('.row.marked, .row.picked')].map((row) => row.textContent.slice(1).split(' ')[1])")
            same("their parts", len(shown), 5)
    person.value("(() => { const box = document.getElementById('path'); box.value = 'a..b'; box.focus(); })()")
    person.keys("Enter")
    holds("what is none", "is no path" in person.text("#status"))


@story
def a_path_that_comes_to_too_much(person):
    """A tree of 3,000 nodes within one another, and all that lies in all that lies in them."""
    person.starts("S -> \"a\" S[1, EOI] / \"\" ;\n", b"a" * 3000)
    for path, due in (("**", "** picks 6002."), ("**/**", "**/** comes to more than 1,048,576 parts.")):
        person.value("(() => { const box = document.getElementById('path'); box.value = words[0]; box.focus(); })()", path)
        person.keys("Enter")
        person.until("document.getElementById('status').textContent.startsWith('**')")
        person.settles()
        same(path, person.text("#status"), due)


@story
def rows_are_those_of_the_program(person):
    """Names, depths and values of a whole tree as `parse` prints it."""
    for name in ("zip", "wav", "dns"):
        person.arrives()
        person.value("(() => { const box = document.getElementById('format'); box.value = words[0]; box.dispatchEvent(new Event('change')); })()", name)
        person.settles()
        lines = person.says("parse", os.path.join(TOP, "formats", name + ".ipg"), name).decode().splitlines()
        due = [(int(line.split()[0]) + 1, " ".join(line.split()[1:3]) if line.split()[1] in ("for", "many") else line.split()[1]) for line in lines]
        got = [(row["level"], row["name"]) for row in person.rows()]
        holds(f"{name} has no rows", got)
        same(name, got, due[:len(got)])


@story
def a_strip_of_the_file(person):
    person.starts("S -> \"ab\" Tail[8, EOI] ;\nTail -> Bytes ;\n", b"ab......" + b"z" * 8)
    pixels = person.value("(() => { const strip = document.getElementById('strip'); const draw = strip.getContext('2d');"
                          " return [1, 4, 12].map((byte) => [...draw.getImageData(4, Math.floor((byte + 0.5) * strip.height / 16), 1, 1).data]); })()")
    holds(f"leaves have colours, and what none has is grey: {pixels}", pixels[1][0] == pixels[1][1] == pixels[1][2] and pixels[1][3] < 255 and
          all(pixel[3] == 255 and len(set(pixel[:3])) > 1 for pixel in (pixels[0], pixels[2])))
    person.browser.click("#strip")
    person.value(FRAMES)
    same("a click goes there", person.value("document.querySelector('.byte.cursor').dataset.at"), "8")
    person.browser.click("#bytes .byte[data-at='4']")
    person.value(FRAMES)
    same("what has no part but the root", person.text(".row.picked b"), "S")


@story
def keys_alone(person):
    person.arrives()
    person.keys("F6")
    person.keys("F6")
    same("F6 goes to the tree", person.value("document.activeElement.id"), "tree")
    person.keys("Down", "Down", "Down")
    person.value(FRAMES)
    active = person.value("document.getElementById(document.getElementById('tree').getAttribute('aria-activedescendant')).textContent")
    holds("arrows move", "Header" in active)
    person.keys("Left")
    person.value(FRAMES)
    row = "document.querySelector('.row.picked')"
    same("left closes", person.value(f"{row}.getAttribute('aria-expanded')"), "false")
    person.keys("Right")
    person.value(FRAMES)
    same("right opens", person.value(f"{row}.getAttribute('aria-expanded')"), "true")
    person.keys("Enter")
    person.value(FRAMES)
    holds("enter shows the rule", person.text(".line.here .code").startswith("Header ->"))
    person.keys("/")
    same("a slash goes to the search", person.value("document.activeElement.id"), "search")
    person.value("document.getElementById('tree').focus()")
    person.keys("F6")
    same("F6 goes to the bytes", person.value("document.activeElement.id"), "bytes")


@story
def readers_of_the_screen_find_it(person):
    person.arrives()
    same("roles", person.value("[document.getElementById('tree').getAttribute('role'), ...new Set([...document.querySelectorAll('#tree .row')]"
                               ".map((row) => row.getAttribute('role')))]"), ["tree", "treeitem"])
    nameless = person.value("[...document.querySelectorAll('input, textarea, select, button, [tabindex]')].filter((one) => !one.getAttribute('aria-label')"
                            " && !one.closest('label') && !one.textContent.trim()).map((one) => one.id)")
    same("what has no name", nameless, [])
    same("what is said aloud", person.value("['status', 'report'].map((id) => document.getElementById(id).getAttribute('aria-live'))"), ["polite", "polite"])


# ---- writing a grammar

@story
def completion_by_keys(person):
    person.arrives()
    person.writes("Pairs -> many Pair ;\nPair -> U8 {size = U8.val} Bytes[")
    person.value("(() => { const area = document.getElementById('grammar'); area.focus(); area.setSelectionRange(1e6, 1e6); })()")
    person.keys("s", "i")
    names = "[...document.querySelectorAll('#names:not([hidden]) div')].map((one) => one.textContent)"
    same("what it may become", person.until(f"(({names}).length ? {names} : null)"), ["size"])
    person.keys("Tab")
    person.keys("] ; E -> P")
    same("rules", person.value(names)[:2], ["Pairs", "Pair"])
    person.keys("Down", "Enter")
    person.keys(" ; F -> Pair {n = Pair.")
    same("fields", person.value(names), ["size", "start", "end"])
    person.keys("Escape")
    same("it closes", person.value(names), [])
    person.settles()
    holds("the text", person.value("document.getElementById('grammar').value").endswith("Bytes[size] ; E -> Pair ; F -> Pair {n = Pair."))


@story
def colours_of_a_grammar(person):
    person.arrives()
    text = "# a <b>comment</b>\nS -> \"x#y\" U8 {n = U8.val} ; # 7\n"
    person.writes(text)
    kinds = person.value("[...document.querySelectorAll('.code span')].filter((one) => one.className).map((one) => one.className.replace(' wrong', '')"
                         " + ' ' + one.textContent)")
    due = ["comment # a <b>comment</b>", "name S", "symbol ->", "string \"x#y\"", "primitive U8", "symbol {", "name n", "symbol =", "primitive U8", "symbol .",
           "name val", "symbol }", "symbol ;", "comment # 7"]
    same("kinds", kinds, due)
    same("the area holds what was written", person.value("document.getElementById('grammar').value"), text)


@story
def the_newest_keystroke_wins(person):
    """A parse that takes long gives way to a newer grammar."""
    person.starts("S -> Bytes ;", bytes(60))
    slow = "S -> A {a = 1} / B {a = 2} ;\n" + SLOW
    person.value(TYPED, slow)
    time.sleep(0.3)
    begin = time.monotonic()
    person.writes("S -> U8 {a = U8.val} ;\n")
    same("the newest answer", person.rows()[0]["text"].split(" ")[0], "S")
    holds("it didn't wait", time.monotonic() - begin < 15)


# of each length of the part both halves are tried, and a local rule is never remembered: time doubles with each byte
SLOW = """A -> {len = EOI} T "x" where { T -> ?(EOI > 0) T[0, EOI - 1] T[0, EOI - 1] "y" / T[0, EOI - 1] T[1, EOI] "z" / "w" ; } ;
B -> Bytes ;
"""


@story
def what_takes_long_is_stopped(person):
    person.starts("S -> Bytes ;", bytes(60))
    person.value(TYPED, "S -> A {a = 1} / B {a = 2} ;\n" + SLOW)
    person.until("!document.getElementById('stop').hidden")
    frames = person.value("(async () => { let count = 0; const end = performance.now() + 1000; while (performance.now() < end) { await " + FRAMES +
                          "; count++; } return count; })()")
    holds(f"the page goes on meanwhile: {frames} pairs of frames a second", frames > 5)
    person.browser.click("#stop")
    person.settles()
    same("it says so", person.text("#status"), "Stopped.")
    person.writes("S -> U8 ;\n")
    same("the file is there again", person.rows()[0]["text"], "S 0\u20131 ")


@story
def what_takes_too_long_is_ended(person):
    person.starts("S -> Bytes ;", bytes(60))
    begin = time.monotonic()
    person.writes("S -> A {a = 1} / B {a = 2} ;\n" + SLOW)
    same("it says so", person.text("#status"), "Ended after 20 seconds: this takes longer.")
    holds("after so many", 19 < time.monotonic() - begin < 40)
    same("the grammar is still there", person.value("document.getElementById('grammar').value").split("\n")[0], "S -> A {a = 1} / B {a = 2} ;")


@story
def a_hostile_grammar(person):
    person.arrives()
    for text, due in (("S -> " + "(" * 1000000, "refused G4 Syntax 5"), ("S" * 1048577, "refused G1 TooLong"),
                      ("S -> {a = " + "(" * 100 + "1" + ")" * 100 + "} ;", "refused G5 Limit depth")):
        person.writes(text)
        holds(f"{due}: {person.text('#report')[:80]!r}", person.text("#report .head").startswith(due))
        holds("few lines are made", person.value("document.querySelectorAll('.code span').length") < 5000)
    person.writes("S -> \"<img src=x onerror='document.title = 1'>\" ;\n</textarea><script>document.title = 2</script>")
    same("no element of it", person.value("document.querySelectorAll('img, main script').length"), 0)


# ---- files

@story
def a_name_with_markup(person):
    person.arrives()
    person.writes(PAIRS)
    person.opens(person.makes("<img src=x onerror=document.title=1>", b"\2<b\1>"))
    same("the title", person.value("document.title"), "<img src=x onerror=document.title=1> \u2013 ipg studio")
    same("no element of it", person.value("document.querySelectorAll('img, main b b').length"), 0)
    holds("bytes are text", "\u201c<b\u201d" in person.row("Bytes 1")["text"])


@story
def a_broken_link(person):
    for hash_of in ("#rubbish!", "#AAAA", "#" + base64.urlsafe_b64encode(os.urandom(99)).decode()):
        person.arrives(hash_of)
        holds("it is told", "is no link of this page" in person.text("#status"))
    person.writes("S -> \"\" ;")
    same("the page goes on", person.rows()[0]["text"].strip(), "S 0\u20130")


@story
def a_link_that_swells(person):
    packed = subprocess.run([sys.executable, "-c", "import sys, zlib; c = zlib.compressobj(9, zlib.DEFLATED, -15);"
                             "sys.stdout.buffer.write(c.compress(bytes(50000000)) + c.flush())"], stdout=subprocess.PIPE, check=True).stdout
    person.arrives("#" + base64.urlsafe_b64encode(packed).decode().rstrip("="))
    holds("it is refused", "unpacks to more than is taken" in person.text("#status"))


@story
def a_link_there_and_back(person):
    person.starts(PAIRS, b"\2ab\1c", "pairs")
    person.browser.click("#link")
    address = person.until("location.hash.length > 1 && location.hash")
    person.arrives(address)
    person.settles()
    same("the grammar", person.value("document.getElementById('grammar').value"), PAIRS)
    same("the tree", person.rows()[0]["text"], "Pairs 0\u20135 ")
    same("the name", person.value("document.title"), "pairs \u2013 ipg studio")


@story
def nothing_is_asked(person):
    person.arrives()
    person.starts(PAIRS, b"\2ab\1c")
    asked_of = person.value("performance.getEntriesByType('resource').map((one) => one.name).filter((name) => !name.startsWith('blob:'))")
    same("what was asked", asked_of, [])
    for ask, due in (("fetch('http://127.0.0.1:9/').catch(() => 0)", "connect-src"), ("new Image().src = 'http://127.0.0.1:9/'", "img-src"),
                     ("document.body.append(Object.assign(document.createElement('script'), {textContent: '1'}))", "script-src-elem")):
        broken = person.value(f"new Promise((done) => {{ addEventListener('securitypolicyviolation', (event) => done(event.effectiveDirective),"
                              f" {{once: true}}); {ask}; setTimeout(() => done('nothing'), 5000); }})")
        same(f"what the policy says of {ask}", broken, due)


@story
def the_network_is_off(person):
    person.browser.tool("Network.enable", {})
    person.browser.tool("Network.emulateNetworkConditions", {"offline": True, "latency": 0, "downloadThroughput": 0, "uploadThroughput": 0})
    try:
        person.starts(PAIRS, b"\2ab\1c")
        same("the tree", person.rows()[0]["text"], "Pairs 0\u20135 ")
    finally:
        person.browser.tool("Network.disable", {})


@story
def no_memories_of_64_bits(person):
    """An engine that takes no such module; trees in JSON are shown all the same."""
    script = ("WebAssembly.validate = () => false;"
              "WebAssembly.compile = () => Promise.reject(new WebAssembly.CompileError('no memory64'));")
    made = person.browser.tool("Page.addScriptToEvaluateOnNewDocument", {"source": script})
    try:
        person.arrives()
        holds("a sentence says so", person.text("#status").startswith("This browser has no 64-bit memories"))
        person.makes("pairs.ipg", PAIRS.encode())
        person.makes("pairs", b"\2ab\1c")
        person.makes("pairs.json", person.says("json", "pairs.ipg", "pairs"))
        person.opens("pairs.json", "pairs")
        same("the tree of JSON", person.rows()[0]["text"], "Pairs 0\u20135 ")
    finally:
        person.browser.tool("Page.removeScriptToEvaluateOnNewDocument", {"identifier": made["identifier"]})


@story
def a_tree_in_json(person):
    """What `ipg json` wrote, beside its file: rows, bytes, keys and the search, as the printed tree has them."""
    for grammar, name in (("@gif", "sample.gif"), ("@pe", "sample.pe"), ("@elf", "sample.elf")):
        person.arrives()
        person.makes(name + ".json", person.says("json", grammar, name))
        person.opens(name + ".json", name)
        lines = [line.split(" ") for line in person.says("parse", grammar, name).decode().splitlines()]
        rows = person.rows()
        holds("few rows are made", 0 < len(rows) < 200)
        for row in rows[:40]:
            words = lines[row["row"]]
            same(f"{name}, row {row['row']}", (row["level"] - 1, row["name"].split(" ")[-1]), (int(words[0]), words[2 if words[1] in ("for", "many") else 1]))
        row = next(row for row in rows if lines[row["row"]][1] == "tok")
        person.browser.click(f"#row{row['row']} b")
        person.value(FRAMES)
        begin = int(lines[row["row"]][2])
        same("its bytes", person.marked(), list(range(begin, begin + len(lines[row["row"]][4]) // 2)))


@story
def trees_that_are_none(person):
    person.arrives()
    for text in (b'{"rule":"S"', b'{"rule":"S","kids":[7]}', b'{"rule":"S","kids":[{"prim":"X"}]}'):
        person.opens(person.makes("broken.json", text))
        holds("it is told", "no tree of ipg json" in person.text("#status"))
    deep = b'{"rule":"S","from":0,"to":0,"start":0,"end":0,"attrs":{},"kids":[' * 3000 + b"]}" * 3000
    person.opens(person.makes("deep.json", deep))
    holds("a deep one", "Parsed: 3,000 rows" in person.text("#status"))


@story
def every_format_with_its_sample(person):
    person.arrives()
    names = person.value("[...document.getElementById('format').options].map((one) => one.value).filter(Boolean)")
    same("all grammars of formats/, and four that are built in", len(names), len([name for name in os.listdir(os.path.join(TOP, "formats"))
                                                                                  if name.endswith(".ipg")]) + 4)
    for name in names:
        person.value("(() => { const box = document.getElementById('format'); box.value = words[0]; box.dispatchEvent(new Event('change')); })()", name)
        person.settles()
        holds(f"{name}: {person.text('#status')}", person.text("#status").startswith("Parsed: "))
        same(name, person.value("document.title").split(" ")[0], name.replace("@", ""))


@story
def a_format_is_guessed(person):
    person.arrives()
    for name in ("zip", "wav", "sqlite", "tzif"):
        person.opens(name)
        same("the format", person.value("document.getElementById('format').value"), name)
        holds(name, person.text("#status").startswith("Parsed: "))
    person.opens(person.makes("rubbish", b"\xff\xfe\xfd" * 5))
    holds(f"nothing reads it: {person.text('#status')}", person.text("#status").startswith(("No format", "Parsed")))


@story
def what_is_saved(person):
    person.arrives()
    person.browser.tool("Browser.setDownloadBehavior", {"behavior": "allow", "downloadPath": person.room})
    person.opens("sample.gif")
    same("the format", person.value("document.getElementById('format').value"), "@gif")
    for button, name, due in (("save_json", "sample.gif.json", person.says("json", "@gif", "sample.gif")), ("save_grammar", "grammar.ipg", None)):
        person.browser.click("#" + button)
        path = os.path.join(person.room, name)
        end = time.monotonic() + 20
        while time.monotonic() < end and not (os.path.exists(path) and os.path.getsize(path)):
            time.sleep(0.1)
        with open(path, "rb") as file:
            got = file.read()
        same(name, got if due else got.decode(), due or person.value("document.getElementById('grammar').value"))


@story
def a_page_to_send_around(person):
    person.makes("pairs.ipg", PAIRS.encode())
    person.makes("a b<c>", b"\2ab\1c")
    page = os.path.join(person.room, "page.html")
    script = os.path.join(TOP, "ipg-studio")
    for words, status in ((["a", "b"], 4), (["--help"], 4), (["--export"], 4), (["@a", "b.ipg"], 4), (["--export", page, "missing"], 5),
                          (["--export", page, "missing.ipg"], 5), (["--export", "/missing/page.html", "zip"], 6)):
        said = subprocess.run([script, *words], cwd=person.room, env={**os.environ, "IPG_STUDIO": person.page}, stderr=subprocess.PIPE, check=False)
        same(f"the status of {words}", (said.returncode, said.stderr != b""), (status, True))
    for words, grammar, root in ((["pairs.ipg", "a b<c>"], PAIRS, "Pairs"), (["@wav", "wav"], None, "Wav"), (["zip"], None, "Zip"), (["@gif"], None, "GIF")):
        subprocess.run([script, "--export", page, *words], cwd=person.room, env={**os.environ, "IPG_STUDIO": person.page}, check=True)
        person.arrives(page=page)
        same("the tree", person.rows()[0]["text"].split(" ")[0].upper(), root.upper())
        if grammar:
            same("the grammar", person.value("document.getElementById('grammar').value"), grammar)
            same("the name", person.value("document.title"), "a b<c> \u2013 ipg studio")


# ---- how it looks

def contrast(person):
    """The least contrast of texts with what lies behind them, by the formula of the guidelines for the web."""
    return person.value("""(() => {
      const parts = (text) => (text.match(/[\\d.]+/g) || []).map(Number);
      const over = (a, b) => a.slice(0, 3).map((one, i) => one * (a[3] ?? 1) + b[i] * (1 - (a[3] ?? 1)));
      const light = (rgb) => rgb.map((one) => one / 255).map((one) => one <= 0.03928 ? one / 12.92 : ((one + 0.055) / 1.055) ** 2.4)
        .reduce((sum, one, i) => sum + one * [0.2126, 0.7152, 0.0722][i], 0);
      const behind = (one) => {
        const back = [];
        for (let at = one; at; at = at.parentElement) back.unshift(parts(getComputedStyle(at).backgroundColor));
        return back.filter((rgb) => rgb.length).reduce((under, rgb) => over(rgb, under), [255, 255, 255]);
      };
      const texts = [...document.querySelectorAll('.code span, .row, .row .soft, .row b, .byte, .text, #status, #report p, #details dt, button')];
      return texts.filter((one) => one.textContent.trim()).map((one) => {
        const [a, b] = [light(parts(getComputedStyle(one).color).slice(0, 3)), light(behind(one))].sort((x, y) => y - x);
        return [(a + 0.05) / (b + 0.05), one.className + ' ' + one.textContent];
      }).sort((a, b) => a[0] - b[0])[0];
    })()""")


@story
def light_and_dark(person):
    papers = []
    for scheme in ("light", "dark"):
        person.browser.tool("Emulation.setEmulatedMedia", {"features": [{"name": "prefers-color-scheme", "value": scheme}]})
        person.arrives()
        person.browser.click("#bytes .byte[data-at='18']")
        person.value(FRAMES)
        papers.append(person.value("getComputedStyle(document.body).backgroundColor"))
        least, text = contrast(person)
        holds(f"{scheme}: a contrast of {least:.2f}: {text}", least >= 4.5)
    person.browser.tool("Emulation.setEmulatedMedia", {"features": []})
    same("papers", papers, ["rgb(255, 255, 255)", "rgb(13, 17, 23)"])


@story
def narrow_screens(person):
    for width, height in ((1024, 768), (390, 844)):
        person.browser.tool("Emulation.setDeviceMetricsOverride", {"width": width, "height": height, "deviceScaleFactor": 1, "mobile": width < 500})
        person.arrives()
        holds(f"{width}: nothing is wider than the screen", person.value("document.documentElement.scrollWidth <= innerWidth"))
        tops = person.value("['left', 'middle', 'right'].map((id) => document.getElementById(id).getBoundingClientRect().top)")
        same(f"{width}: panes beside one another", len(set(tops)) == 1, width > 1000)
        holds("all are seen", person.value("[...document.querySelectorAll('#tree .row, #bytes .row, .line')].length > 20"))
    person.browser.tool("Emulation.clearDeviceMetricsOverride", {})


# ---- how fast, in a window as people have it

def timed(person, what, expression, most):
    value = person.value(expression)
    print(f"studio: {what}: {value:.0f}, due {most}")
    return value


ANSWERED = ("(async () => { const before = document.body.dataset.answers; const begin = performance.now(); %s;"
            " while (document.body.dataset.answers === before) await new Promise((done) => setTimeout(done));"
            " await " + FRAMES + "; return performance.now() - begin; })()")


@story
def half_a_million_nodes(person):
    person.resizes(1400, 900)
    person.starts("S -> U8 ;", bytes(250000))
    grammar = "S -> many A ;\nA -> U8 ;\n"
    took = timed(person, "milliseconds until 500,000 rows are seen",
                 ANSWERED % (TYPED.replace("words[0]", json.dumps(grammar))), 1000)
    same("rows", person.text("#status").split(" ")[1], "500,002")
    holds("few are made", person.value("document.querySelectorAll('#tree .row').length") < 200)
    holds(f"in a second: {took:.0f} ms", took < 1000 * SLACK)


@story
def a_keystroke(person):
    """A grammar of 100 lines on a file of 1 MB."""
    rules = "".join(f"R{k} -> U8 {{a = U8.val}} ?(a == {k}) Bytes[{k % 7}] ;\n" for k in range(97))
    grammar = "S -> many Line Rest ;\nLine -> U32LE {size = U32LE.val} Bytes[size] ;\nRest -> Bytes ;\n" + rules
    person.resizes(1400, 900)
    same("lines", grammar.count("\n"), 100)
    content = b"".join(struct.pack("<I", 996) + bytes(996) for _ in range(1000))
    person.starts(grammar, content)
    took = sorted(person.value(ANSWERED % TYPED.replace("words[0]", json.dumps(grammar + "#" * k))) for k in range(1, 12))[5]
    print(f"studio: milliseconds until a keystroke's answer is seen, the median of 11: {took:.0f}, due 100")
    holds(f"in 100 ms: {took:.0f}", took < 100 * SLACK)


@story
def a_capture_of_50_mb(person):
    packet = 1000
    person.resizes(1400, 900)
    with open(os.path.join(person.room, "capture.pcap"), "wb") as file:
        head = subprocess.run([sys.executable, os.path.join(TOP, "bench", "files.py"), "pcap", "1"], stdout=subprocess.PIPE, check=True).stdout
        file.write(head[:24])
        one = head[24:40][:8] + struct.pack("<II", packet, packet) + ETHERNET + bytes(packet - len(ETHERNET))
        for _ in range(50_000_000 // len(one)):
            file.write(one)
    person.arrives()
    begin = person.value("performance.now()")
    person.browser.choose("#open", [os.path.join(person.room, "capture.pcap")])
    person.until("document.title.startsWith('capture') && document.body.dataset.busy === 'false' && document.querySelector('#tree .row')", 60)
    took = person.value("performance.now()") - begin
    holds(person.text("#status"), person.text("#status").startswith("Parsed: "))
    print(f"studio: milliseconds until a capture of 50 MB is seen: {took:.0f}, due 4000; {person.text('#status')}")
    rate = person.value("""(async () => {
      const pane = document.getElementById('bytes'); let frames = 0; const begin = performance.now();
      while (performance.now() - begin < 2000) {
        pane.dispatchEvent(new WheelEvent('wheel', {deltaY: 137, cancelable: true}));
        await new Promise(requestAnimationFrame);
        frames++;
      }
      return frames / 2;
    })()""")
    print(f"studio: frames a second while its bytes scroll: {rate:.0f}, due 30")
    holds("it scrolled", person.value("Number(document.querySelector('#bytes .byte').dataset.at) > 0"))
    person.value("(() => { const pane = document.getElementById('bytes'); pane.scrollTop = pane.scrollHeight; })()")
    person.value(FRAMES)
    size = os.path.getsize(os.path.join(person.room, "capture.pcap"))
    same("its last byte", person.value("Number([...document.querySelectorAll('#bytes .byte')].pop().dataset.at)"), size - 1)
    holds(f"in 4 s: {took:.0f} ms", took < 4000 * SLACK)
    holds(f"30 frames: {rate:.0f}", rate >= 30 / SLACK)


# Ethernet, IPv4, UDP, all zero but for kinds and lengths
ETHERNET = bytes(12) + b"\x08\x00" + b"\x45\x00" + struct.pack(">H", 986) + bytes(5) + b"\x11" + bytes(10) + bytes(4) + struct.pack(">HH", 966, 0)
# how much slower than is due may be: on a machine that does other things too
SLACK = float(os.environ.get("STUDIO_SLACK", "1"))


def samples(room):
    """A small file of each format."""
    subprocess.run([sys.executable, "-B", os.path.join(TOP, "formats", "samples.py"), room], check=True)
    for kind, count in (("gif", 3), ("pe", 6), ("elf", 40)):
        with open(os.path.join(room, "sample." + kind), "wb") as file:
            subprocess.run([sys.executable, os.path.join(TOP, "bench", "files.py"), kind, str(count)], stdout=file, check=True)


def told(person, names):
    failed = 0
    for name in names:
        begin = time.monotonic()
        try:
            person.resizes(1400, 2600)
            STORIES[name](person)
            print(f"studio: {name}, {time.monotonic() - begin:.1f} s", flush=True)
        except (Wrong, drivers.Fault, LookupError) as error:
            failed += 1
            print(f"studio: failed: {name}: {error}", flush=True)
            if os.environ.get("STUDIO_TRACE"):
                traceback.print_exc()
                person.browser.picture(os.path.join(tempfile.gettempdir(), f"{name}.png"))
    print(f"studio: {len(names)} stories in {person.browser.name}, {failed} failed")
    return failed


def pictures(person, folder):
    """What the pages show of the studio."""
    def taken(name):
        person.value(FRAMES)
        person.browser.picture(os.path.join(folder, name + ".png"))

    person.arrives()
    person.browser.click(f"#row{person.row('Ihdr ')['row']} b")
    taken("studio")
    person.browser.click("#bytes .byte[data-at='11']")
    person.keys("0", "e")
    person.settles()
    taken("studio-broken")
    person.starts("List -> Item Rest ;\nItem -> Bytes[0] ;\nRest -> ?(EOI > 3) List / \"\" ;\n", b"abcdef")
    taken("studio-cycle")


def main():
    page, command, *names = [word for word in sys.argv[1:] if word != "--firefox"]
    kind = drivers.Firefox if "--firefox" in sys.argv else drivers.Chromium
    is_shown = names[:1] == ["--pictures"]
    with tempfile.TemporaryDirectory() as room, kind((1440, 760) if is_shown else (1400, 2600)) as browser:
        samples(room)
        person = Person(browser, os.path.abspath(page), os.path.abspath(command), room)
        if is_shown:
            return pictures(person, names[1])
        return int(told(person, names or (TEN if kind is drivers.Firefox else list(STORIES))) > 0)


if __name__ == "__main__":
    sys.exit(main())
