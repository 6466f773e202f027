"""What the page of build/site has to show and do, in a browser that is driven."""
import time
from pathlib import Path

from drive import PATIENCE

TOP = Path(__file__).resolve().parent.parent
TIDIED = TOP / "examples" / "tidied"
WIDE, NARROW = (1280, 800), (390, 844)
# a small module, and what becomes of it
SMALL = "const size = 0x1f; // thirty-one"
CANONICAL = "const size = 31;\n"
MINIFIED = "const a=31;"
# a long text is typed into while the worker is busy with it
LONG = 1_000_000

VERDICT = "() => document.querySelector('#verdict').textContent"
UNDERLINED = """() => [...document.querySelectorAll('#source .fault')]
    .map((it) => it.textContent).join()"""
EDITED = "(panel) => document.querySelector(`#${panel} .CodeMirror`).CodeMirror.getValue()"
TEXT = "(selector) => document.querySelector(selector).textContent.trim()"
TEXTS = """(selector) => [...document.querySelectorAll(selector)]
    .map((it) => it.textContent.trim())"""
FOCUSED = "() => document.activeElement.id || document.activeElement.tagName"
TABS = """() => [...document.querySelectorAll('[role=tab]')].map((tab) => [
    tab.id, tab.ariaSelected, tab.tabIndex,
    document.getElementById(tab.getAttribute('aria-controls')).hidden])"""
MARKED = """() => [...document.querySelectorAll('#source .chosen')]
    .map((it) => it.textContent).join('')"""
SET = """(text) => { document.querySelector('#source .CodeMirror').CodeMirror.setValue(text); }"""
# has what is fetched from an address with a name come late
LATE = """(name) => {
    const before = fetch;
    globalThis.fetch = async (address) => {
        const response = await before(address);
        if (address.includes(name)) {
            await new Promise((done) => setTimeout(done, 500));
            setTimeout(() => { globalThis.came = true; }, 200);
        }
        return response;
    };
}"""
PAPER = "() => getComputedStyle(document.body).backgroundColor"
NAMES = ("formatted", "canonical", "minified", "tree", "tokens")


class Wrong(Exception):
    """What the page shows is not what it has to."""


def expect(page, what, wanted, script, *args):
    """Waits until the script returns what is wanted."""
    started = time.monotonic()
    while True:
        found = page.run(script, *args)
        if found == wanted:
            return
        if time.monotonic() - started > PATIENCE:
            raise Wrong(f"{what} is {found!r}, and has to be {wanted!r}")
        time.sleep(0.02)


def write(page, text):
    """Types a text into the editor, in place of what is there."""
    page.click("#source .CodeMirror-line")
    page.keys("Control", "a")
    page.keys("Delete")
    page.type(text)


def choose(page, selector, value):
    """Chooses a value of a list."""
    page.run("""(selector, value) => {
        const select = document.querySelector(selector);
        select.value = value;
        for (const name of ['input', 'change']) {
            select.dispatchEvent(new Event(name, { bubbles: true }));
        }
    }""", selector, value)


def check_examples(page):
    """Each example is formatted as examples/tidied has it, and the last that is chosen is shown,
    where the text of another comes after its own too."""
    expect(page, "the verdict", "A module of WGSL", VERDICT)
    names = page.run("() => [...document.querySelector('#example').options].map((it) => it.value)")
    if sorted(it for it in names if it) != sorted(it.stem for it in TIDIED.glob("*.wgsl")):
        raise Wrong(f"the examples are {names}")
    for name in filter(None, names):
        choose(page, "#example", name)
        wanted = (TIDIED / f"{name}.wgsl").read_text()
        expect(page, f"the formatted {name}", wanted, EDITED, "formatted")
    page.run(LATE, "waves")
    choose(page, "#example", "waves")
    choose(page, "#example", "quads")
    page.until("() => globalThis.came")
    wanted = (TOP / "examples" / "commented" / "quads.wgsl").read_text()
    expect(page, "the source after two choices", wanted, EDITED, "source")


def check_typing(page):
    """What is typed is read at once: its fault is underlined and told, until it is mended."""
    write(page, "const = 1;")
    told = "1:7: unexpected token =, expected identifier"
    expect(page, "the verdict", told, VERDICT)
    expect(page, "what is underlined", "=", UNDERLINED)
    page.keys("Home")
    for _ in "const ":
        page.keys("Right")
    page.type("size ")
    expect(page, "the verdict", "A module of WGSL", VERDICT)
    expect(page, "what is underlined", "", UNDERLINED)
    expect(page, "the formatted text", "const size = 1;\n", EDITED, "formatted")
    write(page, "fn f() {")
    expect(page, "what is underlined", "{", UNDERLINED)
    page.click("#to-fault")
    page.keys("Right")
    page.type(" }")
    expect(page, "the formatted text", "fn f() {}\n", EDITED, "formatted")


def check_tabs(page):
    """Each tab has its result."""
    write(page, SMALL)
    expect(page, "the formatted text", f"{SMALL}\n", EDITED, "formatted")
    page.click("#tab-canonical")
    expect(page, "the canonical text", CANONICAL, EDITED, "canonical")
    page.click("#tab-minified")
    expect(page, "the minified text", MINIFIED, TEXT, "#minified pre")
    sizes = page.run(TEXTS, "#minified .sizes td + td, #minified .sizes th + td")
    if sizes[0] != str(len(SMALL)) or sizes[2] != str(len(MINIFIED)) or sizes[4] != "66%":
        raise Wrong(f"the sizes are {sizes}")
    if not all(0 < int(it) < 100 for it in (sizes[1], sizes[3])):
        raise Wrong(f"the gzipped sizes are {sizes}")
    expect(page, "the names", ["size", "a"], TEXTS, "#minified dt, #minified dd")
    page.click("#tab-tokens")
    tokens = ["const", "size", "=", "0x1f", ";", "// thirty-one"]
    shown = "#tokens tbody td:nth-child(3)"
    expect(page, "the tokens", tokens, TEXTS, shown)
    page.click("#tokens [name=comments]")
    expect(page, "the tokens without comments", tokens[:-1], TEXTS, shown)
    page.click("#tokens tbody tr:nth-child(3)")
    expect(page, "what a token marks", "size", MARKED)
    page.click("#tokens [name=comments]")
    expect(page, "the tokens with comments again", tokens, TEXTS, shown)


def check_tree(page):
    """The tree opens by keys, and marks what is chosen in the source."""
    rows = "#tree [role=treeitem]"
    count = f"() => document.querySelectorAll('{rows}').length"
    page.click("#tab-tree")
    expect(page, "how many rows the tree has", 3, count)
    page.click(f"{rows}:first-child .kind")
    expect(page, "how many rows the closed tree has", 1, count)
    page.keys("Right")
    expect(page, "how many rows are below the root", 2, count)
    page.keys("Down")
    page.keys("Right")
    expect(page, "how many rows are below the list", 3, count)
    page.keys("Down")
    expect(page, "what a node marks", "const size = 0x1f;", MARKED)
    page.keys("Right")
    page.until("(rows) => document.querySelectorAll(rows).length > 3", rows)
    page.keys("Left")
    expect(page, "how many rows are left", 3, count)
    page.keys("Left")
    page.keys("Left")
    page.keys("Left")
    page.keys("Left")
    expect(page, "how many rows are left of the tree", 1, count)


def check_keyboard(page):
    """Tabs are chosen by arrow keys, Home and End, and Tab leaves the editor, also from the button
    to a fault as it hides."""
    page.click("#tab-formatted")
    for key, chosen in [("Right", 1), ("Right", 2), ("Left", 1), ("End", 4), ("Right", 0),
                        ("Left", 4), ("Home", 0)]:
        page.keys(key)
        wanted = [[f"tab-{name}", "true", 0, False] if at == chosen
                  else [f"tab-{name}", "false", -1, True] for at, name in enumerate(NAMES)]
        expect(page, f"the tabs after {key}", wanted, TABS)
        expect(page, "what has the focus", f"tab-{NAMES[chosen]}", FOCUSED)
    write(page, "const size = 1;")
    page.keys("Tab")
    expect(page, "what has the focus after the editor", "tab-formatted", FOCUSED)
    expect(page, "the source after Tab", "const size = 1;", EDITED, "source")
    write(page, "fn f() {")
    expect(page, "what is underlined", "{", UNDERLINED)
    page.keys("Tab")
    expect(page, "what has the focus after the editor", "to-fault", FOCUSED)
    page.run(SET, "fn f() {}")
    expect(page, "what has the focus after the button", "tab-formatted", FOCUSED)
    page.click("#about-button")
    expect(page, "whether the dialog is open", True, "() => document.querySelector('#about').open")
    page.keys("Escape")
    expect(page, "whether the dialog is open", False, "() => document.querySelector('#about').open")


def check_options(page):
    """Options change the results at once."""
    write(page, "fn f() { let length = g(1, 2); }")
    page.click("#formatted [name=width]")
    page.keys("Control", "a")
    page.type("18")
    choose(page, "#formatted [name=indent]", "2")
    wanted = "fn f() {\n  let length = g(\n    1,\n    2\n  );\n}\n"
    expect(page, "the formatted text of 18 columns", wanted, EDITED, "formatted")
    page.click("#tab-minified")
    expect(page, "the minified text", "fn a(){let b=g(1,2);}", TEXT, "#minified pre")
    page.click("#minified [name=keep]")
    page.type("f, length")
    expect(page, "the names that are kept", "fn f(){let length=g(1,2);}", TEXT, "#minified pre")


def check_link(page, address):
    """A link has the text, the tab and the options."""
    page.click("#share")
    page.until("() => location.hash.includes('text=')")
    link = page.run("() => location.href")
    page.open("about:blank")
    page.open(link)
    wanted = "fn f(){let length=g(1,2);}"
    expect(page, "the minified text of the link", wanted, TEXT, "#minified pre")
    width = "() => document.querySelector('[name=width]').value"
    expect(page, "the width of the link", "18", width)
    for wrong in ("#text=!", "#text=AAAA", "#tab=none&width=x&indent=7&names=some"):
        page.open("about:blank")
        page.open(address + wrong)
        expect(page, f"the verdict of {wrong}", "A module of WGSL", VERDICT)


def check_colours(page, address):
    """The switch changes the colours, and they stay."""
    page.open(address)
    light = page.run(PAPER)
    page.click("#theme label:nth-of-type(3)")
    dark = page.run(PAPER)
    if light == dark:
        raise Wrong(f"the colours are {light} in light and in dark")
    page.open("about:blank")
    page.open(address)
    expect(page, "the colour that was chosen", dark, PAPER)
    page.click("#theme label:nth-of-type(1)")
    expect(page, "the colour of the system", light, PAPER)


def check_narrow(page):
    """On a narrow screen nothing is wider than it, and the results are below the source."""
    page.resize(*NARROW)
    for name in NAMES:
        page.click(f"#tab-{name}")
        wide = page.run("() => document.documentElement.scrollWidth - innerWidth")
        if wide > 0:
            raise Wrong(f"the tab {name} is {wide} pixels too wide")
    below = page.run("""() => document.querySelector('.results').getBoundingClientRect().top
        >= document.querySelector('.source').getBoundingClientRect().bottom""")
    if not below:
        raise Wrong("the results are not below the source")
    page.resize(*WIDE)
    page.click("#tab-formatted")


def check_long(page):
    """Returns for how many milliseconds typing waited at most, while a long text is read."""
    # without its directive, which may only be at the start of a module
    shader = (TOP / "examples" / "commented" / "waves.wgsl").read_text().split(";", 1)[1]
    page.run(SET, shader * (LONG // len(shader)))
    page.click("#source .CodeMirror-line")
    page.run("""() => {
        globalThis.longest = 0;
        let last = performance.now();
        const watch = () => {
            const now = performance.now();
            longest = Math.max(longest, now - last);
            last = now;
            watching = setTimeout(watch);
        };
        globalThis.watching = setTimeout(watch);
    }""")
    page.keys("Control", "Home")
    page.type("// typed while the text is read\n")
    time.sleep(2)
    longest = page.run("() => { clearTimeout(watching); return longest; }")
    expect(page, "the first line", "// typed while the text is read",
           "() => document.querySelector('#formatted .CodeMirror').CodeMirror.getLine(0)")
    return longest


def check_quiet(page, address):
    """Nothing was asked of another host, and nothing was written to the console."""
    elsewhere = [it for it in page.requests() if not it.startswith((address, "about:", "data:"))]
    if elsewhere:
        raise Wrong(f"the page asked for {elsewhere}")
    if page.errors():
        raise Wrong(f"the console has {page.errors()}")


def check_page(page, address):
    """Runs all checks; returns for how long typing waited."""
    page.resize(*WIDE)
    page.open(address)
    for check in (check_examples, check_typing, check_tabs, check_tree, check_keyboard,
                  check_options):
        check(page)
    check_link(page, address)
    check_colours(page, address)
    check_narrow(page)
    longest = check_long(page)
    check_quiet(page, address)
    return longest
