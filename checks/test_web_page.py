"""The page web/viewer.html in headless browsers: what it shows, counts, saves and refuses. .ci/check_web runs these."""
import hashlib
import json
import struct
import time

import pytest

import browsers
import commands
import needs
from las_files import head, packed_one
from programs import TOP

PAGE = TOP / "web" / "viewer.html"
SAMPLE = TOP / "examples" / "tile.laz"
# the points of each class of the sample, and its colour on the page
CLASSES = {2: 12155, 3: 1744, 5: 4598, 6: 1996}
COLOURS = {2: (166, 118, 70), 3: (176, 214, 110), 5: (38, 130, 58), 6: (214, 58, 52)}

pytestmark = pytest.mark.browser


class Tab:
    """The page in a browser."""

    def __init__(self, browser, folder):
        self.browser = browser
        self.folder = folder
        browser.go(PAGE.as_uri())
        self.wait("document.body && document.body.dataset.state === 'ready'")

    def value(self, expression):
        return self.browser.value(expression)

    def wait(self, condition, seconds=120):
        for _ in range(10 * seconds):
            if self.value(condition) is True:
                return
            time.sleep(0.1)
        raise AssertionError(f"{condition}: {self.value('JSON.stringify(document.body.dataset)')} {self.said()}")

    def settled(self):
        self.wait("['done', 'refused'].includes(document.body.dataset.state)")
        return self.value("document.body.dataset.state")

    def open(self, *files, field="#file"):
        self.browser.pick(field, *files)
        return self.settled()

    def sample(self):
        self.value("void document.getElementById('openSample').click()")
        assert self.settled() == "done"

    def choose(self, name, value):
        self.value(f"(() => {{ const it = document.getElementById('{name}'); it.value = '{value}'; "
                   "it.dispatchEvent(new Event('change')); })()")
        self.value("new Promise((done) => requestAnimationFrame(() => requestAnimationFrame(() => done(1))))")

    def said(self):
        return self.value("document.getElementById('said').textContent")

    def text(self, name="tables"):
        return self.value(f"document.getElementById('{name}').textContent")

    def pixels(self):
        """The canvas as an image, to be compared with another one."""
        return self.value("document.querySelector('#views canvas').toDataURL()")

    def place(self):
        """A place on the points of the sample, in the canvas."""
        x, y, width, height = self.value("(() => { const it = document.querySelector('#views canvas')"
                                         ".getBoundingClientRect(); return [it.x, it.y, it.width, it.height]; })()")
        return x + 0.5 * width, y + 0.45 * height

    def picture(self, number=0):
        """The pixels of a canvas, as a count of each colour."""
        script = """(() => {
            const canvas = document.querySelectorAll('#views canvas')[NUMBER];
            const copy = document.createElement('canvas');
            [copy.width, copy.height] = [canvas.width, canvas.height];
            const context = copy.getContext('2d');
            context.drawImage(canvas, 0, 0);
            const words = new Uint32Array(context.getImageData(0, 0, copy.width, copy.height).data.buffer);
            const counts = {};
            for (const word of words)
                counts[word & 0xffffff] = (counts[word & 0xffffff] ?? 0) + 1;
            return JSON.stringify(Object.entries(counts));
        })()""".replace("NUMBER", str(number))
        return {tuple(int(word) >> shift & 255 for shift in (0, 8, 16)): count
                for word, count in json.loads(self.value(script))}


@pytest.fixture(params=[browsers.Chromium, browsers.Firefox], ids=["Chromium", "Firefox"])
def tab(request, tmp_path):
    if not browsers.is_there(request.param):
        needs.missing(f"{request.param.name} is missing", request.param.name)
    browser = request.param(tmp_path)
    try:
        yield Tab(browser, tmp_path)
    finally:
        browser.close()


@pytest.fixture
def chromium(tmp_path):
    if not browsers.is_there(browsers.Chromium):
        needs.missing("chromium-headless-shell is missing", "chromium-headless-shell")
    browser = browsers.Chromium(tmp_path)
    try:
        yield Tab(browser, tmp_path)
    finally:
        browser.close()


@pytest.fixture(scope="module")
def made(tmp_path_factory, program):
    """Files that `las` makes: the sample unpacked, and one of 5,000,000 points."""
    folder = tmp_path_factory.mktemp("made")
    commands.good([program, "laszip", "-i", SAMPLE, "-o", folder / "tile.las"])
    commands.good([program, "make", "-points", "5000000", "-seed", "1", "-format", "1", "-o", folder / "m.las", "-z",
                   folder / "m.laz", "-cores", "4"], timeout=1200)
    commands.good([program, "las2las", "-i", SAMPLE, "-o", folder / "ground.laz", "-keep_class", "2"])
    return folder


def sum_of(path):
    return hashlib.sha256(path.read_bytes()).hexdigest()


def test_sample_and_what_is_told_of_it(tab, made):
    tab.sample()
    assert tab.said() == "tile.laz: 20,493 points."
    tab.wait("document.body.dataset.sums === '1'")
    text = tab.text()
    for part in ("20,493", "EPSG:25832 (projected)", "make_tile.py", "2026-07-17", "LASF_Projection", "laszip encoded",
                 "2 Ground12,155", "6 Building1,996", sum_of(SAMPLE), sum_of(made / "tile.las"), "points 20493",
                 "agree"):
        assert part in text, part


@pytest.mark.parametrize("drawing", ["gl", "flat"])
def test_pixels_of_each_class(tab, drawing):
    tab.sample()
    tab.choose("drawing", drawing)
    tab.choose("mode", "class")
    tab.value("void document.getElementById('above').click()")
    tab.choose("mode", "class")
    drawn = tab.value("document.getElementById('drawn').textContent")
    if drawing == "gl" and "WebGL" not in drawn:
        pytest.skip("this browser has no WebGL here")
    pixels = tab.picture()
    background = max(pixels, key=lambda colour: pixels[colour])
    assert set(pixels) == {background, *COLOURS.values()}
    counts = {number: pixels[colour] for number, colour in COLOURS.items()}
    # a point has the same number of pixels in each class, but for those that lie on one another
    share = {number: counts[number] / CLASSES[number] for number in CLASSES}
    assert counts[2] > counts[5] > max(counts[3], counts[6]), counts
    assert max(share.values()) < 5 * min(share.values()), share


def test_class_that_is_hidden_has_no_pixels(tab):
    tab.sample()
    tab.choose("mode", "class")
    assert COLOURS[6] in tab.picture()
    tab.value("void [...document.querySelectorAll('#legend label')].find((it) => it.textContent.includes('Building'))"
              ".querySelector('input').click()")
    tab.choose("grain", "2")
    assert COLOURS[6] not in tab.picture()


def test_keys_change_the_picture_and_home_brings_it_back(tab):
    tab.sample()
    tab.choose("mode", "class")
    first = tab.picture()
    tab.value("void document.querySelector('#views canvas').focus()")
    seen = [first]
    for key, shift in (("ArrowLeft", False), ("+", False), ("ArrowUp", True), ("t", False)):
        tab.browser.key(key, shift)
        tab.choose("grain", "2")
        seen.append(tab.picture())
        assert seen[-1] != seen[-2], key
    tab.browser.key("Home")
    tab.choose("grain", "2")
    assert tab.picture() == first


def moved(place, across, down, steps=4):
    """Places on a line from a place."""
    return [(place[0] + across * step / steps, place[1] + down * step / steps) for step in range(steps + 1)]


def test_mouse_turns_moves_and_zooms(tab):
    tab.sample()
    tab.choose("mode", "class")
    place, seen = tab.place(), [tab.pixels()]
    for act in (lambda: tab.browser.drag(moved(place, 60, 30)), lambda: tab.browser.drag(moved(place, 60, 30), True),
                lambda: tab.browser.wheel(place, -200)):
        act()
        tab.choose("grain", "2")
        seen.append(tab.pixels())
        assert seen[-1] != seen[-2]
    assert tab.text("record") == ""
    tab.browser.wheel(place, 200)
    tab.choose("grain", "2")
    assert tab.pixels() == seen[2]
    tab.value("void document.getElementById('reset').click()")
    tab.choose("grain", "2")
    assert tab.pixels() == seen[0]
    assert tab.value("scrollY") == 0


def test_fingers_turn_move_and_zoom(tab):
    tab.sample()
    tab.choose("mode", "class")
    place, seen = tab.place(), [tab.pixels()]
    left, right = (place[0] - 40, place[1]), (place[0] + 40, place[1])
    for fingers in ([moved(place, 60, 30)], [moved(left, 50, 20), moved(right, 50, 20)],
                    [moved(left, -60, 0), moved(right, 60, 0)]):
        tab.browser.touch(*fingers)
        tab.choose("grain", "2")
        seen.append(tab.pixels())
        assert seen[-1] != seen[-2]
    assert tab.text("record") == ""
    tab.value("void document.getElementById('reset').click()")
    tab.choose("grain", "2")
    assert tab.pixels() == seen[0]
    tab.browser.touch([place])
    tab.wait("document.getElementById('record').textContent.startsWith('Record ')")


def test_files_that_are_dropped(tab, made):
    tab.browser.drop((300, 60), SAMPLE)
    tab.wait("document.body.dataset.state !== 'ready'")
    assert tab.settled() == "done"
    assert tab.said() == "tile.laz: 20,493 points."
    tab.browser.drop(tab.place(), made / "ground.laz", SAMPLE)
    tab.wait("document.querySelectorAll('#views canvas').length === 2")
    assert tab.settled() == "done"
    assert "2 Ground12,15512,1550" in tab.text()


def test_record_of_a_point_that_is_clicked(tab):
    tab.sample()
    tab.browser.click(*tab.place())
    tab.wait("document.getElementById('record').textContent !== ''")
    text = tab.text("record")
    assert text.startswith("Record ")
    assert "Intensity" in text


def test_record_by_its_number(tab, made):
    tab.open(SAMPLE)
    tab.choose("place", "12345")
    tab.wait("document.getElementById('record').textContent !== ''")
    data = (made / "tile.las").read_bytes()
    offset, = struct.unpack_from("<I", data, 96)
    x, y, z, intensity = struct.unpack_from("<iiiH", data, offset + 12345 * 28)
    text = tab.text("record")
    for part in ("Record 12,345", f"X, raw{x}", f"Y, raw{y}", f"Z, raw{z}", f"Intensity{intensity}"):
        assert part in text, text


def test_saved_files_are_those_of_las(tab, made):
    for file, form, wanted in ((SAMPLE, "las", made / "tile.las"), (made / "tile.las", "laz", SAMPLE)):
        assert tab.open(file) == "done"
        # what is handed to the browser is read before it
        tab.value("void (URL.createObjectURL = ((make) => (blob) => (window.handed = blob, make(blob)))"
                  "(URL.createObjectURL.bind(URL)))")
        button = {"las": "saveLas", "laz": "saveLaz"}[form]
        tab.value(f"void document.getElementById('{button}').click()")
        tab.wait("document.body.dataset.saved !== undefined && window.handed !== undefined")
        assert tab.value("document.body.dataset.saved") == f"tile.{form} {wanted.stat().st_size}"
        got = tab.value("window.handed.arrayBuffer().then((it) => crypto.subtle.digest('SHA-256', it)).then((it) => "
                        "[...new Uint8Array(it)].map((byte) => byte.toString(16).padStart(2, '0')).join(''))")
        assert got == sum_of(wanted)
        tab.value("void (window.handed = undefined)")


def test_picture_is_saved_as_png(tab):
    tab.sample()
    tab.value("void (URL.createObjectURL = ((make) => (blob) => (window.handed = blob, make(blob)))"
              "(URL.createObjectURL.bind(URL)))")
    tab.value("void document.getElementById('savePng').click()")
    tab.wait("window.handed !== undefined")
    start = tab.value("window.handed.arrayBuffer().then((it) => [...new Uint8Array(it)].slice(0, 8))")
    assert bytes(start) == b"\x89PNG\r\n\x1a\n"


def test_two_files_are_compared_by_class(tab, made):
    assert tab.open(SAMPLE, made / "ground.laz") == "done"
    text = tab.text()
    assert "2 Ground12,15512,1550" in text
    assert "6 Building1,9960-1,996" in text
    assert tab.value("document.querySelectorAll('#views canvas').length") == 2
    tab.choose("layout", "over")
    assert tab.value("document.querySelectorAll('#views canvas').length") == 1
    tab.choose("mode", "file")
    assert {(52, 128, 214), (232, 132, 44)} & set(tab.picture())


def test_second_file_is_picked_beside_the_first(tab, made):
    tab.sample()
    assert tab.open(made / "ground.laz", field="#second") == "done"
    assert "2 Ground12,15512,1550" in tab.text()


def changed(data, *patches):
    copy = bytearray(data)
    for form, at, value in patches:
        struct.pack_into(form, copy, at, value)
    return bytes(copy)


def spoilt_fourth_chunk(program, folder):
    commands.good([program, "laszip", "-i", SAMPLE, "-o", folder / "a.las"])
    commands.good([program, "laszip", "-i", folder / "a.las", "-o", folder / "b.laz", "-chunk_size", "5000"])
    data = bytearray((folder / "b.laz").read_bytes())
    offset, = struct.unpack_from("<I", data, 96)
    table, = struct.unpack_from("<Q", data, offset)
    at = table - 5000
    data[at:at + 300] = b"\xff" * 300
    return bytes(data)


ONE = packed_one()
WRONG = {
    "a text": (b"a text, and no LAZ file\n" * 20, "2 Magic", "it is no LAS file"),
    "an empty file": (b"", "1 Short", "fewer than 227 bytes"),
    "format 6": (changed(ONE, ("<B", 104, 0x86)), "7 Format", "not one of 0 to 3"),
    "2^32 - 1 points claimed": (changed(ONE, ("<I", 107, 2**32 - 1)), "19 Table", "chunk table is cut off or damaged"),
    "a cut file": (SAMPLE.read_bytes()[:50_000], "18 TablePointer", "outside the file"),
}


@pytest.mark.parametrize("name", WRONG)
def test_bad_file_tells_its_cause_and_the_page_stays_usable(tab, name, tmp_path):
    data, cause, words = WRONG[name]
    (tmp_path / "bad.laz").write_bytes(data)
    assert tab.open(tmp_path / "bad.laz") == "refused"
    assert tab.said().startswith(f"bad.laz: Refused: {cause}. ")
    assert words in tab.said()
    tab.sample()
    assert tab.said() == "tile.laz: 20,493 points."


def test_chunks_before_a_bad_one_are_shown(tab, program, tmp_path):
    (tmp_path / "bad.laz").write_bytes(spoilt_fourth_chunk(program, tmp_path))
    assert tab.open(tmp_path / "bad.laz") == "refused"
    said = tab.said()
    assert "Refused: 21 BadChunk " in said
    assert "A chunk does not hold its number of point records." in said
    number = int(said.split("21 BadChunk ")[1].split(".")[0])
    assert 0 < number < 5
    assert f"Shown are the {5000 * number:,} points of the chunks before it." in said
    assert len(tab.picture()) > 5


def test_file_without_points(tab, tmp_path):
    (tmp_path / "none.las").write_bytes(head(0))
    assert tab.open(tmp_path / "none.las") == "done"
    assert tab.said() == "none.las: 0 points."


ATTEMPTS = {
    "fetch": "fetch('http://127.0.0.1:9/').catch(() => 0)",
    "an image": "void (new Image().src = 'http://127.0.0.1:9/a.png')",
    "a WebSocket": "(() => { try { new WebSocket('ws://127.0.0.1:9/'); } catch { return 0; } })()",
    "a beacon": "void navigator.sendBeacon('http://127.0.0.1:9/', 'a')",
    "a script": "void document.body.append(Object.assign(document.createElement('script'), "
                "{ src: 'http://127.0.0.1:9/a.js' }))",
    "a script inside": "void document.body.append(Object.assign(document.createElement('script'), "
                       "{ textContent: 'window.ran = 1' }))",
}


@pytest.mark.parametrize("name", ATTEMPTS)
def test_policy_stops(tab, name):
    tab.value("void (window.stopped = [], addEventListener('securitypolicyviolation', (it) => "
              "window.stopped.push(it.effectiveDirective)))")
    tab.value(ATTEMPTS[name])
    tab.wait("window.stopped.length > 0", 20)
    assert tab.value("window.ran === undefined") is True
    tab.sample()


def test_chromium_asks_for_nothing_but_the_page_and_its_worker(chromium):
    chromium.sample()
    asked = chromium.browser.asked_for()
    assert asked[0] == PAGE.as_uri()
    assert all(it.startswith(("blob:", "data:")) for it in asked[1:] if it != PAGE.as_uri()), asked
    assert chromium.browser.faults() == []


def test_five_million_points(chromium, made):
    assert chromium.open(made / "m.laz") == "done"
    assert chromium.said() == "m.laz: 5,000,000 points. One point in 2 is drawn: 2,500,000 in all."
    first, took = (int(chromium.value(f"document.body.dataset.{name}")) for name in ("firstPicture", "took"))
    print(f"first picture after {first} ms, all after {took} ms")
    assert first < 3000
    pixels = chromium.picture()
    assert sum(pixels.values()) > 100_000
    assert len(pixels) > 5


def test_first_picture_of_the_sample(chromium):
    times = []
    for _ in range(5):
        chromium.sample()
        times.append(int(chromium.value("document.body.dataset.firstPicture")))
    print("first picture of the sample:", times)
    assert min(times) <= 300


def contrast(one, other):
    def light(colour):
        parts = [part / 255 for part in colour]
        parts = [part / 12.92 if part <= 0.04045 else ((part + 0.055) / 1.055) ** 2.4 for part in parts]
        return 0.2126 * parts[0] + 0.7152 * parts[1] + 0.0722 * parts[2]
    high, low = sorted((light(one), light(other)), reverse=True)
    return (high + 0.05) / (low + 0.05)


@pytest.mark.parametrize("scheme", ["light", "dark"])
@pytest.mark.parametrize("width", [360, 1100])
def test_light_and_dark_on_a_phone_and_a_screen(chromium, scheme, width):
    chromium.browser.tab("Emulation.setEmulatedMedia",
                         {"features": [{"name": "prefers-color-scheme", "value": scheme}]})
    chromium.browser.tab("Emulation.setDeviceMetricsOverride",
                         {"width": width, "height": 800, "deviceScaleFactor": 2, "mobile": width < 500})
    chromium.sample()
    assert chromium.value("document.documentElement.scrollWidth <= innerWidth")
    script = ("[...document.querySelectorAll('h1, .note, #said, button, th, td')].filter((it) => !it.disabled)"
              ".map((it) => "
              "[getComputedStyle(it).color, getComputedStyle(it).backgroundColor, "
              "getComputedStyle(document.body).backgroundColor].join(' / '))")
    pairs = set(chromium.value(script))
    for pair in pairs:
        colour, own, body = ([float(it) for it in part[part.index("(") + 1:-1].split(",")]
                             for part in pair.split(" / "))
        back = own if len(own) == 3 or own[3] > 0 else body
        assert contrast(colour[:3], back[:3]) >= 4.5, pair


def test_each_control_has_a_name_and_is_reached_by_keys(chromium):
    chromium.sample()
    nodes = chromium.browser.tab("Accessibility.getFullAXTree")["nodes"]
    found = [(node["role"]["value"], node.get("name", {}).get("value", "")) for node in nodes if not node["ignored"]]
    roles = ("button", "combobox", "slider", "checkbox", "spinbutton", "img", "image")
    controls = [it for it in found if it[0] in roles]
    assert len(controls) > 10
    assert all(name for _, name in controls), controls
    assert any(role == "status" for role, _ in found)
    script = ("[...document.querySelectorAll('button, input, select, canvas')].filter((it) => !it.disabled && "
              "it.offsetParent !== null).every((it) => it.tabIndex >= 0)")
    assert chromium.value(script) is True
