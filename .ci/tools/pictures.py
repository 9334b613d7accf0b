"""What vaultdesk-picture draws: each entry of a mapping once, no box on another, no text and no line where it should not be.
Frames are taken from the SVG as it is written, and measured in Chromium where that is on this machine."""
import html
import json
import os
import random
import re
import shutil
import subprocess
import xml.etree.ElementTree

from kept.program import TOP, CheckFailed, expect
from tools.bench import answer

SVG = "{http://www.w3.org/2000/svg}"
KINDS = ("hub", "link", "feed", "path")
LONGEST_BROWSER = 120  # seconds
# How far a measured text or line may go past the frame of its box, in pixels.
SLACK = 1.5
MEASURE = """<script>
const frame = (own) => { const r = own.getBoundingClientRect(); return [r.left, r.top, r.right, r.bottom]; };
const points = (line) => [...Array(41).keys()].map((n) => {
  const at = line.getPointAtLength(line.getTotalLength() * n / 40), by = line.getScreenCTM();
  return [at.x * by.a + by.e, at.y * by.d + by.f]; });
const found = [...document.querySelectorAll("svg")].map((svg) => ({
  frame: frame(svg),
  boxes: [...svg.querySelectorAll("g")].map((g) => ({ kind: g.getAttribute("class"), name: g.querySelector("text.name").textContent,
    frame: frame(g.querySelector("rect")), texts: [...g.querySelectorAll("text")].map(frame) })),
  lines: [...svg.querySelectorAll("path")].map(points) }));
const told = document.createElement("pre");
told.textContent = JSON.stringify(found);
document.body.replaceChildren(told);
</script>"""


def written(value):
    """A value as TOML writes it."""
    if isinstance(value, list):
        return f"[{', '.join(map(written, value))}]"
    return json.dumps(value, ensure_ascii=False)


def as_toml(mapping):
    """The text of a mapping, which has the entries of each kind as dictionaries."""
    entries = ((kind, entry) for kind in KINDS for entry in mapping.get(kind, ()))
    return "".join(f"[[{kind}]]\n" + "".join(f"{key} = {written(value)}\n" for key, value in entry.items()) for kind, entry in entries)


def wide_name(kind, number):
    """A name of 40 characters."""
    return f"{kind}_{number}_".ljust(40, "w")


def wide_column(number, width):
    """The name of a column: of so many bytes, of signs that mean something in SVG, or of wide letters."""
    return f"{number} {'&<>' * 70}"[:width].strip() if number % 2 else f"{number} {chr(0x6f22) * 60}"[:width // 3 + 1].strip()


class Drawn:
    """A mapping of a size that is drawn at random."""

    def __init__(self, pick, hubs, links, feeds, paths):
        self.pick, self.mapping = pick, {kind: [] for kind in KINDS}
        self.mapping["hub"] = [{"name": wide_name("hub", n), "parts": pick.randint(1, 4)} for n in range(hubs)]
        for number in range(links):
            joined = [hub["name"] for hub in pick.sample(self.mapping["hub"], pick.randint(2, min(4, hubs)))]
            self.mapping["link"].append({"name": wide_name("link", number), "hubs": joined})
        for number in range(feeds):
            self.mapping["feed"].append(self.feed(number))
        of_links = [feed for feed in self.mapping["feed"] if "link" in feed]
        for number in range(paths if of_links else 0):
            self.mapping["path"].append(self.path(number, pick.choice(of_links)))

    def feed(self, number):
        kind = "link" if self.mapping["link"] and number % 2 else "hub"
        parent = self.pick.choice(self.mapping[kind])
        hubs = parent["hubs"] if kind == "link" else [parent["name"]]
        parts = {hub["name"]: hub["parts"] for hub in self.mapping["hub"]}
        feed = {"name": wide_name("feed", number), "source": wide_name("source", number), kind: parent["name"],
                "keys": [[f"K{hub}_{part}" for part in range(parts[name])] for hub, name in enumerate(hubs)]}
        columns = [wide_column(number, self.pick.choice((3, 40, 198))) for number in range(self.pick.randint(0, 15))]
        feed.update({"attrs": columns} if columns else {})
        return {**feed, "driver": hubs[:1]} if kind == "link" and number % 3 else {**feed, "sub": ["Z"]} if columns else feed

    def path(self, number, feed):
        link = next(link for link in self.mapping["link"] if link["name"] == feed["link"])
        steps = self.pick.randint(1, 4)
        return {"name": wide_name("path", number), "feeds": [feed["name"]] * steps, "via": [self.pick.choice(link["hubs"])] * (steps - 1)}


def crowded(kind):
    """A mapping at the limits, all feeds of which are of one hub or of one link."""
    mapping = Drawn(random.Random(7), 32, 32, 0, 0).mapping
    hubs, link = mapping["hub"], mapping["link"][0]
    for hub in hubs:
        hub["parts"] = 1
    parent = link if kind == "link" else hubs[5]
    keys = [[f"K{n}"] for n in range(len(link["hubs"]) if kind == "link" else 1)]
    mapping["feed"] = [{"name": f"f{n}", "source": "s", kind: parent["name"], "keys": keys, "attrs": ["A"]} for n in range(64)]
    return mapping


def small_mappings():
    """Mappings with little in them, by names."""
    hubs = [{"name": "a", "parts": 1}, {"name": "b", "parts": 4}]
    feed = {"name": "a", "source": "s", "attrs": ['Ann & "Bo" <x>', "\u00f8 #1; %% \\n"]}
    of_hub, of_link = {**feed, "hub": "a", "keys": [["K"]]}, {**feed, "link": "a", "keys": [["K"], ["A", "B", "C", "D"]]}
    same = {"hub": hubs, "link": [{"name": "a", "hubs": ["a", "b"]}], "feed": [of_link],
            "path": [{"name": "a", "feeds": ["a", "a"], "via": ["b"]}]}
    return {"nothing": {}, "one hub": {"hub": hubs[:1]}, "a hub and a feed": {"hub": hubs[:1], "feed": [of_hub]},
            "one name for all kinds": same}


def all_mappings():
    """Mappings by names: small ones, some at the limits, and some between."""
    found = small_mappings()
    found |= {"at the limits": Drawn(random.Random(1), 32, 32, 64, 16).mapping, "64 feeds of a hub": crowded("hub"),
              "64 feeds of a link": crowded("link")}
    pick = random.Random(2)
    for number in range(4):
        sizes = pick.randint(2, 32), pick.randint(0, 32), pick.randint(0, 64), pick.randint(0, 16)
        found[f"drawn {number}"] = Drawn(pick, *sizes).mapping
    return found


def picture(bench, text, *words):
    """What vaultdesk-picture writes of the text of a mapping."""
    got = bench.tool("vaultdesk-picture", bench.new_folder({"mapping.toml": text}), *words)
    expect(f"the status; it said {got.err!r}", 0, got.status)
    return got.out.decode()


def declared(mapping):
    return sorted((kind, entry["name"]) for kind in KINDS for entry in mapping.get(kind, ()))


def joined(mapping):
    """What is joined to what, as pairs of a kind and a name, without an order in a pair."""
    pairs = [(("link", link["name"]), ("hub", hub)) for link in mapping.get("link", ()) for hub in link["hubs"]]
    pairs += [(("feed", feed["name"]), (kind, feed[kind])) for feed in mapping.get("feed", ()) for kind in KINDS if kind in feed]
    pairs += [(("path", path["name"]), ("feed", feed)) for path in mapping.get("path", ()) for feed in path["feeds"]]
    return sorted(tuple(sorted(pair)) for pair in pairs)


def is_apart(one, other):
    return one[2] <= other[0] or other[2] <= one[0] or one[3] <= other[1] or other[3] <= one[1]


def is_inside(inner, outer, slack=0.0):
    return all(inner[n] >= outer[n] - slack and inner[n + 2] <= outer[n + 2] + slack for n in (0, 1))


def expect_boxes(what, mapping, frame, boxes):
    """Expects each entry in one box, each box in the frame, and none on another."""
    expect(f"{what}: the names", declared(mapping), sorted((box["kind"], box["name"]) for box in boxes))
    for place, box in enumerate(boxes):
        expect(f"{what}: {box['name']} is in the picture", True, is_inside(box["frame"], frame))
        for other in boxes[:place]:
            expect(f"{what}: {box['name']} and {other['name']} are apart", True, is_apart(box["frame"], other["frame"]))


def frame_of(rect):
    x, y, width, height = (float(rect.get(key, 0)) for key in ("x", "y", "width", "height"))
    return [x, y, x + width, y + height]


def boxes_as_written(bench):
    """a picture has each hub, link, feed and path once, in a box of its own that lies on no other"""
    for what, mapping in all_mappings().items():
        root = xml.etree.ElementTree.fromstring(picture(bench, as_toml(mapping)))
        boxes = [{"kind": group.get("class"), "name": next(text.text for text in group.iter(f"{SVG}text") if text.get("class") == "name"),
                  "frame": frame_of(group.find(f"{SVG}rect"))} for group in root.iter(f"{SVG}g")]
        expect_boxes(what, mapping, frame_of(root.find(f"{SVG}rect")), boxes)
        expect(f"{what}: lines", len(set(joined(mapping))), sum(1 for _ in root.iter(f"{SVG}path")))


def measured(bench, pictures):
    """The frames of what is in some pictures, as Chromium lays them out."""
    folder = bench.new_folder({"page.html": f'<meta charset="utf-8"><body>{"".join(pictures)}{MEASURE}'})
    words = ["chromium", "--headless", "--no-sandbox", "--disable-gpu", f"--user-data-dir={folder}/profile", "--dump-dom",
             f"file://{folder}/page.html"]
    done = subprocess.run(words, cwd=folder, stdin=subprocess.DEVNULL, stdout=subprocess.PIPE, stderr=subprocess.DEVNULL,
                          timeout=LONGEST_BROWSER, env={**os.environ, "HOME": str(folder)}, check=False)
    found = re.search(r"<pre>(.*)</pre>", done.stdout.decode(), re.S)
    if not found:
        raise CheckFailed(f"Chromium ended with status {done.returncode}, and measured nothing")
    return json.loads(html.unescape(found[1]))


def in_chromium(bench):
    """in headless Chromium no two boxes overlap, each text is in its box, and no line crosses a box"""
    if not shutil.which("chromium"):
        bench.leave_out("pictures in Chromium, which is not on this machine")
        return
    mappings = all_mappings()
    found = measured(bench, [picture(bench, as_toml(mapping)) for mapping in mappings.values()])
    expect("pictures", len(mappings), len(found))
    for (what, mapping), drawn in zip(mappings.items(), found):
        expect_boxes(what, mapping, drawn["frame"], drawn["boxes"])
        for box in drawn["boxes"]:
            for text in box["texts"]:
                expect(f"{what}: the texts of {box['name']} are in its box", True, is_inside(text, box["frame"], SLACK))
        expect_free_lines(what, drawn)


def expect_free_lines(what, drawn):
    """Expects each line to keep outside of each box, and to touch two of them."""
    for line in drawn["lines"]:
        for box in drawn["boxes"]:
            left, top, right, bottom = box["frame"]
            inside = [(x, y) for x, y in line if left + SLACK < x < right - SLACK and top + SLACK < y < bottom - SLACK]
            expect(f"{what}: a line in the box of {box['name']}", [], inside)
        ends = [any(is_inside([x, y, x, y], box["frame"], SLACK) for box in drawn["boxes"]) for x, y in (line[0], line[-1])]
        expect(f"{what}: the ends of a line are at boxes", [True, True], ends)


def graph_of(text, node, edge):
    """The names and the pairs of a graph that is written line by line, by the patterns of a node and of an edge."""
    names = {found[1]: (re.sub(r"\d+$", "", found[1]), found[2]) for found in re.finditer(node, text, re.M)}
    return sorted(names.values()), sorted(tuple(sorted((names[found[1]], names[found[2]]))) for found in re.finditer(edge, text, re.M))


def as_graphs(bench):
    """for Mermaid and for DOT each entry is a node with its name, and what is joined is an edge"""
    for what, mapping in all_mappings().items():
        got = graph_of(picture(bench, as_toml(mapping), "--mermaid"), r'^  (\w+)\W*"(\w+)', r"^  (\w+) ---(?:\|\d\|)? (\w+)$")
        expect(f"{what}, for Mermaid", (declared(mapping), joined(mapping)), got)
        text = picture(bench, as_toml(mapping), "--dot")
        got = graph_of(text, r'^  (\w+) \[label="(\w+)', r"^  (\w+) -- (\w+)(?: \[.*)?$")
        expect(f"{what}, for DOT", (declared(mapping), joined(mapping)), got)
        if shutil.which("dot"):
            done = subprocess.run(["dot", "-Tplain"], input=text.encode(), capture_output=True, check=False)
            counts = [done.stdout.count(b"\n" + word) for word in (b"node ", b"edge ")]
            expect(f"{what}: what dot draws", (0, [len(declared(mapping)), len(joined(mapping))]), (done.returncode, counts))
    if not shutil.which("dot"):
        bench.leave_out("graphs drawn by dot, which is not on this machine")


def forms_of_toml(bench):
    """a mapping is drawn in each form that the program takes: inline tables over lines, last commas, escapes, comments"""
    inline = ('hub = [{ name = "a", parts = 1 }]\n'
              'feed = [{ name = "f", source = "s", hub = "a", keys = [["K"]], attrs = ["A, }", "# \\u00e5"] }]\n')
    spread = inline.replace("{ name", "{ # {\n name").replace(", parts = 1 }", ",\r\n  parts = 0x1,\n}").replace("] }]", "],\n }, # }\n]")
    spread = "\ufeff" + spread.replace("\\u00e5", "\\xe5").replace('"s"', "'''\ns'''")
    expect("the two forms", picture(bench, inline), picture(bench, spread))


def without_picture(bench):
    """a refused mapping has status 1, wrong words 2, a file that cannot be read 4; nothing is drawn, and no traceback is written"""
    folder = bench.new_folder({"mapping.toml": "hub = 1\n", "zero": b"\x00", "good.toml": 'hub = [{ name = "a", parts = 1 }]\n'})
    os.mkfifo(folder / "fifo")
    os.truncate(folder / "zero", 4 * 1024 ** 3)
    for words, status in (([], 1), (["zero"], 1), (["--mermaid", "--dot"], 2), (["--none"], 2), (["none"], 4), (["fifo"], 4), (["."], 4),
                          (["/dev/zero"], 4), (["--program", "/nowhere", "good.toml"], 4), (["--program", "/bin/true", "good.toml"], 4)):
        got = bench.tool("vaultdesk-picture", folder, *words)
        expect(f"{words}: {got.err!r}", (status, b"", False), (got.status, got.out, b"Traceback" in got.err))
    full = answer(["bash", "-c", f"python3 {bench.tool_path('vaultdesk-picture')} good.toml > /dev/full"], folder)
    expect(f"a full disk: {full.err!r}", (4, False), (full.status, b"Traceback" in full.err))


def kept_pictures(bench):
    """a picture that the repository keeps is that of the example of its name"""
    for path in sorted((TOP / "docs" / "manual" / "pictures").glob("*.svg")):
        mapping = TOP / "examples" / path.stem / "mapping.toml"
        if mapping.exists():
            expect(path.name, path.read_text(encoding="utf-8"), picture(bench, mapping.read_text(encoding="utf-8")))
        else:
            bench.leave_out(f"{path.name}, as there is no {mapping.relative_to(TOP)}")


CHECKS = [boxes_as_written, in_chromium, as_graphs, forms_of_toml, without_picture, kept_pictures]
