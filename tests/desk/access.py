"""Holds that the report can be used by keyboard, screen reader and in both themes, by headings, ids, links, tables, drawings and contrast, and stands alone."""

import re
import sys
from itertools import product
from pathlib import Path

sys.path.insert(0, str(Path(__file__).resolve().parent))

import pages  # noqa: E402
import seeds  # noqa: E402
from frontdesk import doubts  # noqa: E402
from frontdesk.figures import engine, findings, slip  # noqa: E402
from frontdesk.page import report  # noqa: E402
from frontdesk.reading import casefile  # noqa: E402
from tally import Tally  # noqa: E402

LEAST = 45  # tenths: contrast of text with what it stands on
SHOWN = ("container-ship", "ferry", "reefer", "printed", "day-boat", "paper-carrier")
# what is text, and what it stands on
PAIRS = (
    *product(("ink", "quiet", "meets", "fails", "open", "sea", "loss"), ("paper", "panel")),
    *(("on%d" % shade, "kept%d" % shade) for shade in range(1, 6)),
    ("onloss", "loss"), ("ink", "pale"), ("quiet", "water"),
)
tally = Tally()


def headings(root):
    """One first heading, and no step left out on the way down."""
    levels = [int(element.tag[1]) for element in root.all("h1", "h2", "h3", "h4", "h5", "h6")]
    wrong = [] if levels.count(1) == 1 and levels[0] == 1 else ["first heading"]
    return wrong + ["h%d after h%d" % (b, a) for a, b in zip(levels, levels[1:]) if b > a + 1] + [
        "a heading without words" for element in root.all("h1", "h2", "h3") if not element.text.strip()]


def references(root):
    """Ids come once, and every link, label and description leads to one."""
    ids = [element.get("id") for element in root.all() if element.get("id")]
    wrong = ["twice " + name for name in {name for name in ids if ids.count(name) > 1}] if len(ids) < 3000 else ["too many ids"]
    known = set(ids)
    for element in root.all():
        targets = (element.get("aria-labelledby", "") + " " + element.get("aria-describedby", "")).split()
        if element.tag == "a":
            href = element.get("href", "")
            wrong += [] if href.startswith("#") else ["a link to " + href]
            targets.append(href[1:])
            wrong += [] if element.text.strip() else ["a link without words"]
        wrong += ["%s leads nowhere: %s" % (element.tag, name) for name in targets if name not in known]
    return wrong


def tables(root):
    """Each table has a caption, and each heading its direction; a table may scroll within a region that the keyboard reaches."""
    wrong = []
    for table in root.all("table"):
        caption = table.one("caption")
        name = caption.text.strip() if caption else ""
        if not name or not table.one("thead"):
            wrong.append("a table without caption or headings: " + name)
        wrong += ["a heading without scope in " + name for th in table.all("th") if th.get("scope") not in ("col", "row", "colgroup", "rowgroup")]
        bare = [row for row in table.all("tr") if row.parent.tag == "tbody" and not row.one("th")]
        wrong += ["a line without its heading in " + name] if bare else []
        region = table.parent
        if region.tag != "div" or region.get("tabindex") != "0" or region.get("role") != "region" or not region.get("aria-label"):
            wrong.append("no region around " + name)
    return wrong


def drawings(root):
    """Each drawing has a title and a description, or is hidden from those who do not see it."""
    wrong = []
    for svg in root.all("svg"):
        if svg.get("aria-hidden") == "true":
            continue
        first = [part for part in svg.inside if not isinstance(part, str)][:2]
        told = [part.tag for part in first] == ["title", "desc"] and all(part.text.strip() for part in first)
        if svg.get("role") != "img" or not told or svg.get("aria-labelledby", "").split() != [part.get("id") for part in first]:
            wrong.append("a drawing without role, title or description")
    return wrong


def alone(root, page):
    """No script, nothing from elsewhere, a language and a title."""
    wrong = ["<%s>" % element.tag for element in root.all("script", "link", "img", "iframe", "object", "embed", "base", "form")]
    wrong += ["@import or url in the style: " + found for found in re.findall(r"@import|url\((?!#)[^)]*\)", page)]
    wrong += ["%s=" % name for element in root.all() for name in element.attributes if name in ("src", "srcset", "action") or name.startswith("on")]
    wrong += [] if root.one("html").get("lang") == "en" and root.one("title").text.strip() else ["language or title"]
    wrong += [] if any(meta.get("name") == "viewport" for meta in root.all("meta")) else ["viewport"]
    landmarks = [element.tag for element in root.all("main")]
    return wrong + ([] if landmarks == ["main"] else ["one main part"])


def palette(style):
    """The colours of both themes by name."""
    dark_at = style.index("prefers-color-scheme: dark")
    colours = re.compile(r"--([a-z0-9]+): #([0-9a-f]{6});")
    light = dict(colours.findall(style[:dark_at]))
    return light, {**light, **dict(colours.findall(style[dark_at:]))}


def luminance(colour):
    """Of a colour beside white, by the formula of WCAG 2."""
    parts = []
    for at in (0, 2, 4):
        part = int(colour[at:at + 2], 16) / 255
        parts.append(part / 12.92 if part <= 0.03928 else ((part + 0.055) / 1.055) ** 2.4)
    return 0.2126 * parts[0] + 0.7152 * parts[1] + 0.0722 * parts[2]


def contrast(one, other):
    light, dark = sorted((luminance(one), luminance(other)), reverse=True)
    return (light + 0.05) / (dark + 0.05)


def colours():
    style = (report.TEMPLATES / "style.css").read_text()
    used = set(re.findall(r"var\(--([a-z0-9]+)\)", style))
    for name, theme in zip(("light", "dark"), palette(style)):
        tally.same(sorted(used - set(theme)), [], "%s: each colour that is used has a value" % name)
        for text, ground in PAIRS:
            found = contrast(theme[text], theme[ground])
            tally.that(10 * found >= LEAST, "%s: contrast of %s on %s" % (name, text, ground), found)
    light, dark = palette(style)
    tally.that(all(light[name] != dark[name] for name in light), "the dark theme has a value of its own for each colour")
    outside = [line for line in style.splitlines() if re.search(r"#[0-9a-f]{3}", line) and not line.strip().startswith("--")]
    tally.same(outside, [], "no colour stands outside the palette")
    tally.that("@media print" in style and "size: A4" in style and "table-header-group" in style, "it prints on A4, with headings on each page")
    tally.that(":focus-visible" in style, "the focus can be seen")


def looked_at(name, page):
    root = pages.read(page)
    for what, wrong in (("well formed", root.wrong), ("headings", headings(root)), ("ids and links", references(root)), ("tables", tables(root)),
                        ("drawings", drawings(root)), ("alone", alone(root, page))):
        tally.same(wrong[:3], [], "%s: %s" % (name, what))


def main():
    library = engine.load()
    colours()
    for name, data in seeds.examples():
        if name in SHOWN:
            ship = casefile.parse(data, name + ".case")
            found = findings.find(library, ship)
            looked_at(name, report.page(found, doubts.of(ship, found), slip.slip(found)))
    for passengers in (False, True):
        for name, data in seeds.random_files(12, passengers, most=8, seed="access"):
            looked_at(name, report.page(findings.find(library, casefile.parse(data, name))))
    looked_at("a refusal", report.refusal_page("ferry.xlsx", ["one", "two"]))
    return tally.close()


if __name__ == "__main__":
    sys.exit(main())
