"""Reads a page back as a reader would: its elements, and its tables cell by cell."""

import re
from html.parser import HTMLParser

EMPTY = {"meta", "br", "link", "input", "img", "hr", "rect", "line"}  # with no end tag of their own


class Element:
    def __init__(self, tag, attributes, parent):
        self.tag, self.attributes, self.parent, self.inside = tag, dict(attributes), parent, []

    def get(self, name, otherwise=None):
        return self.attributes.get(name, otherwise)

    @property
    def classes(self):
        return (self.get("class") or "").split()

    @property
    def text(self):
        """All text inside, a line break as a space."""
        return "".join(part if isinstance(part, str) else " " if part.tag == "br" else part.text for part in self.inside)

    def all(self, *tags):
        """Every element of these tags below this one, in the page's order."""
        for part in self.inside:
            if not isinstance(part, str):
                if not tags or part.tag in tags:
                    yield part
                yield from part.all(*tags)

    def one(self, *tags):
        return next(self.all(*tags), None)


class Reader(HTMLParser):
    def __init__(self):
        super().__init__(convert_charrefs=True)
        self.root = self.at = Element("page", (), None)
        self.wrong, self.regions = [], {}

    def updatepos(self, i, j):
        """Nobody asks for line numbers, which take a tenth of the time."""
        return j

    def handle_starttag(self, tag, attributes):
        element = Element(tag, attributes, self.at)
        self.at.inside.append(element)
        if "aria-label" in element.attributes:
            self.regions.setdefault(element.get("aria-label"), element)
        if tag not in EMPTY:
            self.at = element

    def handle_startendtag(self, tag, attributes):
        self.at.inside.append(Element(tag, attributes, self.at))

    def handle_endtag(self, tag):
        if tag in EMPTY:
            return
        if self.at.tag != tag:
            self.wrong.append("</%s> closes <%s>" % (tag, self.at.tag))
        while self.at.parent and self.at.tag != tag:
            self.at = self.at.parent
        self.at = self.at.parent or self.at

    def handle_data(self, text):
        self.at.inside.append(text)


def read(page, drawings=True):
    """The page's root; elements that are not closed in their order are told in its list of what is wrong. Drawings are left out where nobody looks at them."""
    reader = Reader()
    reader.feed(page if drawings else re.sub(r"<svg.*?</svg>", "", page, flags=re.S))
    reader.close()
    reader.root.wrong = reader.wrong + ([] if reader.at is reader.root else ["<%s> is not closed" % reader.at.tag])
    reader.root.regions = reader.regions
    return reader.root


def table(root, label):
    """The table of the region with this label: the texts of each line of its bodies and feet, cells over several lines repeated in each."""
    region = root.regions.get(label)
    if region is None:
        return None
    lines, over = [], {}
    for row in region.one("table").all("tr"):
        if row.parent.tag == "thead":
            continue
        line, at = [], 0
        cells = [cell for cell in row.inside if not isinstance(cell, str)]
        while cells or at in over:
            if at in over:
                left, text = over[at]
                line.append(text)
                over[at] = (left - 1, text)
                if left == 1:
                    del over[at]
            else:
                cell = cells.pop(0)
                text, down = " ".join(cell.text.split()), int(cell.get("rowspan", 1))
                for _ in range(int(cell.get("colspan", 1))):
                    line.append(text)
                    if down > 1:
                        over[at] = (down - 1, text)
                    at += 1
                continue
            at += 1
        lines.append(line)
    return lines


def whole(text, places):
    """A decimal text as a whole number of its last place, where it has just so many places."""
    negative = text.startswith(("-", "\u2212"))
    front, dot, back = text.lstrip("-\u2212+").partition(".")
    if len(back) != places or (dot and not back):
        raise ValueError("%r has not %d places" % (text, places))
    count = int(front + back)
    return -count if negative else count
