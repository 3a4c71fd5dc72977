// What a page must keep, looked at in the browser: returns a list of what it does not keep. Run by tests/desk/browser.py; the page itself has no script.
const faults = [];
const fault = (what, element) => faults.push(what + (element ? ": " + element.outerHTML.replace(/\s+/g, " ").slice(0, 160) : ""));
const all = (query, inside = document) => Array.from(inside.querySelectorAll(query));
const visible = new Map();
const shown = element => {
  if (!visible.has(element)) visible.set(element, element.checkVisibility({checkOpacity: true, checkVisibilityCSS: true})
      && element.getBoundingClientRect().width > 1);
  return visible.get(element);
};

// structure
if (!document.documentElement.lang) fault("no language");
if (!document.title.trim()) fault("no title");
if (all("h1").length !== 1) fault("headings of the first level: " + all("h1").length);
if (all("main").length !== 1) fault("main parts: " + all("main").length);
let level = 0;
for (const heading of all("h1, h2, h3, h4, h5, h6")) {
  const next = Number(heading.tagName[1]);
  if (next > level + 1) fault("a heading that skips a level", heading);
  if (!heading.textContent.trim()) fault("an empty heading", heading);
  level = next;
}
if (all("script, iframe, object, embed, link[rel=stylesheet], base").length) fault("something that is loaded or run");
const ids = new Set();
for (const element of all("[id]")) ids.has(element.id) ? fault("an id twice: " + element.id) : ids.add(element.id);
for (const link of all("a[href^='#']")) if (!document.getElementById(decodeURIComponent(link.hash.slice(1)))) fault("a link that leads nowhere", link);
for (const link of all("a")) if (!link.textContent.trim() && !link.getAttribute("aria-label")) fault("a link without text", link);
for (const name of ["aria-labelledby", "aria-describedby"])
  for (const element of all("[" + name + "]"))
    for (const id of element.getAttribute(name).split(/\s+/)) if (!ids.has(id)) fault(name + " of nothing", element);
for (const input of all("input:not([type=hidden]), select, textarea")) if (!input.labels.length) fault("an input without a label", input);
for (const button of all("button")) if (!button.textContent.trim()) fault("a button without text", button);
for (const image of all("img")) if (!image.hasAttribute("alt")) fault("a picture without words", image);

// tables and drawings
for (const table of all("table")) {
  if (!table.caption || !table.caption.textContent.trim()) fault("a table without a caption", table);
  if (!all("thead th", table).length) fault("a table without headings", table);
  for (const head of all("th", table)) if (!head.scope) fault("a heading of a table without its scope", head);
  const columns = row => Array.from(row.cells).reduce((sum, cell) => sum + cell.colSpan, 0);
  const widest = Math.max(0, ...Array.from(table.rows).map(columns));
  for (const row of table.rows) if (columns(row) > widest) fault("a row that is too long", row);
}
for (const area of all(".scroll")) if (area.scrollWidth > area.clientWidth + 1 && area.tabIndex < 0)
    fault("an area that scrolls and cannot be reached by keys", area);
const drawings = all("svg").filter(svg => svg.getAttribute("role") === "img");
for (const svg of all("svg")) {
  if (svg.getAttribute("aria-hidden") === "true" || svg.closest("[aria-hidden=true]")) continue;
  const title = svg.querySelector(":scope > title");
  if (svg.getAttribute("role") !== "img") fault("a drawing that is not said to be one", svg);
  else if (!(title && title.textContent.trim()) && !svg.getAttribute("aria-label")) fault("a drawing without a title", svg);
  else if (!svg.querySelector(":scope > desc")) fault("a drawing without a description", svg);
}

// nothing wider than the page, nothing cut off, no two texts of a drawing on each other
const page = document.scrollingElement;
if (page.scrollWidth > page.clientWidth + 1) {
  const scrolls = element => element && (getComputedStyle(element).overflowX !== "visible" || scrolls(element.parentElement));
  const wide = all("body *").filter(element => shown(element) && element.getBoundingClientRect().right > page.clientWidth + 1
      && !scrolls(element.parentElement));
  fault("the page is wider than the window by " + (page.scrollWidth - page.clientWidth), wide.pop());
}
for (const element of all("body *")) {
  if (!(element instanceof HTMLElement) || !shown(element)) continue;
  const style = getComputedStyle(element);
  if (!["hidden", "clip"].includes(style.overflowX) && !["hidden", "clip"].includes(style.overflowY)) continue;
  const wide = element.scrollWidth > element.clientWidth + 1, tall = element.scrollHeight > element.clientHeight + 1;
  if ((wide || tall) && style.webkitLineClamp === "none") fault("text that is cut off", element);
}
for (const svg of drawings) {
  if (!shown(svg)) continue;
  const frame = svg.getBoundingClientRect();
  const texts = all("text", svg).filter(text => text.textContent.trim()).map(text => ({text, box: text.getBoundingClientRect()}));
  for (const {text, box} of texts)
    if (box.left < frame.left - 1 || box.right > frame.right + 1 || box.top < frame.top - 2 || box.bottom > frame.bottom + 2)
        fault("a text outside of its drawing", text);
  for (let i = 0; i < texts.length; i++)
    for (let k = i + 1; k < texts.length; k++) {
      const one = texts[i].box, other = texts[k].box;
      const across = Math.min(one.right, other.right) - Math.max(one.left, other.left);
      const down = Math.min(one.bottom, other.bottom) - Math.max(one.top, other.top);
      if (across > 0.5 && down > 0.3 * Math.min(one.height, other.height))
          fault("two texts on each other: " + texts[i].text.textContent + " / " + texts[k].text.textContent, texts[i].text);
    }
}

// contrast: of every text against what lies behind it
const parts = colour => {
  const found = colour.match(/rgba?\(([^)]*)\)/);
  return found ? found[1].split(/[,\s/]+/).filter(Boolean).map(Number) : null;
};
const light = rgb => {
  const [r, g, b] = rgb.slice(0, 3).map(part => part / 255).map(part => (part <= 0.04045 ? part / 12.92 : ((part + 0.055) / 1.055) ** 2.4));
  return 0.2126 * r + 0.7152 * g + 0.0722 * b;
};
const contrast = (one, other) => {
  const [dark, bright] = [light(one), light(other)].sort((a, b) => a - b);
  return (bright + 0.05) / (dark + 0.05);
};
const opaque = colour => colour && (colour.length < 4 || colour[3] > 0.99);
const grounds = new Map();
const behind = element => {
  if (!element) return [255, 255, 255];
  if (!grounds.has(element)) {
    const colour = parts(getComputedStyle(element).backgroundColor);
    grounds.set(element, opaque(colour) ? colour : behind(element.parentElement));
  }
  return grounds.get(element);
};
const filled = new Map();
const shapes = svg => {
  if (!filled.has(svg)) {
    const found = all("rect, polygon, path, circle, ellipse", svg).filter(shape => !shape.closest("defs, pattern, clipPath"));
    filled.set(svg, found.map(shape => ({shape, area: shape.getBoundingClientRect(), fill: parts(getComputedStyle(shape).fill)}))
        .filter(({fill}) => opaque(fill)));
  }
  return filled.get(svg);
};
const beneath = (text, svg) => {
  const box = text.getBoundingClientRect();
  let found = null;
  const x = box.left + box.width / 2, y = box.top + box.height / 2;
  for (const {shape, area, fill} of shapes(svg)) {
    if (x < area.left || x > area.right || y < area.top || y > area.bottom
        || !(shape.compareDocumentPosition(text) & Node.DOCUMENT_POSITION_FOLLOWING)) continue;
    if (shape.isPointInFill(new DOMPoint(x, y).matrixTransform(shape.getScreenCTM().inverse()))) found = fill;
  }
  return found || behind(svg);
};
let least = 99, texts = 0;
const seen = new Set();
const held = (element, colour, ground) => {
  const ratio = contrast(colour, ground);
  texts++;
  least = Math.min(least, ratio);
  const key = colour + " on " + ground;
  if (ratio < 4.5 && !seen.has(key)) { seen.add(key); fault("contrast " + ratio.toFixed(2) + ", " + key, element); }
};
const walker = document.createTreeWalker(document.body, NodeFilter.SHOW_TEXT);
while (walker.nextNode()) {
  const element = walker.currentNode.parentElement;
  if (!walker.currentNode.data.trim() || element.closest("svg, style, title, desc") || !shown(element)) continue;
  const colour = parts(getComputedStyle(element).color);
  if (!opaque(colour)) fault("a text that shows what is behind it", element);
  else held(element, colour, behind(element));
}
for (const svg of drawings)
  if (shown(svg)) for (const text of all("text", svg)) if (text.textContent.trim()) held(text, parts(getComputedStyle(text).fill), beneath(text, svg));
return {faults, texts, least, drawings: drawings.length, tables: all("table").length};
