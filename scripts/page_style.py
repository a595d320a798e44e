"""How the page on a boot looks, and what it does: the filter, the line below the overview, the arcs of the box under the pointer."""
from boot_picture import COLOURS, NARROW, WAITS_COLOUR

MONOSPACE = "ui-monospace, 'DejaVu Sans Mono', Menlo, Consolas, monospace"

SCREEN = f"""
* {{ box-sizing: border-box }}
html {{ scroll-padding-top: 3em }}
body {{ font: 15px/1.45 system-ui, sans-serif; color: #222; background: #fff; margin: 0 auto; padding: 0 12px 12px; max-width: 1240px }}
h1 {{ font-size: 1.4em; margin: .4em 0 .2em }}
h2 {{ font-size: 1.2em; margin: 0; display: inline }}
h3 {{ font-size: 1em; margin: 0 0 .3em }}
a {{ color: #0050a0 }}
p, li, td, th, dd, h1, h3, summary {{ overflow-wrap: break-word }}
code, .guid, .trace, pre {{ font-family: {MONOSPACE}; font-size: .87em }}
.guid {{ color: #555 }}
abbr {{ text-decoration: none; border-bottom: 1px dotted #888; cursor: help }}
pre, .trace li {{ overflow-wrap: anywhere; white-space: pre-wrap }}
.word {{ border: 1px solid currentColor; border-radius: 3px; padding: 0 4px; font-size: .87em; white-space: nowrap }}
:target {{ background: #fff3c4; outline: 2px solid #e69f00 }}
.part {{ margin: 1.2em 0 }}
.part > summary {{ border-bottom: 2px solid #222; margin-bottom: .5em; cursor: pointer }}
.rows {{ font-size: .75em; font-weight: normal; color: #555 }}
footer {{ margin-top: 2em; border-top: 1px solid #bbb; font-size: .87em; color: #444 }}
.out {{ display: none !important }}
"""

HEAD = f"""
nav {{ position: sticky; top: 0; z-index: 2; background: #fff; border-bottom: 1px solid #bbb; padding: 6px 0; display: flex; flex-wrap: wrap; gap: 4px 14px }}
nav input {{ margin-left: auto; font: inherit; width: 19em; max-width: 100% }}
#found {{ color: #444; min-width: 5em }}
.verdicts {{ list-style: none; margin: .2em 0; padding: 0 }}
.verdicts b {{ background: #222; color: #fff; border-radius: 3px; padding: 1px 8px; margin-right: 6px; print-color-adjust: exact; -webkit-print-color-adjust: exact }}
.verdict b {{ background: #00704f }}
.causes {{ border-left: 6px solid {WAITS_COLOUR}; padding: 2px 10px; margin: .5em 0 }}
p.causes {{ border-color: #009e73 }}
.causes ul {{ margin: 0; padding-left: 1.2em }}
.counts {{ display: flex; flex-wrap: wrap; gap: 2px 16px; margin: .4em 0; padding: 0; font-size: .87em }}
.counts div {{ display: flex; gap: 5px }}
.counts dt {{ color: #444 }}
.counts dd {{ margin: 0; font-weight: bold; order: -1 }}
"""

OVERVIEW = """
.overview { margin: .6em 0 .2em }
.phase { display: flex; gap: 8px; margin: 4px 0 }
.phase b { width: 2.4em }
.phase div { display: flex; flex-wrap: wrap; gap: 3px; flex: 1 }
.mark { display: inline-block; width: 22px; height: 17px; border-radius: 2px; font: 10px/17px system-ui, sans-serif; color: #fff; text-align: center;
  text-decoration: none; print-color-adjust: exact; -webkit-print-color-adjust: exact }
.mark:hover, .mark:focus, .mark.lit { outline: 2px solid #000 }
.mark.dim { opacity: .15 }
.says { margin: .2em 0; font-size: .87em; min-height: 1.5em }
.legend { display: flex; flex-wrap: wrap; gap: 2px 14px; font-size: .87em; padding: 0; margin: .2em 0; list-style: none }
.legend .mark { width: 12px; height: 12px; margin-right: 5px; vertical-align: -1px }
""" + "".join(f".mark.{licence} {{ background: {colour} }}\n" for licence, colour in COLOURS.items()) + \
    f".mark.waits {{ background: #fff; color: #222; border: 1.5px dashed {WAITS_COLOUR}; line-height: 14px }}\n.mark.before {{ color: #222 }}\n"

WAITS = f"""
.wait {{ border: 1px solid {WAITS_COLOUR}; border-left-width: 6px; border-radius: 4px; padding: 8px 12px; margin: 8px 0; break-inside: avoid }}
.wait p {{ margin: .2em 0 }}
.wait ul {{ margin: .2em 0; padding-left: 1.3em }}
"""

PICTURE = f"""
.picture svg {{ display: block; width: 100%; height: auto; break-inside: avoid }}
.narrow {{ display: none; columns: {NARROW.width()}px; column-gap: 20px }}
.narrow svg {{ max-width: {NARROW.width()}px }}
.boot .dim {{ opacity: .2 }}
.boot .found .box {{ stroke: #000; stroke-width: 2 }}
"""

TABLES = """
table { border-collapse: collapse; width: 100% }
thead { display: table-header-group }
tr { break-inside: avoid }
th { text-align: left; font-size: .87em }
td, th { border-top: 1px solid #ccc; padding: 4px 10px 4px 0; vertical-align: top }
td ul { margin: 0; padding-left: 1.1em }
td .guid { white-space: nowrap }
.stacks { font-size: .93em }
.bar { background: #e8e8e8; height: 14px; margin: 2px 0 8px; border: 1px solid #777 }
.bar i { display: block; height: 100%; min-width: 1px; background: #0072b2; print-color-adjust: exact; -webkit-print-color-adjust: exact }
#memory p { margin: .3em 0 0 }
.map .bar { margin: 4px 0; min-width: 60px }
.map .free i { background: repeating-linear-gradient(45deg, #009e73 0 4px, #fff 4px 8px) }
.map .allocated i { background: #d55e00 }
.map .nonexistent i { background: none }
"""

TRACE = """
.trace { list-style: none; padding: 0; margin: 0; counter-reset: line }
.trace li { counter-increment: line; padding-left: 4.2em; text-indent: -4.2em }
.trace li::before { content: counter(line); display: inline-block; width: 4.2em; padding-right: 1em; text-indent: 0; text-align: right; color: #777 }
.trace .begins { font-weight: bold; margin-top: .5em }
.trace em { font-family: system-ui, sans-serif; color: #0050a0 }
"""

STACKED = """
  table.stacks, .stacks tbody, .stacks tr, .stacks td { display: block; padding: 1px 0 }
  .stacks thead { display: none }
  .stacks td { border: 0 }
  .stacks tr { border-top: 1px solid #ccc; padding: 6px 0 }
  .stacks td[data-head]:not(:empty)::before { content: attr(data-head) ": "; color: #555; font-size: .87em }
  .stacks td ul { padding-left: 1.3em }
"""

NARROWER = f"""
@media (max-width: 1150px) {{
  .wide {{ display: none }}
  .narrow {{ display: block }}
  nav input {{ margin-left: 0; width: 100% }}
{STACKED}
  td .guid {{ white-space: normal; overflow-wrap: anywhere }}
  abbr {{ overflow-wrap: anywhere }}
  .map {{ font-size: .87em }}
  .map .bar {{ min-width: 24px }}
}}
"""

PRINTED = """
@page { margin: 14mm }
@media print {
  body { font-size: 9pt; padding: 0; max-width: none }
  nav, .says { display: none }
  .wide { display: none }
  .narrow { display: block }
  a { color: inherit; text-decoration: none }
  rect { print-color-adjust: exact; -webkit-print-color-adjust: exact }
}
"""

STYLE = SCREEN + HEAD + OVERVIEW + WAITS + PICTURE + TABLES + TRACE + NARROWER + PRINTED

# Without it the page says the same.
SCRIPT = """
const all = (query, from = document) => [...from.querySelectorAll(query)];
const shown = each => each.getClientRects().length > 0;
const unfold = each => { for (let at = each; at; at = at.parentElement) if (at.tagName === "DETAILS") at.open = true; };
const goTo = identity => {
  const target = all(`[data-box="${identity}"]`).find(shown) || document.getElementById(identity);
  if (target) { unfold(target); target.scrollIntoView({ block: "center" }); }
};

// A link to a part that is folded unfolds it; a mark leads to its box.
document.addEventListener("click", event => {
  const link = event.target.closest("a[href^='#']");
  if (!link) return;
  if (link.dataset.mark) { event.preventDefault(); unfold(document.getElementById("starts")); goTo(link.dataset.mark); light(link.dataset.mark); }
  else unfold(document.getElementById(link.getAttribute("href").slice(1)));
});
addEventListener("load", () => unfold(document.getElementById(decodeURIComponent(location.hash.slice(1)))));

// The box or the mark under the pointer: its arcs stand out, and so do the marks at their other ends.
const says = document.querySelector(".says");
const light = name => {
  for (const lit of all(".lit")) lit.classList.remove("lit");
  for (const arc of all(`.boot [data-from="${name}"], .boot [data-to="${name}"]`)) {
    arc.classList.add("lit");
    for (const end of [arc.dataset.from, arc.dataset.to]) for (const mark of all(`[data-mark="${end}"]`)) mark.classList.add("lit");
  }
};
for (const kind of ["pointerover", "focusin"]) document.addEventListener(kind, event => {
  const at = event.target.closest?.("[data-box], [data-mark]");
  if (!at) return;
  light(at.dataset.box || at.dataset.mark);
  if (at.title) says.textContent = at.title;
});

// The filter hides the rows, articles and lines that do not have its words, and dims their boxes and marks.
const filter = document.getElementById("filter"), found = document.getElementById("found");
const rows = all(".stacks tbody tr, .wait, .trace li");
const words = new Map(rows.map(row => [row, [row.textContent, ...all("[title]", row).map(each => each.title)].join(" ").toLowerCase()]));
const folded = new Map(all("details.part").map(part => [part, part.open]));
filter.addEventListener("input", () => {
  const asked = filter.value.trim().toLowerCase(), kept = new Set();
  let number = 0;
  for (const row of rows) {
    const keeps = words.get(row).includes(asked);
    row.classList.toggle("out", !keeps);
    if (keeps && row.id) { kept.add(row.id); number += 1; }
  }
  for (const box of all("[data-box], [data-mark]")) {
    const keeps = kept.has(box.dataset.box || box.dataset.mark);
    box.classList.toggle("dim", !keeps);
    box.classList.toggle("found", keeps && asked !== "");
  }
  for (const [part, was] of folded) part.open = asked ? Boolean(part.querySelector("tr:not(.out), .wait:not(.out), li:not(.out), .found")) : was;
  found.textContent = asked ? `${number} found` : "";
});
"""
