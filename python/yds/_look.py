"""How a page looks: its style, and its few lines of script, without which all is there."""

from __future__ import annotations

import base64
import hashlib

STYLE = """
:root { color-scheme: light dark; --ground: #ffffff; --ink: #1c1c1e; --soft: #5c5c63; --line: #d5d5da; --card: #f5f5f7; --window: #e9e9e9;
  --yes: #00693c; --no: #a63200; --open: #7a5600; --bar: #0072b2; --least: #009e73; }
@media (prefers-color-scheme: dark) { :root { --ground: #17171a; --ink: #ececef; --soft: #a8a8b0; --line: #3c3c44;
  --card: #222227; --window: #45454d; --yes: #55cf98; --no: #ff9a6b; --open: #e6b94d; --bar: #56b4e9; --least: #38c79a; } }
* { box-sizing: border-box; }
body { margin: 0 auto; padding: 1rem; max-width: 66rem; background: var(--ground); color: var(--ink);
  font: 1rem/1.5 system-ui, sans-serif; overflow-wrap: anywhere; }
header p { color: var(--soft); margin: 0; }
h1 { font-size: 1.5rem; line-height: 1.25; margin: .4rem 0; padding: .6rem .9rem; border-left: .4rem solid;
  background: var(--card); }
h2 { display: inline; font-size: 1.2rem; }
h3 { font-size: 1.05rem; margin: 1.2rem 0 .3rem; }
.yes { color: var(--yes); } .no { color: var(--no); } .open { color: var(--open); }
.told, figcaption, .caption { color: var(--soft); font-size: .9rem; }
details { border-top: 1px solid var(--line); margin-top: 1.4rem; padding-top: .6rem; }
summary { cursor: pointer; margin-bottom: .4rem; }
.caption { margin: .8rem 0 .2rem; }
.wide { overflow-x: auto; margin: 0 0 .6rem; }
table { border-collapse: collapse; font-size: .92rem; font-variant-numeric: tabular-nums; }
th, td { padding: .2rem .45rem; border-bottom: 1px solid var(--line); text-align: right; vertical-align: top;
  overflow-wrap: normal; }
td { white-space: nowrap; }
td .told { display: block; min-width: 14rem; white-space: normal; text-align: left; overflow-wrap: anywhere; }
th:first-child { text-align: left; }
thead th { font-weight: 600; vertical-align: bottom; }
tbody th { font-weight: 400; white-space: nowrap; }
#unjudged tbody th { min-width: 9rem; white-space: normal; } #unjudged td .told { min-width: 8rem; }
data { white-space: nowrap; }
.part { padding-left: 1.2rem; }
figure { margin: .8rem 0; }
figure .frame { overflow-x: auto; }
figure svg { width: 100%; min-width: 42rem; max-width: 60rem; height: auto; display: block; }
figure svg text { fill: var(--ink) !important; }
figure svg [style*="stroke: #222222"], figure svg [style*="stroke: #444444"] { stroke: var(--ink) !important; }
figure svg [style*="fill: #ffffff"] { fill: var(--ground) !important; }
figure svg [style*="fill: #e9e9e9"] { fill: var(--window) !important; }
figure svg [style*="stroke: #e8e8e8"] { stroke: var(--line) !important; }
figure.large svg { max-width: none; width: 200%; }
.bars { list-style: none; margin: .8rem 0; padding: 0; }
.bars li { margin: .35rem 0; }
.bars i { display: block; height: .8rem; background: var(--bar); min-width: 1px;
  -webkit-print-color-adjust: exact; print-color-adjust: exact; }
.bars .least i { background: var(--least); }
pre { white-space: pre-wrap; background: var(--card); padding: .6rem; font-size: .85rem; }
@media print { :root { --ground: #ffffff; --ink: #000000; --soft: #444444; --line: #d2d2d2; --card: #ffffff; --window: #e9e9e9;
  --yes: #00693c; --no: #a63200; --open: #7a5600; --bar: #0072b2; --least: #009e73; color-scheme: light; }
  html { font-size: 10pt; } body { max-width: none; padding: 0; } button { display: none; } .wide { overflow: visible; }
  figure svg { min-width: 0; max-width: 100%; } .frame { overflow: visible; }
  figure, tr { break-inside: avoid; } summary, h3, figcaption, .caption { break-after: avoid; } table { font-size: 8.5pt; } th, td { padding: .1rem .35rem; }
  h1 { font-size: 14pt; } h2 { font-size: 12pt; } p { margin: .4rem 0; } details { margin-top: .7rem; } }
"""

SCRIPT = """
addEventListener("beforeprint", () => document.querySelectorAll("details").forEach(one => { one.open = true; }));
document.querySelectorAll("figure").forEach(figure => {
  const button = document.createElement("button");
  button.type = "button";
  button.textContent = "larger";
  button.addEventListener("click", () => {
    button.textContent = figure.classList.toggle("large") ? "smaller" : "larger";
  });
  figure.append(button);
});
"""


def policy() -> str:
    """What a browser may do with the page: run this script, use its style, and fetch nothing."""
    digest = base64.b64encode(hashlib.sha256(SCRIPT.encode("ascii")).digest()).decode("ascii")
    rest = "img-src data:; style-src 'unsafe-inline'; base-uri 'none'; form-action 'none'"
    return f"default-src 'none'; script-src 'sha256-{digest}'; {rest}"
