"""How the page looks: on light and dark screens, on narrow ones, and on paper.

A table is as wide as its place. If its columns need more it scrolls, and shadows at its sides show that there is more:
the paper, which moves with the table, hides them at its ends.
"""

STYLE = """
:root { color-scheme: light dark; --ink: #1b232c; --soft: #56626f; --line: #d3d9df; --paper: #fff;
  --clear: #fff0; --band: #f4f6f8;
  --shade: #0006; --mark: #2f6fab; --note: #8a5a00; --side: 1.25rem; }
@media screen and (prefers-color-scheme: dark) {
  :root { --ink: #e3e7eb; --soft: #a3aeb9; --line: #3a434d; --paper: #15191e; --clear: #15191e00; --band: #1e242b;
    --shade: #fff6; --mark: #6ea8dc; --note: #e0b25a; }
  image { filter: brightness(1.5); }
}
* { box-sizing: border-box; }
body { margin: 0 auto; padding: 1.5rem var(--side) 4rem; max-width: 75rem; background: var(--paper); color: var(--ink);
  font: 1rem/1.5 system-ui, -apple-system, "Segoe UI", "Liberation Sans", Arial, sans-serif; overflow-wrap: anywhere; }
h1, h2 { line-height: 1.25; font-weight: 650; }
h1 { margin: 0 0 .25rem; font-size: 1.6rem; }
h2 { margin: 2.25rem 0 .75rem; padding-top: .75rem; border-top: 1px solid var(--line); font-size: 1.2rem; }
p, ul { margin: .5rem 0; max-width: 60rem; }
a { color: var(--mark); }
.soft, figcaption, footer { color: var(--soft); font-size: .875rem; }
code { font: .9em ui-monospace, "Liberation Mono", Menlo, Consolas, monospace; }
nav ul { display: flex; flex-wrap: wrap; gap: .25rem 1.25rem; padding: 0; list-style: none; }
.beside { display: grid; grid-template-columns: repeat(auto-fit, minmax(min(100%, 34rem), 1fr)); gap: 0 2rem;
  align-items: start; }
.beside > * { min-width: 0; }
.wide { overflow-x: auto; margin: 1rem 0; background:
  linear-gradient(to right, var(--paper) 30%, var(--clear)) left / 3rem 100% no-repeat local,
  linear-gradient(to left, var(--paper) 30%, var(--clear)) right / 3rem 100% no-repeat local,
  linear-gradient(to right, var(--shade), transparent) left / .75rem calc(100% - 2px) no-repeat scroll,
  linear-gradient(to left, var(--shade), transparent) right / .75rem calc(100% - 2px) no-repeat scroll; }
table { width: 100%; table-layout: fixed; border-collapse: collapse; font-size: .9375rem; }
col.name { width: 9rem; }
col.count { width: 6.5rem; }
col.words { width: 12rem; }
col.formula { width: 24rem; }
col.exact { width: 10rem; }
col.bars { width: 12.5rem; }
caption { position: sticky; left: 0; max-width: calc(100vw - 2 * var(--side)); padding: 0 0 .4rem;
  text-align: left; font-weight: 600; }
th, td { padding: .25rem .75rem; border-bottom: 1px solid var(--line); text-align: left; vertical-align: top;
  font-weight: 400; }
thead th { color: var(--soft); font-size: .8125rem; vertical-align: bottom; border-bottom-color: var(--soft); }
th:first-child { padding-left: 0; }
.number { text-align: right; font-variant-numeric: tabular-nums; }
.zero { color: var(--soft); }
tfoot th, tfoot td { border-top: 1px solid var(--soft); border-bottom: 0; font-weight: 600; }
.histogram tfoot * { font-weight: 400; }
.histogram thead .number { padding-right: 5.75rem; }
.histogram td { white-space: nowrap; }
.track { display: inline-block; width: 4.5rem; margin-left: .5rem; text-align: left; }
.bar { display: inline-block; height: .65rem; min-width: 2px; background: var(--mark);
  -webkit-print-color-adjust: exact; print-color-adjust: exact; }
.term { display: inline-block; max-width: 100%; }
.remarks { padding: .75rem 1rem .75rem 2rem; border-left: .25rem solid var(--note); background: var(--band);
  max-width: none; }
.pictures { display: flex; flex-wrap: wrap; gap: 0 2rem; align-items: flex-start; }
.pictures > * { max-width: 100%; }
figure { margin: 1rem 0; }
svg { display: block; max-width: 100%; height: auto; }
svg text { fill: var(--soft); font: 11px ui-monospace, "Liberation Mono", Menlo, Consolas, monospace; }
.frame { fill: none; stroke: var(--line); }
.positive { fill: var(--mark); stroke: var(--mark); }
.negative { fill: none; stroke: var(--mark); stroke-width: 1.5; }
.sharp { image-rendering: pixelated; }
summary { color: var(--mark); cursor: pointer; }
ol { padding-left: 3.5rem; font-variant-numeric: tabular-nums; }
@media (max-width: 40rem) {
  .formulas, .formulas tbody, .formulas tr, .formulas th, .formulas td, .formulas caption { display: block; }
  .formulas colgroup, .formulas thead { display: none; }
  .formulas th { padding: .35rem 0 0; border-bottom: 0; }
  .formulas td { padding: 0 0 .35rem 1.5rem; }
}
@media print {
  html { font-size: 9pt; }
  body { max-width: none; padding: 0; }
  nav { display: none; }
  .beside, .pictures { display: block; }
  .wide { overflow: visible; background: none; }
  table { table-layout: auto; }
  col[class] { width: auto; }
  caption { max-width: none; }
  tr, figure, .remarks { break-inside: avoid; }
  h2, caption { break-after: avoid; }
  a { color: inherit; text-decoration: none; }
}
"""
