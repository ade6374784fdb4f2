"""How a report looks: light, dark, and on paper."""

STYLE = """:root {
  color-scheme: light dark;
  --paper: #ffffff; --card: #ffffff; --ink: #1f2328; --muted: #57606a; --line: #d5dbe1; --wash: #f5f7f9;
  --red: #b3261e; --red-wash: #fdeceb; --amber: #8a4b00; --amber-wash: #fcf1de; --green: #176f3a; --green-wash: #e4f5ea;
  --link: #2565ae;
}
@media screen and (prefers-color-scheme: dark) {
  :root {
    --paper: #0d1117; --card: #0d1117; --ink: #e6edf3; --muted: #9da7b3; --line: #30363d; --wash: #161b22;
    --red: #ff8079; --red-wash: #32161a; --amber: #f2ab50; --amber-wash: #33230c; --green: #62d08c; --green-wash: #10331f;
    --link: #74b3ff;
  }
}
* { box-sizing: border-box; }
body { margin: 0 auto; padding: 2rem 1.25rem 3rem; max-width: 68rem; background: var(--paper); color: var(--ink);
  font: 15px/1.5 system-ui, -apple-system, "Segoe UI", Roboto, "Liberation Sans", Arial, sans-serif; }
a { color: var(--link); text-decoration: none; }
a:hover { text-decoration: underline; }
a.badge { text-decoration: none; }
h1 { margin: 0 0 .35rem; font-size: 1.65rem; line-height: 1.25; }
h2 { margin: 2.5rem 0 .75rem; padding-top: .9rem; border-top: 1px solid var(--line); font-size: 1.25rem; }
h3 { margin: 1.9rem 0 .1rem; font-size: 1.05rem; }
h3 small, h2 small { color: var(--muted); font-weight: normal; font-size: .875rem; }
h4 { margin: 0 0 .35rem; font-size: .8rem; color: var(--muted); font-weight: 600; text-transform: uppercase; letter-spacing: .04em; }
p { margin: .35rem 0; }
code, pre, .name, .edge { font-family: ui-monospace, SFMono-Regular, Menlo, Consolas, "DejaVu Sans Mono", monospace; font-size: .875em; }
.name { white-space: pre-wrap; overflow-wrap: anywhere; unicode-bidi: isolate; }
.edge { white-space: nowrap; }
.muted { color: var(--muted); }
.tiles { display: flex; flex-wrap: wrap; gap: .6rem; margin: 1.1rem 0 0; padding: 0; list-style: none; }
.tiles li { flex: 1 1 8rem; padding: .5rem .8rem .55rem; border: 1px solid var(--line); border-radius: 8px; background: var(--wash); }
.tiles b { display: block; font-size: 1.5rem; line-height: 1.2; font-variant-numeric: tabular-nums; }
.tiles .refused { background: var(--red-wash); border-color: var(--red); color: var(--red); }
.tiles .faulty { background: var(--amber-wash); border-color: var(--amber); color: var(--amber); }
.tiles .legal { background: var(--green-wash); border-color: var(--green); color: var(--green); }
.tiles a { color: inherit; text-decoration: underline; text-underline-offset: .15em; }
.scroll { overflow-x: auto; }
table { border-collapse: collapse; width: 100%; }
th, td { padding: .3rem .9rem .3rem 0; border-bottom: 1px solid var(--line); text-align: left; vertical-align: top; }
th { font-size: .8rem; color: var(--muted); font-weight: 600; }
td.number, th.number { width: 1%; text-align: right; font-variant-numeric: tabular-nums; white-space: nowrap; }
tr.never td { color: var(--muted); background: var(--wash); }
.red { color: var(--red); }
.amber { color: var(--amber); }
.badge { display: inline-block; padding: 0 .5em; border-radius: 5px; font-weight: 600; white-space: nowrap;
  color: var(--red); background: var(--red-wash); box-shadow: inset 0 0 0 1px var(--red); }
details.trace { margin: .7rem 0; border: 1px solid var(--line); border-left: 4px solid var(--red); border-radius: 8px; background: var(--card); }
details.trace > summary { padding: .5rem .9rem; cursor: pointer; display: flex; flex-wrap: wrap; gap: .2rem 1rem; align-items: baseline; }
details.trace > summary::before { content: "\\25B8"; color: var(--muted); }
details.trace[open] > summary::before { content: "\\25BE"; }
summary .name { font-weight: 600; flex: 0 1 auto; }
summary .edge { color: var(--muted); }
.inside { padding: .1rem .9rem .9rem; scroll-margin-top: 4rem; }
.picture { overflow-x: auto; margin: 0 0 .8rem; border: 1px solid var(--line); border-radius: 6px; }
.picture svg { display: block; }
.columns { display: grid; grid-template-columns: minmax(0, 3fr) minmax(0, 2fr); gap: 1rem 1.5rem; }
@media (max-width: 44rem) { .columns { grid-template-columns: minmax(0, 1fr); } }
pre { margin: 0; white-space: pre-wrap; overflow-wrap: anywhere; line-height: 1.45; }
pre .fails { color: var(--red); font-weight: 600; }
pre .reading { color: var(--muted); }
pre.long { columns: 9rem; column-gap: 1.25rem; column-rule: 1px solid var(--line); }
pre.command { margin-top: .3rem; padding: .35rem .6rem; background: var(--wash); border-radius: 5px; }
.never-list { margin: 0 0 1rem; padding: .6rem .9rem; background: var(--amber-wash); border-left: 4px solid var(--amber); border-radius: 6px; }
ul.files { columns: 20rem; column-gap: 2rem; margin: 0; padding: 0; list-style: none; }
ul.files li { display: flex; justify-content: space-between; gap: 1rem; break-inside: avoid; padding: .08rem 0; border-bottom: 1px dotted var(--line); }
ul.files .muted { white-space: nowrap; font-variant-numeric: tabular-nums; }
footer { margin-top: 2.5rem; padding-top: .9rem; border-top: 1px solid var(--line); color: var(--muted); font-size: .875rem; }
@media print {
  body { max-width: none; padding: 0; font-size: 12px; }
  details.trace::details-content { content-visibility: visible; block-size: auto; }
  .picture { overflow: visible; break-inside: avoid; }
  .picture svg { max-width: 100%; height: auto; }
  h2, h3, summary, p.muted { break-after: avoid; }
  tr, .columns { break-inside: avoid; }
}
"""
