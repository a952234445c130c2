"""The page's style sheet: light and dark by the reader's choice, light on paper, one column when narrow."""

STYLE = """
body { margin: 0; font: 16px/1.45 system-ui, sans-serif; background: #fff; color: #1b1b1b; }
main { max-width: 72rem; margin: 0 auto; padding: 1rem; }
h1 { font-size: 1.4rem; overflow-wrap: anywhere; }
h2 { font-size: 1.1rem; margin-top: 1.6rem; }
.told { font-weight: 600; }
.refusal { border-left: 4px solid #b3261e; padding: .4rem .8rem; }
figure { margin: 0 0 1rem; border: 1px solid #c8c8c8; border-radius: 6px; padding: .5rem; break-inside: avoid; }
figure > svg { display: block; width: 100%; max-width: 34rem; height: auto; margin: 0 auto; }
.closeup > svg { max-width: 20rem; }
figcaption { font-size: .875rem; padding-top: .4rem; }
.one { max-width: 35rem; }
.key { white-space: nowrap; }
.icon { width: 1.1em; height: 1.1em; vertical-align: -.2em; }
table { border-collapse: collapse; width: 100%; }
th, td { text-align: left; vertical-align: top; padding: .25rem .75rem .25rem 0; }
.numbers td:nth-child(2) { overflow-wrap: anywhere; }
tr { border-bottom: 1px solid #ddd; break-inside: avoid; }
.inputs { max-width: 35rem; }
ul { list-style: none; padding: 0; }
svg text { font: 14px system-ui, sans-serif; fill: #1b1b1b; }
svg .label { paint-order: stroke; stroke: #fff; stroke-width: 3px; stroke-linejoin: round; }
svg .quiet { fill: #555; }
.line { fill: none; stroke: #1b1b1b; stroke-width: 1.5; }
.grid { fill: none; stroke: #c8c8c8; stroke-width: 1; }
.lead { fill: none; stroke: #555; stroke-width: 1; }
.used { fill: #0b57a4; stroke: none; }
.leftout { fill: #fff; stroke: #a33c00; stroke-width: 2.5; }
.removed { fill: none; stroke: #6b1f7a; stroke-width: 3; }
.unknown { fill: none; stroke: #555; stroke-width: 2; }
.ray { fill: none; stroke-width: 1; }
.ray.used { fill: none; stroke: #0b57a4; stroke-opacity: .6; }
.ray.leftout { fill: none; stroke: #a33c00; stroke-width: 1; stroke-dasharray: 5 4; }
.bar.leftout { fill: #f6c7a8; stroke-width: 1.5; }
.limit { fill: none; stroke: #b3261e; stroke-width: 2; stroke-dasharray: 6 3; }
.cut { fill: none; stroke: #1b1b1b; stroke-width: 2; }
.fix { fill: #1b1b1b; stroke: #fff; stroke-width: 1.5; paint-order: stroke; }
.sigma { fill: #0b57a4; fill-opacity: .15; stroke: #0b57a4; stroke-width: 2; }
@media (min-width: 50rem) { .figures:not(.one) { columns: 2; column-gap: 1rem; } }
@media (max-width: 40rem) {
thead { display: none; }
tr { display: flex; flex-wrap: wrap; padding: .2rem 0; }
th, td { padding: .1rem .5rem .1rem 0; }
.numbers th, .receivers td:nth-child(5), .inputs th { flex: 1 0 100%; }
.numbers td:nth-child(2) { flex: 1; }
.numbers td:nth-child(3)::before { content: "from: "; }
.receivers th::before { content: "place "; }
}
@media print {
body { font-size: 12px; }
main { padding: 0; }
.figures:not(.one) { columns: 2; column-gap: 1rem; }
}
@media screen and (prefers-color-scheme: dark) {
body { background: #16181b; color: #ececec; }
figure { border-color: #4a4d52; }
.grid { stroke: #4a4d52; }
.lead { stroke: #b5b5b5; }
tr { border-color: #3a3d42; }
svg text { fill: #ececec; }
svg .label { stroke: #16181b; }
svg .quiet { fill: #b5b5b5; }
.line, .cut { stroke: #ececec; }
.used { fill: #7cb7f5; }
.ray.used { stroke: #7cb7f5; fill: none; }
.leftout { fill: #16181b; stroke: #ffab73; }
.ray.leftout { stroke: #ffab73; fill: none; }
.bar.leftout { fill: #5c3216; }
.removed { stroke: #d8a0e6; }
.unknown { stroke: #b5b5b5; }
.limit { stroke: #ff8a80; }
.refusal { border-color: #ff8a80; }
.fix { fill: #ececec; stroke: #16181b; }
.sigma { fill: #7cb7f5; stroke: #7cb7f5; }
}
"""
