"""The head of the page of the word report. The shapes are told apart by patterns, and not by colours alone."""

HEAD = """<!doctype html>
<html lang="en"><head><meta charset="utf-8">
<meta http-equiv="Content-Security-Policy" content="default-src 'none'; style-src 'unsafe-inline'">
<meta name="viewport" content="width=device-width, initial-scale=1">
<title>%s: what its symbols say</title>
<style>
:root { color-scheme: light dark; --right: #4a90c4; --wrong: #b3261e; --missing: #b8b8b8; --extra: #7b4ea3; --ink: #fff; --line: #8886;
  --paper: #fff; --text: #1a1a1a }
@media (prefers-color-scheme: dark) {
  :root { --right: #3b78a8; --wrong: #f2695c; --missing: #5c5c5c; --extra: #b18ad6; --ink: #111; --paper: #161616; --text: #e8e8e8 }
}
body { background: var(--paper); color: var(--text); font: 15px/1.5 system-ui, sans-serif; margin: 0 }
main { max-width: 66rem; margin: auto; padding: 1rem }
h1 { font-size: 1.3rem; margin: 0; overflow-wrap: anywhere } h2 { font-size: 1.1rem; margin: 1.5rem 0 0; overflow-wrap: anywhere }
  h3 { font-size: 1rem; margin: 1.8rem 0 .3rem }
p { margin: .3rem 0 } code, pre { font-size: .9em; overflow-wrap: anywhere } pre { margin: 0; white-space: pre-wrap; opacity: .8 }
.verdict { font-size: 1.7rem; font-weight: 700; line-height: 1.3 } .bad { color: var(--wrong) }
.answer { font-size: 1.1rem } td details summary, th details summary { white-space: nowrap } .command, .note, small { opacity: .8 }
.counts { display: flex; flex-wrap: wrap; gap: .3rem 2rem; margin: .6rem 0 0 } .counts dt { font-weight: 600 } .counts dd { margin: 0 }
.counts b { font-size: 1.2rem } .key { width: 16px; height: 16px; vertical-align: -2px }
.strip, .bar { shape-rendering: crispEdges } .strip { display: block; width: 100%%; height: 48px; margin: .6rem 0 }
  .bar { display: block; width: 100%%; min-width: 6rem; height: 12px }
.right { fill: var(--right) } .wrong { fill: url(#wrong) } .missing { fill: url(#missing) } .extra { fill: url(#extra) }
.scroll { overflow-x: auto } table { border-collapse: collapse; width: 100%% }
td, th { padding: .2rem .5rem; text-align: right; border-bottom: 1px solid var(--line); font-weight: 400; vertical-align: top }
thead th { opacity: .75 } th[scope=row], .answers, .places th, thead th:first-child { text-align: left } .answers { min-width: 12rem }
  .wide { width: 30%% }
.places table { table-layout: fixed; min-width: 34rem } .places td details summary, .places th details summary { white-space: normal;
  overflow-wrap: anywhere }
@media (max-width: 40rem) { .wide { display: none } th[scope=row] { max-width: 45vw; overflow: hidden } td, th { padding: .2rem .3rem } }
summary { cursor: pointer } :focus-visible { outline: 2px solid var(--right) } .none { position: absolute; width: 0; height: 0 }
</style></head><body>
<svg class="none" aria-hidden="true"><defs>
<pattern id="wrong" width="6" height="6" patternUnits="userSpaceOnUse" patternTransform="rotate(45)"><rect width="6" height="6" fill="var(--wrong)"/>
<rect width="2" height="6" fill="var(--ink)" fill-opacity=".55"/></pattern>
<pattern id="missing" width="6" height="6" patternUnits="userSpaceOnUse"><rect width="6" height="6" fill="var(--missing)"/>
<circle cx="3" cy="3" r="1.2" fill="var(--text)"/></pattern>
<pattern id="extra" width="6" height="6" patternUnits="userSpaceOnUse"><rect width="6" height="6" fill="var(--extra)"/>
<path d="M0 3H6M3 0V6" stroke="var(--ink)" stroke-opacity=".6"/></pattern></defs></svg>
<main><h1>What is said of %s</h1>
"""
