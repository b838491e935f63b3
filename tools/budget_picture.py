"""Draws the table of budgets of docs/SIZING.md: for each budget the regions of Compact-fit, TLSF and of managers without moves."""
import re

ROW = re.compile(r"\| `(budget (\d+) (bytes|objects) of \d+\.\.(\d+))` \|" + r" ([\d,]*) ?\|" * 5)
WIDTH, LEFT, TOP, BAR, GAP = 720, 236, 58, 13, 20
STYLE = """text { font: 13px sans-serif; fill: #24292f } .axis { stroke: #8c959f } .compact { fill: #2f7d4f }
.tlsf { fill: #b35900 } .still { fill: #6e7781 } .small { font-size: 11px }
@media (prefers-color-scheme: dark) { text { fill: #d0d7de } .compact { fill: #4fb477 } .tlsf { fill: #e0893a } .still { fill: #9aa4ae } }"""
BARS = (
    ("compact", 1, "Compact-fit, requests rounded: enough"),
    ("tlsf", 3, "TLSF: refused in a region of this size"),
    ("still", 4, "managers without moves: at least (Robson)"),
)


def rows_of(text):
    """Each budget: its words, the bytes that it asks at most, and the regions of its row, None where there is none."""
    for name, amount, kind, greatest, *regions in ROW.findall(text):
        asked = int(amount) * (int(greatest) if kind == "objects" else 1)
        yield name, asked, [int(region.replace(",", "")) if region else None for region in regions]


def picture(text):
    """The lines of an SVG: the regions over the bytes asked."""
    rows, y, body = [*rows_of(text)], TOP, []
    scale = (WIDTH - LEFT - 60) / max(region / asked for _, asked, regions in rows for region in regions if region)
    for name, asked, regions in rows:
        body.append(f'<text x="{LEFT - 8}" y="{y + BAR}" text-anchor="end">{name.removeprefix("budget ")}</text>')
        for kind, at, _ in BARS:
            if regions[at]:
                wide = scale * regions[at] / asked
                body.append(f'<rect class="{kind}" x="{LEFT}" y="{y}" width="{wide:.1f}" height="{BAR}"/>')
                body.append(f'<text class="small" x="{LEFT + wide + 5:.1f}" y="{y + BAR - 2}">{regions[at] / asked:.2f}</text>')
                y += BAR + 2
        y += GAP
    body.append(f'<path class="axis" d="M{LEFT} {TOP - 6}V{y - GAP + 4}"/>')
    for at, (kind, _, words) in enumerate(BARS):
        body.append(f'<rect class="{kind}" x="8" y="{6 + 16 * at}" width="11" height="11"/><text class="small" x="25" y="{16 + 16 * at}">{words}</text>')
    yield f'<svg xmlns="http://www.w3.org/2000/svg" viewBox="0 0 {WIDTH} {y}" role="img" aria-label="Regions over the budget">'
    yield "<title>The region over the bytes of the budget, for five budgets</title>"
    yield f"<style>{STYLE}</style>"
    yield from body
    yield "</svg>"
