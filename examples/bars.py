#!/usr/bin/env python3
"""Draws the table beside quinn-proto and ngtcp2 of docs/PERFORMANCE.md as bars: docs/performance.svg.

    python3 examples/bars.py            draws it
    python3 examples/bars.py --check    says whether the picture is that of the table
    python3 examples/bars.py --help     prints this

A bar is what this takes for each instruction of the better of quinn-proto and ngtcp2, and the line
is where both are alike.
"""
import re
import sys
from pathlib import Path
from xml.sax.saxutils import escape

TOP = Path(__file__).resolve().parent.parent
PAGE, PICTURE = TOP / "docs" / "PERFORMANCE.md", TOP / "docs" / "performance.svg"
LABELS, WIDE, ROW, HEAD = 400, 860, 20, 58
STYLE = (
    "text{font:12px sans-serif;fill:#222}.t{font-size:15px;font-weight:bold}.e{text-anchor:end}"
    ".v{paint-order:stroke;stroke:#fff;stroke-width:3px}.m{text-anchor:middle;fill:#555}"
)
ROW_OF = r"(?m)^\| (.+?) \| [\d.,]+ \| [\d.,-]+ \| [\d.,]+ \| ([\d.]+) \|$"


def rows():
    """The rows of the first table behind the heading: what is done, and the ratio."""
    page = PAGE.read_text(encoding="utf-8")
    part = page.partition("\n## Beside quinn-proto and ngtcp2\n")[2].partition("\n## ")[0]
    return [(work, float(ratio)) for work, ratio in re.findall(ROW_OF, part)]


def drawn(table):
    """The picture, as lines."""
    most = max(ratio for _, ratio in table) * 1.05
    scale = (WIDE - LABELS - 50) / most
    bottom = HEAD + ROW * len(table)
    one = LABELS + scale
    size = f'viewBox="0 0 {WIDE} {bottom + 12}" width="{WIDE}" height="{bottom + 12}"'
    yield f'<svg xmlns="http://www.w3.org/2000/svg" {size}>'
    yield f'<style>{STYLE}</style><rect width="100%" height="100%" fill="#fff"/>'
    title = "Processor instructions for each one of the better of quinn-proto and ngtcp2"
    yield f'<text class="t" x="12" y="22">{title}</text>'
    yield f'<text class="m" x="{one:.0f}" y="{HEAD - 8}">the better</text>'
    yield f'<path d="M{one:.0f} {HEAD - 2}V{bottom}" stroke="#222" stroke-dasharray="4 3"/>'
    for at, (work, ratio) in enumerate(table):
        y = HEAD + ROW * at
        color = "#2c6ea8" if ratio <= 1 else "#c0392b"
        yield f'<text class="e" x="{LABELS - 8}" y="{y + 14}">{escape(work)}</text>'
        size = f'width="{ratio * scale:.0f}" height="{ROW - 6}"'
        yield f'<rect x="{LABELS}" y="{y + 3}" {size} fill="{color}"/>'
        yield f'<text class="v" x="{LABELS + ratio * scale + 5:.0f}" y="{y + 14}">{ratio:.2f}</text>'
    yield "</svg>"


def main():
    if sys.argv[1:] not in ([], ["--check"]):
        print(__doc__.strip())
        return 0 if sys.argv[1] in ("-h", "--help") else 1
    picture = "\n".join(drawn(rows())) + "\n"
    if sys.argv[1:] != ["--check"]:
        PICTURE.write_text(picture, encoding="utf-8")
    elif not PICTURE.is_file() or PICTURE.read_text(encoding="utf-8") != picture:
        print("docs/performance.svg isn't what examples/bars.py draws: run it")
        return 1
    return 0


if __name__ == "__main__":
    sys.exit(main())
