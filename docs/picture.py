#!/usr/bin/env python3
"""Writes the picture of docs/UNIT.md as SVG: docs/picture.py > docs/unit.svg"""

INK, PALE, LIVE, GONE, FREE = "#222", "#888", "#d8ecd8", "#f2d6d6", "#eeeeee"
DONE = "#dde6f5"


def text(x, y, words, size=13, anchor="start", fill=INK, weight="normal"):
    return f'<text x="{x}" y="{y}" font-size="{size}" text-anchor="{anchor}" fill="{fill}" font-weight="{weight}">{words}</text>'


def box(x, y, width, height, fill):
    return f'<rect x="{x}" y="{y}" width="{width}" height="{height}" fill="{fill}" stroke="{INK}"/>'


def table(left, top, heads, columns, fills, width, title):
    """Columns of cells under their heads, with the names of the rows at the left."""
    out = [text(left, top - 30, title, 14, weight="bold")]
    for row, head in enumerate(heads):
        out.append(text(left, top + 17 + 24 * row, head, 12, fill=PALE))
    for at, (cells, fill) in enumerate(zip(columns, fills)):
        x = left + 80 + width * at
        out.append(text(x + width / 2, top - 8, at, 12, "middle", PALE))
        for row, cell in enumerate(cells):
            out.append(box(x, top + 24 * row, width, 24, fill))
            out.append(text(x + width / 2, top + 17 + 24 * row, cell, 13, "middle"))
    return out


def arrow(points, label, x, y, broken=False):
    """A link, with its label where no other line is."""
    path = " ".join(f"{a},{b}" for a, b in points)
    dash = ' stroke-dasharray="5 4"' if broken else ""
    return [
        f'<polyline points="{path}" fill="none" stroke="{INK}" stroke-width="1.4"{dash} marker-end="url(#head)"/>',
        text(x, y, label, 12),
    ]


def picture():
    tenants = [
        ("addiu $1,$0,1", "0", "1", "retired", "Done 1"),
        ("addiu $3,$0,3", "1", "1", "live", "Busy"),
        ("beq $0,$0,E", "2", "1", "live", "Done E"),
        ("addu $2,$1,$1", "3", "1", "squashed", "Open"),
        ("addu $4,$3,$3", "3", "2", "live", "Open"),
    ]
    out = table(20, 70, ["instruction", "station", "tag", "standing", "fate"], tenants, [DONE, LIVE, LIVE, GONE, LIVE], 128,
                "All tenants ever let, the oldest first; a tenant's position is its number")
    out += arrow([(164, 192), (164, 222), (548, 222), (548, 196)], "a dead link: its value goes to position 3, never to 4", 304, 240, True)
    out += arrow([(292, 192), (292, 254), (676, 254), (676, 196)], "a link in use: position 4 waits for position 1", 304, 272)
    ring = [("2", "FREE 1", "free"), ("1", "BUSY", "oldest live"), ("1", "DONE E", "live"), ("2", "OPEN", "youngest live")]
    out += table(20, 340, ["tag", "state", "which is"], ring, [FREE, LIVE, LIVE, LIVE], 104,
                 "The ring: each station belongs to its last tenant")
    out.append(text(560, 310, "The create vector, by the path", 14, weight="bold"))
    makers = [("$1", "position 0, which has retired"), ("$2", "nobody: position 3 is squashed"), ("$3", "position 1"), ("$4", "position 4")]
    for row, (register, maker) in enumerate(makers):
        out.append(text(560, 352 + 22 * row, register, 13, weight="bold"))
        out.append(text(592, 352 + 22 * row, maker))
    out.append(text(20, 450, "Blue has retired, green is live, red is squashed, grey is free.", 12, fill=PALE))
    out.append(text(20, 468, "The branch at position 2 was predicted not taken, and is taken.", 12, fill=PALE))
    head = '<defs><marker id="head" markerWidth="8" markerHeight="8" refX="6" refY="3" orient="auto"><path d="M0,0 L6,3 L0,6 z" fill="#222"/></marker></defs>'
    return "\n".join([
        '<svg xmlns="http://www.w3.org/2000/svg" viewBox="0 0 840 484" width="840" height="484" font-family="sans-serif" role="img">',
        "<title>A ring of four stations behind a branch that was predicted wrong</title>",
        head, '<rect width="840" height="484" fill="white"/>', *out, "</svg>",
    ])


if __name__ == "__main__":
    print(picture())
