"""The picture of the crates: storey by storey, each with its words and the crates that it depends on, without those
that it reaches through others."""
import textwrap
from html import escape

from crates import STOREYS, standing_below

COLUMNS, WIDTH, HEIGHT, GAP, LEFT = 6, 204, 76, 12, 96
COLOURS = {"Base": "#eceff1", "Format": "#e3f2fd", "Rules": "#e8f5e9", "Threads": "#fff3e0", "Node": "#f3e5f5",
           "Program": "#fce4ec", "Tests": "#f5f5f5"}


def straight_below(name, below):
    """The crates that it names, without the ones that these depend on."""
    reached = {far for near in below[name] for lower in below[near] for far in standing_below(below, lower)}
    return [near for near in below[name] if near not in reached]


def places_of(crates):
    """Where each crate is, from the top, and each storey from where to where."""
    places, bands, y = {}, [], GAP
    for storey in reversed(STOREYS):
        names = [crate.name for crate in crates if crate.storey == storey]
        begun = y
        for at, name in enumerate(names):
            places[name] = LEFT + at % COLUMNS * (WIDTH + GAP), y + GAP + at // COLUMNS * (HEIGHT + GAP)
        y += -(-len(names) // COLUMNS) * (HEIGHT + GAP) + GAP
        bands.append((storey, begun, y))
        y += GAP
    return places, bands, y


def text_of(x, y, words, style=""):
    return f'<text x="{x}" y="{y}"{style}>{escape(words)}</text>'


def box_of(crate, place, below):
    """A crate's box, with its words and the crates below it in lines that fit."""
    x, y = place
    lines = [f'<rect x="{x}" y="{y}" width="{WIDTH}" height="{HEIGHT}" rx="4" fill="#fff" stroke="#90a4ae"/>',
             text_of(x + 8, y + 17, crate.name, ' font-size="13" font-weight="bold"')]
    y += 18
    for words, letters, style in ((crate.words, 33, ' fill="#333"'),
                                  ("on " + ", ".join(below) if below else "", 36, ' fill="#607d8b" font-size="10"')):
        for line in textwrap.wrap(words, letters):
            y += 13
            lines.append(text_of(x + 8, y, line, style))
    return lines


def line_of(above, below):
    (x, y), (u, v) = (above[0] + WIDTH / 2, above[1] + HEIGHT), (below[0] + WIDTH / 2, below[1])
    bend = max(20, (v - y) / 2)
    return f'<path d="M{x:.0f} {y:.0f} C{x:.0f} {y + bend:.0f} {u:.0f} {v - bend:.0f} {u:.0f} {v:.0f}"/>'


def picture(crates):
    """The whole picture, as SVG: the storeys, the lines over them, and the boxes over these."""
    named = {crate.name: crate.below for crate in crates}
    places, bands, height = places_of(crates)
    width = LEFT + COLUMNS * (WIDTH + GAP)
    below = {name: straight_below(name, named) for name in named}
    lines = [f'<svg xmlns="http://www.w3.org/2000/svg" width="{width}" height="{height}" viewBox="0 0 {width} {height}"'
             ' font-family="sans-serif" font-size="11">', f'<rect width="{width}" height="{height}" fill="#fff"/>']
    for storey, begin, end in bands:
        lines += [f'<rect x="{GAP}" y="{begin}" width="{width - 2 * GAP}" height="{end - begin}" rx="6"'
                  f' fill="{COLOURS[storey]}"/>',
                  text_of(GAP + 8, begin + 24, storey, ' font-size="14" font-weight="bold"')]
    lines.append('<g fill="none" stroke="#b0bec5" stroke-opacity="0.55">')
    lines += [line_of(places[crate.name], places[name]) for crate in crates for name in below[crate.name]
              if places[name][1] > places[crate.name][1]]
    lines.append("</g>")
    for crate in crates:
        lines += box_of(crate, places[crate.name], below[crate.name])
    return "\n".join([*lines, "</svg>"]) + "\n"
