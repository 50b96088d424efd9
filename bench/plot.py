"""Plots of costs against counts, as SVG. Both axes are logarithms: a cost that goes with the count is a line that rises by one for one."""

import collections
import math

# A plot: its title, the counts, and by the name of each line its values.
Panel = collections.namedtuple('Panel', 'title counts lines')

WIDE, HIGH, LEFT, RIGHT, TOP, LOW, APART = 860, 420, 70, 250, 40, 36, 15
COLOURS = ('#1b6ca8', '#c8553d', '#3a7d44', '#8f5ea2', '#b08900', '#d1495b', '#2e86ab', '#5c4742', '#588b8b', '#111111', '#7a7a7a', '#a05a2c', '#4b5fbd')


def spread(heights):
    """Places for labels, in the order of the heights, as near to these as they can be with room between."""
    places = []
    for height in heights:
        places.append(max(height, places[-1] + APART) if places else height)
    over = places[-1] - (HIGH - LOW)
    for at in range(len(places) - 1, -1, -1):
        if over <= 0:
            break
        places[at] -= over
        over = APART - (places[at] - places[at - 1]) if at else 0
    return places


def panel_lines(panel, down):
    """The elements of one panel, which begins so far down."""
    values = [max(value, 0.01) for line in panel.lines.values() for value in line]
    bottom, top = math.floor(math.log10(min(values))), math.ceil(math.log10(max(values)))
    first, last = math.log10(panel.counts[0]), math.log10(panel.counts[-1])

    def across(count):
        return LEFT + (math.log10(count) - first) / ((last - first) or 1) * (WIDE - LEFT - RIGHT)

    def height(value):
        return HIGH - LOW - (math.log10(max(value, 0.01)) - bottom) / ((top - bottom) or 1) * (HIGH - TOP - LOW)
    out = [f'<g transform="translate(0 {down})"><text x="{LEFT}" y="20" font-size="14">{panel.title}</text>']
    for power in range(bottom, top + 1):
        y = height(10 ** power)
        out.append(f'<path d="M{LEFT} {y:.1f}H{WIDE - RIGHT}" stroke="#ccc"/><text x="{LEFT - 8}" y="{y + 4:.1f}" text-anchor="end">{10 ** power:,g}</text>')
    for count in panel.counts:
        x = across(count)
        out.append(f'<path d="M{x:.1f} {TOP}V{HIGH - LOW}" stroke="#eee"/><text x="{x:.1f}" y="{HIGH - 14}" text-anchor="middle">{count:,}</text>')
    names = sorted(panel.lines, key=lambda name: -panel.lines[name][-1])
    places = spread([height(panel.lines[name][-1]) for name in names])
    for at, (name, place) in enumerate(zip(names, places)):
        colour, line = COLOURS[at % len(COLOURS)], panel.lines[name]
        points = ' '.join(f'{across(count):.1f},{height(value):.1f}' for count, value in zip(panel.counts, line))
        dots = ''.join(f'<circle cx="{across(count):.1f}" cy="{height(value):.1f}" r="2.5" fill="{colour}"/>' for count, value in zip(panel.counts, line))
        end = f'<path d="M{WIDE - RIGHT + 3} {height(line[-1]):.1f}L{WIDE - RIGHT + 18} {place:.1f}" stroke="{colour}" stroke-width="0.7"/>'
        out.append(f'<polyline points="{points}" fill="none" stroke="{colour}" stroke-width="1.6"/>{dots}{end}'
                   f'<text x="{WIDE - RIGHT + 22}" y="{place + 4:.1f}" fill="{colour}">{name}</text>')
    return [*out, '</g>']


def draw(file, panels):
    """One panel below the other."""
    high = HIGH * len(panels)
    lines = [f'<svg xmlns="http://www.w3.org/2000/svg" viewBox="0 0 {WIDE} {high}" width="{WIDE}" height="{high}" font-family="sans-serif" font-size="12">',
             f'<rect width="{WIDE}" height="{high}" fill="#fff"/>']
    for at, panel in enumerate(panels):
        lines += panel_lines(panel, at * HIGH)
    with open(file, 'w', encoding='ascii') as out:
        out.write('\n'.join([*lines, '</svg>', '']))
