"""A story as an SVG space-time diagram."""

WIDTH, HEIGHT = 960, 560
LEFT, RIGHT, TOP, BOTTOM = 64, 24, 56, 48
METRE, SECOND = 2048, 8  # a position counts 1/2048 m, a cycle is 1/8 s
HIGHEST_RATE = 255  # of a carrier; no surface guarantees more
COLOURS = ("#1b6ca8", "#2e8b57", "#8e5ea2", "#b8860b", "#4a7c86", "#7a5c3e", "#5f6caf", "#a23b72")
STYLE = """
text { font: 12px sans-serif; fill: #333 }
.number { font-weight: bold; stroke: white; stroke-width: 3px; paint-order: stroke }
.no { fill: #d62728 }
.code { fill: #0a7ea4 }
.grid { stroke: #e4e4e4 }
.end { stroke: #333; stroke-dasharray: 6 4 }
.surface { stroke: #0a7ea4; stroke-width: 1.5; stroke-dasharray: 2 3 }
.band { fill-opacity: 0.22 }
.track { fill: none; stroke-width: 2; stroke-linejoin: round }
.replaced { fill: none; stroke: #d62728; stroke-width: 5; stroke-opacity: 0.55; stroke-linecap: round }
.mark { stroke: white; stroke-width: 1.5 }
.cross { stroke: #d62728; stroke-width: 2 }
"""


def svg(story):
    return "\n".join(elements(story)) + "\n"


def elements(story):
    scale = Scale(story)
    yield f'<svg xmlns="http://www.w3.org/2000/svg" viewBox="0 0 {WIDTH} {HEIGHT}" width="{WIDTH}" height="{HEIGHT}">'
    yield f"<title>{summary(story)}</title>"
    yield f"<style>{STYLE}</style>"
    yield f'<rect width="{WIDTH}" height="{HEIGHT}" fill="white"/>'
    yield from legend()
    yield from axes(scale)
    for time, code in story.surfaces:
        yield from surface(scale.x(time), code)
    coloured = [(track, COLOURS[index % len(COLOURS)]) for index, track in enumerate(story.tracks)]
    # Tails before the lane's start and fronts past its end are cut off; marks at the edge are not.
    yield f'<clipPath id="frame"><rect x="{LEFT}" y="{TOP}" width="{WIDTH - LEFT - RIGHT}" height="{HEIGHT - TOP - BOTTOM}"/></clipPath>'
    yield '<g clip-path="url(#frame)">'
    for track, colour in coloured:
        yield from carrier(scale, track, colour)
    yield "</g>"
    for track, colour in coloured:
        yield from marks(scale, track, colour)
    # Numbers go on top, so that no line runs through them.
    for track, colour in coloured:
        yield number(scale, track, colour)
    for time, position, refusal in story.refusals:
        yield from refused(scale.x(time), scale.y(position), refusal)
    for time, code, refusal in story.refused_surfaces:
        yield from refused_surface(scale.x(time), code, refusal)
    if story.cut:
        yield f'<text x="{WIDTH - RIGHT}" y="{HEIGHT - 10}" text-anchor="end">malformed text follows: nothing of it was run</text>'
    yield "</svg>"


def summary(story):
    """What the picture shows, in a line."""
    ends = [track.end for track in story.tracks]
    replaced = sum(len(track.replaced) for track in story.tracks)
    return (
        f"Cycles run: {story.time}; carriers entered: {len(ends)}, left: {ends.count('left')}, gone at the lane end: {ends.count('gone')}; "
        f"entries refused: {len(story.refusals)}; changes of surface: {len(story.surfaces)}, refused: {len(story.refused_surfaces)}; "
        f"wishes replaced: {replaced}"
    )


class Scale:
    """From cycles and positions to places on the picture; the positions drawn are those of the lane that carriers come to."""

    def __init__(self, story):
        positions = [position for _, position, _ in story.refusals]
        for track in story.tracks:
            positions += [position for _, position in [*track.points, *tail(track)]]
        positions = [min(max(0, position), story.lane_end) for position in positions]
        reached = max(positions) - min(positions) or METRE
        self.lane_end = story.lane_end
        self.low = max(0, min(positions) - reached // 20)
        self.high = min(story.lane_end, max(positions) + reached // 20)
        self.time = max(1, story.time)

    def x(self, time):
        return LEFT + (WIDTH - LEFT - RIGHT) * time / self.time

    def y(self, position):
        return HEIGHT - BOTTOM - (HEIGHT - TOP - BOTTOM) * (position - self.low) / max(1, self.high - self.low)


def steps(low, high):
    """About eight round numbers from low to high."""
    rough = max(high - low, 1e-9) / 8
    power = 10.0
    while power > rough:
        power /= 10
    while power * 10 <= rough:
        power *= 10
    step = next(power * factor for factor in (1, 2, 5, 10) if power * factor >= rough)
    first = -int(-low // step)
    return [step * index for index in range(first, int(high / step) + 1)]


def axes(scale):
    right, bottom = WIDTH - RIGHT, HEIGHT - BOTTOM
    for seconds in steps(0, scale.time / SECOND):
        x = scale.x(seconds * SECOND)
        yield f'<line class="grid" x1="{x:.1f}" y1="{TOP}" x2="{x:.1f}" y2="{bottom}"/>'
        yield f'<text x="{x:.1f}" y="{bottom + 18}" text-anchor="middle">{seconds:g}</text>'
    for metres in steps(scale.low / METRE, scale.high / METRE):
        y = scale.y(metres * METRE)
        yield f'<line class="grid" x1="{LEFT}" y1="{y:.1f}" x2="{right}" y2="{y:.1f}"/>'
        yield f'<text x="{LEFT - 8}" y="{y + 4:.1f}" text-anchor="end">{metres:g}</text>'
    yield f'<text x="{(LEFT + right) / 2}" y="{HEIGHT - 10}" text-anchor="middle">time, s</text>'
    yield f'<text transform="translate(18 {(TOP + bottom) / 2}) rotate(-90)" text-anchor="middle">position, m</text>'
    if scale.lane_end <= scale.high:
        y = scale.y(scale.lane_end)
        yield f'<line class="end" x1="{LEFT}" y1="{y:.1f}" x2="{right}" y2="{y:.1f}"/>'
        yield f'<text x="{right}" y="{y - 11:.1f}" text-anchor="end">lane end</text>'


def carrier(scale, track, colour):
    yield f'<polygon class="band" fill="{colour}" points="{line(scale, track.points + tail(track)[::-1])}"/>'
    yield from (f'<polyline class="replaced" points="{line(scale, part)}"/>' for part in replaced_parts(track))
    yield f'<polyline class="track" stroke="{colour}" points="{line(scale, track.points)}"/>'


def tail(track):
    return [(time, position - track.length) for time, position in track.points]


def marks(scale, track, colour):
    (first_time, first), (last_time, last) = track.points[0], track.points[-1]
    yield entry_mark(scale.x(first_time), scale.y(first), colour)
    if track.end == "left":
        yield exit_mark(scale.x(last_time), scale.y(min(last, scale.high)), colour)
    elif track.end == "gone":
        yield gone_mark(scale.x(last_time), scale.y(last - track.length), colour)


def line(scale, points):
    return " ".join(f"{scale.x(time):.1f},{scale.y(position):.1f}" for time, position in points)


def replaced_parts(track):
    """The pieces of a track in which its wish was replaced cycle after cycle."""
    start = track.points[0][0]
    parts = []
    for time in track.replaced:
        if parts and parts[-1][-1][0] == time:
            parts[-1].append(track.points[time - start + 1])
        else:
            parts.append(track.points[time - start : time - start + 2])
    return parts


def number(scale, track, colour):
    """A carrier's number, and its own rate where a surface may guarantee more."""
    time, position = track.points[0]
    words = f"{track.number} brake={track.rate}" if track.rate < HIGHEST_RATE else track.number
    return f'<text class="number" style="fill: {colour}" x="{scale.x(time) + 8:.1f}" y="{scale.y(position) + 15:.1f}">{words}</text>'


def entry_mark(x, y, colour):
    return f'<circle class="mark" cx="{x:.1f}" cy="{y:.1f}" r="5" fill="{colour}"/>'


def exit_mark(x, y, colour):
    return f'<rect class="mark" x="{x - 5:.1f}" y="{y - 5:.1f}" width="10" height="10" fill="{colour}"/>'


def gone_mark(x, y, colour):
    return f'<path class="mark" d="M{x:.1f},{y - 7:.1f} l6,10 h-12 z" fill="{colour}"/>'


def cross(x, y):
    return f'<path class="cross" d="M{x - 5:.1f},{y - 5:.1f} l10,10 m0,-10 l-10,10"/>'


def refused(x, y, refusal):
    yield cross(x, y)
    yield f'<text class="number no" x="{x + 8:.1f}" y="{y + 15:.1f}">no={refusal}</text>'


def surface(x, code):
    yield f'<line class="surface" x1="{x:.1f}" y1="{TOP}" x2="{x:.1f}" y2="{HEIGHT - BOTTOM}"/>'
    yield above(x, f"surface {code}", "code")


def refused_surface(x, code, refusal):
    yield cross(x, TOP)
    yield above(x, f"surface {code}: no={refusal}", "no")


def above(x, words, kind):
    """Words over the diagram, towards its middle, so that none are cut off."""
    anchor = "start" if x < WIDTH / 2 else "end"
    return f'<text class="number {kind}" x="{x:.1f}" y="{TOP - 11}" text-anchor="{anchor}">{words}</text>'


def legend():
    meanings = (
        (entry_mark, "enters"),
        (exit_mark, "leaves"),
        (gone_mark, "gone at the lane end"),
    )
    x, y = LEFT, 26
    for mark, meaning in meanings:
        yield mark(x + 6, y - 4, "#555")
        yield f'<text x="{x + 18}" y="{y}">{meaning}</text>'
        x += 40 + 7 * len(meaning)
    yield cross(x + 6, y - 4)
    yield f'<text x="{x + 18}" y="{y}">refused</text>'
    x += 90
    yield f'<line class="replaced" x1="{x}" y1="{y - 4}" x2="{x + 24}" y2="{y - 4}"/>'
    yield f'<text x="{x + 32}" y="{y}">wish replaced by braking</text>'
    x += 200
    yield f'<rect class="band" x="{x}" y="{y - 10}" width="24" height="12" fill="#555"/>'
    yield f'<line class="track" stroke="#555" x1="{x}" y1="{y - 10}" x2="{x + 24}" y2="{y - 10}"/>'
    yield f'<text x="{x + 32}" y="{y}">from tail to front</text>'
