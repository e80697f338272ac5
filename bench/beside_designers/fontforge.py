# Prints what FontForge's validation says of fonts: fontforge -lang=py -script fontforge.py <NAMES
# Each row has the font, a glyph, a message and facts of the outline, with tabs between. A row whose message is `facts` is there for each glyph.
#
#   contours  how many there are
#   right     1 if the sum of their areas is that of a glyph whose outer contours run anticlockwise in the font
#   beyond    how far a curve goes past both of its ends, in x or in y, at most
#   quarters  the same at 1/4, 1/2 and 3/4 of its parameter
#   refs      components of an accented character, with commas between
#   ends      first and last point of each contour, with semicolons between
import sys

import fontforge

BITS = [
    (0x2, "Open contour"),
    (0x4, "Self intersecting"),
    (0x8, "Wrong direction"),
    (0x10, "Flipped references"),
    (0x20, "Missing points at extrema"),
    (0x80, "Too many points"),
    (0x100, "Too many hints"),
    (0x200, "Bad glyph name"),
    (0x40000, "Points too far apart"),
    (0x80000, "Nonintegral coordinates"),
    (0x200000, "Duplicate glyph"),
    (0x400000, "Duplicate Unicode"),
    (0x800000, "Overlapped hints"),
]


def segments_of(contour):
    """Returns the segments of a closed contour, of two or four points each, from its first point on the curve."""
    points = list(contour)
    places = [place for place, point in enumerate(points) if point.on_curve]
    if not places:
        return []
    points = points[places[0]:] + points[:places[0]] + [points[places[0]]]
    segments, held = [], [(points[0].x, points[0].y)]
    for point in points[1:]:
        held.append((point.x, point.y))
        if point.on_curve:
            segments.append(held)
            held = held[-1:]
    return segments


def cross(a, b):
    return a[0] * b[1] - a[1] * b[0]


def area_of(segments):
    total = 0
    for segment in segments:
        if len(segment) == 4:
            p0, p1, p2, p3 = segment
            total += 6 * cross(p0, p1) + 3 * cross(p0, p2) + cross(p0, p3) + 3 * cross(p1, p2) + 3 * cross(p1, p3) + 6 * cross(p2, p3)
        else:
            total += 10 * cross(segment[0], segment[-1])
    return total / 20


def extremes_of(p0, p1, p2, p3):
    """Returns the parameters between 0 and 1 at which a coordinate of a curve turns."""
    a, b, c = p3 - 3 * p2 + 3 * p1 - p0, 2 * (p2 - 2 * p1 + p0), p1 - p0
    if abs(a) < 1e-9:
        roots = [-c / b] if b else []
    else:
        square = b * b - 4 * a * c
        roots = [(-b + sign * square ** 0.5) / (2 * a) for sign in (1, -1)] if square >= 0 else []
    return [t for t in roots if 0 < t < 1]


def beyond(segment, places_of):
    """Returns how far a curve goes past both of its ends at some places."""
    most = 0
    if len(segment) == 4:
        for p0, p1, p2, p3 in zip(*segment):
            for t in places_of(p0, p1, p2, p3):
                at = (1 - t) ** 3 * p0 + 3 * t * (1 - t) ** 2 * p1 + 3 * t * t * (1 - t) * p2 + t ** 3 * p3
                most = max(most, at - max(p0, p3), min(p0, p3) - at)
    return most


def facts_of(glyph):
    contours = [segments_of(contour) for contour in glyph.foreground]
    curves = [segment for contour in contours for segment in contour]
    # FontForge reverses each contour of a Type 1 font, so outer ones run clockwise, and the second point was the last one.
    return " ".join([
        "contours=%d" % len(contours),
        "right=%d" % (sum(map(area_of, contours)) <= 0),
        "beyond=%.6f" % max([beyond(curve, extremes_of) for curve in curves], default=0),
        "quarters=%.6f" % max([beyond(curve, lambda *_: (0.25, 0.5, 0.75)) for curve in curves], default=0),
        "refs=%s" % ",".join(reference[0] for reference in glyph.references),
        "ends=%s" % ";".join("%g,%g;%g,%g" % (*contour[0][0], *contour[0][-1]) for contour in contours if contour),
    ])


for name in sys.stdin.read().splitlines():
    try:
        font = fontforge.open(name)
    except OSError:
        print(name, "", "not opened", "", sep="\t")
        continue
    for glyph in font.glyphs():
        state = glyph.validate(True)
        facts = facts_of(glyph)
        print(name, glyph.glyphname, "facts", facts, sep="\t")
        for bit, text in BITS:
            if state & bit:
                print(name, glyph.glyphname, "FontForge: " + text, facts, sep="\t")
    font.close()
