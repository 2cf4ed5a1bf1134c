#!/usr/bin/env python3
"""Writes the LAS files of the examples, and what running their pipelines must come to.

    examples/make.py                       writes them beside this file
    examples/make.py FOLDER                writes them into another folder
    examples/make.py --tiles FOLDER [N]    writes there the 40 tiles of a survey, each of N by N points (6)

All is worked out from the points below, by the ASPRS LAS Specification 1.4 R15 and the documents in docs/. Nothing of lasline's
code takes part in it, and no output of the program is copied.
"""

import json
import os
import struct
import sys
from fractions import Fraction


EXAMPLES = (b"lasline examples", b"examples/make.py", 1, 2024)
DEFAULTS = (b"lasline", b"lasline 1", 0, 0)


def header(minor, point_format, size, points, scale, offset, start, vlrs=0, evlrs=0, evlr_start=0, origin=EXAMPLES):
    """The public header block of LAS 1.4, or of LAS 1.1 or 1.2 where minor is 1 or 2. All points are first returns. The origin is the
    system, the software, the day and the year."""
    length = 375 if minor == 4 else 227
    count = len(points)
    legacy = count if point_format < 6 else 0
    block = b"LASF"
    block += struct.pack("<HH16sBB", 0, 16 if point_format >= 6 else 0, bytes(16), 1, minor)
    block += struct.pack("<32s32sHH", *origin)
    block += struct.pack("<HIIBHI", length, start, vlrs, point_format, size, legacy)
    block += struct.pack("<5I", legacy, 0, 0, 0, 0)
    block += struct.pack("<3d", *[float(step) for step in scale])
    block += struct.pack("<3d", *[float(shift) for shift in offset])
    for axis in zip(*points):
        block += struct.pack("<2d", float(max(axis)), float(min(axis)))
    if minor == 4:
        block += struct.pack("<QQIQ", 0, evlr_start, evlrs, count)
        block += struct.pack("<15Q", count, *[0] * 14)
    assert len(block) == length
    return block


def vlr(record_id, payload, user=b"lasline"):
    return struct.pack("<H16sHH32s", 0, user, record_id, len(payload), b"an example") + payload


def evlr(record_id, payload):
    return struct.pack("<H16sHQ32s", 0, b"lasline", record_id, len(payload), b"an example") + payload


def nearest(value):
    """The nearest whole number, a half away from zero."""
    steps = int(abs(value) + Fraction(1, 2))
    return -steps if value < 0 else steps


def places(value, digits=3):
    """A number with so many places, rounded half away from zero."""
    steps = nearest(value * 10**digits)
    sign = "-" if steps < 0 else ""
    return f"{sign}{abs(steps) // 10**digits}.{abs(steps) % 10**digits:0{digits}d}"


def text(points):
    lines = ['"X","Y","Z"'] + [",".join(places(value) for value in point) for point in points]
    return "".join(line + "\n" for line in lines)


def columns(points):
    """The points of the hill in two places, with their intensities and the words of their times."""
    lines = ['"X","Y","Z","Intensity","GpsTime"']
    for k, point in enumerate(points):
        cells = [places(value, 2) for value in point] + [str(100 + k), f"0x{struct.pack('>d', 250000.0 + k / 100).hex()}"]
        lines.append(",".join(cells))
    return "".join(line + "\n" for line in lines)


def report(*stages, several=(), views=2):
    """A report of stages, each with its type, the points that it passed on, and for a writer the points that it wrote. The stages
    with these numbers passed on so many views, each other one a single one."""
    lines = [
        f"stage {number} {kind} views {views if number in several else 1} points {count}" + (f" wrote {wrote[0]}" if wrote else "")
        for number, (kind, count, *wrote) in enumerate(stages)
    ]
    return "".join(line + "\n" for line in lines + [f"outputs {sum(len(stage) == 3 for stage in stages)}"])


def grid(raw, scale, offset):
    return [tuple(Fraction(n) * step + shift for n, step, shift in zip(point, scale, offset)) for point in raw]


def record6(raw, intensity, kind, angle, time, flags=0):
    """A record of format 6: the only return of its pulse, from source 1."""
    return struct.pack("<iiiHBBBBhHd", *raw, intensity, 0x11, flags, kind, 0, angle, 1, time)


def record3(raw, k):
    """The record of a point of the coast in format 3."""
    return struct.pack("<iiiHBBbBHdHHH", *raw, 7, 9, 9, -3, 0, 1, k / 2, 1000 * k, 2, 3)


def hill_record(raw, k):
    return record6(raw, 100 + k, 2, -500 + 7 * k, 250000.0 + k / 100)


HILL = [(150 * i, 150 * j, 12000 - 37 * ((i - 7) ** 2 + (j - 4) ** 2)) for j in range(10) for i in range(15)]


def of_hill(numbers):
    """The points of the hill with these numbers, in format 6."""
    scale, offset = [Fraction(1, 100)] * 3, [Fraction(500000), Fraction(4800000), Fraction(0)]
    points = grid([HILL[k] for k in numbers], scale, offset)
    data = header(4, 6, 30, points, scale, offset, 375)
    return data + b"".join(hill_record(HILL[k], k) for k in numbers), points


def hill():
    """150 points, 15 by 10 of them: more than two chunks of 64."""
    return of_hill(range(len(HILL)))


COAST_GRID = ([Fraction(1, 10000)] * 3, [Fraction(-3, 2), Fraction(0), Fraction(1, 4)])
NOTE, LATER_NOTE = vlr(7, b"a note"), evlr(8, b"another note")


def coast():
    """5 points in format 3 on a grid of 0.0001, with bytes of their own after each record, a VLR, a gap and an EVLR."""
    scale, offset = COAST_GRID
    raw = [(15005, -4, 0), (14995, -5, -2500), (-2147483648, 2147483647, -2505), (10005, 5, 7), (0, 123456789, -2495)]
    start = 375 + len(NOTE) + 3
    points = grid(raw, scale, offset)
    data = header(4, 3, 36, points, scale, offset, start, 1, 1, start + 36 * len(raw)) + NOTE + b"gap"
    return data + b"".join(record3(point, k) + b"ab" for k, point in enumerate(raw)) + LATER_NOTE, points


def steps(points, scale, offset):
    """The raw numbers of points on a grid."""
    return [tuple(nearest((value - shift) / step) for value, step, shift in zip(point, scale, offset)) for point in points]


def copied(points):
    """These first points of the coast, in a file of the same kind: without the gap, and the bytes after each record."""
    scale, offset = COAST_GRID
    raw, start = steps(points, scale, offset), 375 + len(NOTE)
    data = header(4, 3, 34, points, scale, offset, start, 1, 1, start + 34 * len(points)) + NOTE
    return data + b"".join(record3(point, k) for k, point in enumerate(raw)) + LATER_NOTE


def joined6(hill_points, coast_points):
    """All points in format 6, in steps of 0.001, 0.01 and 0.001. The coast has its angle in steps of 0.006 degree, and no colours."""
    scale, offset = [Fraction(1, 1000), Fraction(1, 100), Fraction(1, 1000)], [Fraction(0)] * 3
    hill_raw, coast_raw = steps(hill_points, scale, offset), steps(coast_points, scale, offset)
    points = grid(hill_raw + coast_raw, scale, offset)
    data = header(4, 6, 30, points, scale, offset, 375, origin=DEFAULTS)
    data += b"".join(hill_record(point, k) for k, point in enumerate(hill_raw))
    return data + b"".join(record6(point, 7, 9, -500, k / 2) for k, point in enumerate(coast_raw))


def lies_in(point, corners):
    """Whether a point lies in a polygon or on its border: by the even-odd rule over the edges with just one end above its Y."""
    x, y = point[:2]
    odd = False
    for (ax, ay), (bx, by) in zip(corners, corners[1:] + corners[:1]):
        side = (bx - ax) * (y - ay) - (by - ay) * (x - ax)
        if side == 0 and min(ax, bx) <= x <= max(ax, bx) and min(ay, by) <= y <= max(ay, by):
            return True
        if (ay > y) != (by > y) and ax + (y - ay) * (bx - ax) / (by - ay) > x:
            odd = not odd
    return odd


def cell(point, length):
    """The number of the cell of a point along each axis, rounded down."""
    return tuple(value // length for value in point)


def parted(points, key):
    """The points of each value of a key, in the order in which the values first appear."""
    views = {}
    for point in points:
        views.setdefault(key(point), []).append(point)
    return list(views.values())


def rising(points):
    """The first point, and then each that is at least as high as the last kept one."""
    kept = []
    for point in points:
        if not kept or point[2] >= kept[-1][2]:
            kept.append(point)
    return kept


def small(minor, times=1):
    """2 points in format 0, so many times, in a file of this minor version."""
    scale, offset = [Fraction(1, 100)] * 3, [Fraction(0)] * 3
    raw = [(100, 200, 300), (101, 201, 301)] * times
    data = header(minor, 0, 20, grid(raw, scale, offset), scale, offset, 375 if minor == 4 else 227)
    return data + b"".join(struct.pack("<iiiHBBbBH", x, y, z, 0, 9, 2, 0, 0, 0) for x, y, z in raw)


SYSTEM = vlr(2112, b'LOCAL_CS["an example"]\0', b"LASF_Projection")
SOUTH = [(2000, 1000, 100500), (250000, 500000, 101000), (999999, 999999, 99875)]
NORTH = [(0, 0, 99900), (500000, 250000, 100250), (1000000, 1000000, 98765)]


def tile(raw, north):
    """Points in format 6 in steps of 0.001, with a coordinate system. North and east are counted from a corner."""
    scale, offset = [Fraction(1, 1000)] * 3, [Fraction(500000), Fraction(north), Fraction(0)]
    points = grid(raw, scale, offset)
    data = header(4, 6, 30, points, scale, offset, 375 + len(SYSTEM), 1) + SYSTEM
    return data + b"".join(record6(point, 10, 2, 0, 0) for point in raw), points


# Each with its class: two strips, and 12 where they overlap.
STRIPS = [((100 * k, 50, 900), kind) for k, kind in enumerate([2, 2, 12, 12, 2])]
STRIPS_GRID = ([Fraction(1, 100)] * 3, [Fraction(500000), Fraction(4800000), Fraction(0)])


def strips():
    """Points of format 1, each 3 degrees off the nadir."""
    data = header(4, 1, 28, grid([raw for raw, _ in STRIPS], *STRIPS_GRID), *STRIPS_GRID, 375)
    return data + b"".join(struct.pack("<iiiHBBbBHd", *raw, 10, 9, kind, 3, 0, 1, 0) for raw, kind in STRIPS)


def overlap():
    """The same in format 6: class 12 is the overlap flag, and class 1."""
    data = header(4, 6, 30, grid([raw for raw, _ in STRIPS], *STRIPS_GRID), *STRIPS_GRID, 375)
    return data + b"".join(record6(raw, 10, *((1, 500, 0, 8) if kind == 12 else (kind, 500, 0))) for raw, kind in STRIPS)


# Each with its height above the ground, which rises to the east: one tree.
TREES = [(200 * i, 200 * j, max(0, 1800 - 250 * ((i - 4) ** 2 + (j - 2) ** 2))) for j in range(5) for i in range(8)]
HEIGHT = struct.pack("<2xBB32s76xd40x32s", 3, 8, b"HeightAboveGround", 0.01, b"an example")


def trees():
    """Points in format 6, each with its height behind it, 16 bits in steps of 0.01, and a VLR that describes these extra bytes."""
    scale, offset = [Fraction(1, 100)] * 3, [Fraction(500000), Fraction(4800000), Fraction(0)]
    raw = [(x, y, 9500 + x // 10 + height) for x, y, height in TREES]
    points, note = grid(raw, scale, offset), vlr(4, HEIGHT, b"LASF_Spec")
    data = header(4, 6, 32, points, scale, offset, 375 + len(note), 1) + note
    data += b"".join(record6(point, 10, 5, 0, 0) + struct.pack("<H", height) for point, (_, _, height) in zip(raw, TREES))
    return data, [(*point, Fraction(height, 100)) for point, (_, _, height) in zip(points, TREES)]


def heights(points):
    """These points of the trees with their heights in two places."""
    lines = ['"X","Y","Z","HeightAboveGround"']
    lines += [",".join([*map(places, point[:3]), places(point[3], 2)]) for point in points]
    return "".join(line + "\n" for line in lines)


def ground_of(name):
    """The pipeline that each.sh makes for a file."""
    stages = [
        {"type": "readers.las", "filename": name},
        {"type": "filters.range", "limits": "Classification[2:2]"},
        {"type": "writers.las", "filename": f"ground/{name}", "forward": "all"},
    ]
    return json.dumps(stages, indent=2) + "\n"


# 40 tiles of a survey, 8 in each of 5 rows, in format 6. Their points lie 90 units apart, shared among so many.
SURVEY_GRID = ([Fraction(1, 100)] * 3, [Fraction(500000), Fraction(4800000), Fraction(0)])
COLUMNS, ROWS, VOXEL = 8, 5, 40


def survey_tile(column, row, across=6):
    """The raw points of a tile, with their classes: ground, vegetation and buildings."""
    step = 9000 // across
    return [
        (
            (10000 * column + step * i + 200, 10000 * row + step * j + 100, 10000 + (37 * (i + 2 * column) * (j + row)) % 6000),
            (2, 2, 5, 2, 6)[(i + 2 * j + column) % 5],
        )
        for j in range(across)
        for i in range(across)
    ]


def survey_file(points):
    """A LAS file of raw points with their classes."""
    raw = [point for point, _ in points]
    data = header(4, 6, 30, grid(raw, *SURVEY_GRID), *SURVEY_GRID, 375 + len(SYSTEM), 1) + SYSTEM
    return data + b"".join(record6(point, 10, kind, 0, 0) for point, kind in points)


def survey_tiles(across=6):
    """The tiles by the names of their south-west corners."""
    return {
        f"{500000 + 100 * column}_{4800000 + 100 * row}": survey_tile(column, row, across)
        for column in range(COLUMNS)
        for row in range(ROWS)
    }


def thinned(points):
    """The ground of a tile, and of that the first point of each voxel."""
    ground = [point for point in points if point[1] == 2]
    return [voxel[0] for voxel in parted(ground, lambda point: cell(grid([point[0]], *SURVEY_GRID)[0], VOXEL))]


def survey():
    """What comes of the survey: a file for each row, and a table of bounds and classes."""
    kept, table = {}, []
    for name, points in sorted(survey_tiles().items()):
        axes = list(zip(*grid([point for point, _ in points], *SURVEY_GRID)))
        table.append(f"{name} bounds " + " ".join(places(least(axis)) for least in (min, max) for axis in axes))
        kinds = [kind for _, kind in points]
        table.append(f"{name} classes " + " ".join(f"{kind}:{kinds.count(kind)}" for kind in sorted(set(kinds))))
        kept.setdefault(f"rows/{name.split('_')[1]}.las", []).extend(thinned(points))
    files = {path: survey_file(points) for path, points in kept.items()}
    return files | {"tiles.txt": "".join(line + "\n" for line in table)}


def double(value):
    """A number as od prints it, with as few digits as it takes from 15 on."""
    return next(text for text in (f"{float(value):.{digits}g}" for digits in (15, 16, 17)) if float(text) == float(value))


def bounds(points, show):
    return " ".join(f"{show(min(axis))} {show(max(axis))}" for axis in zip(*points))


def header_lines(point_format, size, points, scale, offset, records, minor=4):
    """What header.sh prints of a file of LAS 1.4, or of this minor version."""
    lines = [
        f"version: 1.{minor}",
        f"format: {point_format}, records of {size} bytes",
        f"points: {len(points)}",
        "scales: " + " ".join(map(double, scale)),
        "offsets: " + " ".join(map(double, offset)),
        "bounds in the header: " + bounds(points, double),
        "bounds of the points: " + bounds(points, places),
    ]
    return "".join(line + "\n" for line in lines + records)


def back(points):
    """The points of the coast in a file of LAS 1.2, which has no EVLRs."""
    scale, offset = COAST_GRID
    raw, start = steps(points, scale, offset), 227 + len(NOTE)
    data = header(2, 3, 34, points, scale, offset, start, 1) + NOTE
    return data + b"".join(record3(point, k) for k, point in enumerate(raw))


def write(folder, files):
    for name, content in files.items():
        path = os.path.join(folder, name)
        os.makedirs(os.path.dirname(path), exist_ok=True)
        with open(path, "wb") as file:
            file.write(content)


def main():
    if sys.argv[1:2] == ["--tiles"]:
        across = int(sys.argv[3]) if len(sys.argv) > 3 else 6
        write(sys.argv[2], {f"{name}.las": survey_file(points) for name, points in survey_tiles(across).items()})
        return
    folder = sys.argv[1] if len(sys.argv) > 1 else os.path.dirname(os.path.abspath(__file__))
    hill_data, hill_points = hill()
    coast_data, coast_points = coast()
    every, some = len(hill_points), 5
    high = [point for point in hill_points if point[2] > Fraction(225, 2)]
    raised = [(x, y, z + Fraction(35, 100) if x < 500003 else z) for x, y, z in hill_points]
    # Points of one height stay in their order: `sorted` keeps it too.
    highest = sorted(hill_points, key=lambda point: -point[2])[:3]
    corners = [tuple(map(Fraction, corner)) for corner in [(500003, 4800003), (500015, 4800003), (500009, 4800012)]]
    thin = [voxel[0] for voxel in parted(hill_points, lambda point: cell(point, 4))]
    peaks = [max(square, key=lambda point: point[2]) for square in parted(hill_points, lambda point: cell(point[:2], 6))]
    risen = rising(hill_points)
    squares = parted(range(every), lambda k: cell(hill_points[k][:2], 6))
    # All points of the hill are ground.
    ground = [point for point in hill_points if lies_in(point, corners)]
    gap = [tuple(map(Fraction, corner)) for corner in [(500007, 4800004), (500011, 4800004), (500009, 4800009)]]
    ring = [point for point in ground if not lies_in(point, gap)]
    south_data, south_points = tile(SOUTH, 4800000)
    north_data, north_points = tile(NORTH, 4801000)
    trees_data, tree_points = trees()
    tall = [point for point in tree_points if point[3] > 8]
    tiles_data, _ = tile(SOUTH + [(x, y + 1000000, z) for x, y, z in NORTH], 4800000)
    reader, head, writer, las_writer = "readers.las", "filters.head", "writers.text", "writers.las"

    # By pipeline: the exit code, what is printed, what is said on standard error, and the files that are kept.
    runs = {
        "text": (0, report((reader, every), (writer, every, every)), "", {"hill.txt": text(hill_points)}),
        "first": (0, report((reader, every), (head, some), (writer, some, some)), "", {"first.txt": text(hill_points[:some])}),
        "high": (
            0,
            report((reader, every), ("filters.expression", len(high)), (writer, len(high), len(high))),
            "",
            {"high.txt": text(high)},
        ),
        "raised": (0, report((reader, every), ("filters.assign", every), (writer, every, every)), "", {"raised.txt": text(raised)}),
        "highest": (
            0,
            report((reader, every), ("filters.sort", every), (head, 3), (writer, 3, 3)),
            "",
            {"highest.txt": text(highest)},
        ),
        "ground": (
            0,
            report(
                (reader, every),
                ("filters.crop", len(ground)),
                ("filters.range", len(ground)),
                (writer, len(ground), len(ground)),
            ),
            "",
            {"ground.txt": text(ground)},
        ),
        # All points of the hill are of one class, and all of the coast of another.
        "classes": (
            0,
            report(
                (reader, every),
                (reader, 5),
                ("filters.merge", every + 5),
                ("filters.sort", every + 5),
                (writer, every + 5, every),
                (writer, every + 5, 5),
            ),
            "",
            {
                "land.txt": text(sorted(hill_points, key=lambda point: point[2])),
                "water.txt": text(sorted(coast_points, key=lambda point: point[2])),
            },
        ),
        "kinds": (
            0,
            report(
                (reader, every),
                (reader, 5),
                ("filters.merge", every + 5),
                ("filters.groupby", every + 5),
                (head, 2),
                (writer, 2, 2),
                several=[3, 4, 5],
            ),
            "",
            {"kinds.txt": text([hill_points[0], coast_points[0]])},
        ),
        "which": (
            0,
            report(
                (reader, every),
                (reader, 5),
                ("filters.merge", every + 5),
                ("filters.groupby", every + 5),
                (writer, every + 5, every + 5),
                (head, 2),
                (writer, 2, 2),
                several=[3, 4, 5, 6],
            ).replace("outputs 2", "outputs 3"),
            "",
            {"class_1.txt": text(hill_points), "class_2.txt": text(coast_points), "classes.txt": "2\n9\n"},
        ),
        "overlap": (
            0,
            report((reader, 5), ("filters.ferry", 5), ("filters.assign", 5), (las_writer, 5, 5)),
            "",
            {"overlap.las": overlap()},
        ),
        "thin": (
            0,
            report((reader, every), ("filters.voxeldownsize", len(thin)), (writer, len(thin), len(thin))),
            "",
            {"thin.txt": text(thin)},
        ),
        "peaks": (
            0,
            report(
                (reader, every),
                ("filters.splitter", every),
                ("filters.sort", every),
                (head, len(peaks)),
                (writer, len(peaks), len(peaks)),
                several=[1, 2, 3, 4],
                views=len(peaks),
            ),
            "",
            {"peaks.txt": text(peaks)},
        ),
        "squares": (
            0,
            report(
                (reader, every),
                ("filters.splitter", every),
                (las_writer, every, every),
                several=[1, 2],
                views=len(squares),
            ).replace("outputs 1", f"outputs {len(squares)}"),
            "",
            {f"square_{number}.las": of_hill(numbers)[0] for number, numbers in enumerate(squares, 1)},
        ),
        "split": (
            0,
            report((reader, every), (writer, every, len(high)), (writer, every, every - len(high))),
            "",
            {"high.txt": text(high), "low.txt": text([point for point in hill_points if point not in high])},
        ),
        "both": (
            0,
            report((reader, every), (writer, every, every), (head, some), (writer, some, some)),
            "",
            {"all.txt": text(hill_points), "first.txt": text(hill_points[:some])},
        ),
        "joined": (
            0,
            report((reader, every), (reader, 5), (writer, every + 5, every + 5), several=[2]),
            "",
            {"all.txt": text(hill_points + coast_points)},
        ),
        "columns": (0, report((reader, every), (writer, every, every)), "", {"hill.csv": columns(hill_points)}),
        "copy": (0, report((reader, 5), (head, 3), (las_writer, 3, 3)), "", {"copy.las": copied(coast_points[:3])}),
        "grid": (
            0,
            report((reader, every), (reader, 5), (las_writer, every + 5, every + 5), several=[2]),
            "",
            {"grid.las": joined6(hill_points, coast_points)},
        ),
        "heights": (
            0,
            report((reader, len(TREES)), ("filters.expression", len(tall)), (writer, len(tall), len(tall))),
            "",
            {"tall.txt": heights(tall)},
        ),
        "whole": (0, report((reader, every)), "", {}),
        "named": (0, report((reader, 5), (writer, 5, 5)), "", {"coast.asc": text(coast_points)}),
        "old": (0, report((reader, 2), (las_writer, 2, 2)), "", {"new.las": small(4)}),
        "back": (0, report((reader, 5), (las_writer, 5, 5)), "", {"back.las": back(coast_points)}),
        "older": (3, "", "lasline: stage 0: version not read\n", {}),
        "hole": (
            0,
            report(
                (reader, every),
                ("filters.crop", len(ground)),
                ("filters.crop", len(ring)),
                (writer, len(ring), len(ring)),
            ),
            "",
            {"ring.txt": text(ring)},
        ),
        "tiles": (0, report((reader, 3), (reader, 3), (las_writer, 6, 6), several=[2]), "", {"tiles.las": tiles_data}),
        # This one is run by own_filter.sh.
        "rising": (
            0,
            report((reader, every), ("filters.plug", len(risen)), (writer, len(risen), len(risen))),
            "",
            {"rising.txt": text(risen)},
        ),
        # The offsets differ, so the written one is 0, and 4800000 is too many steps of 0.001.
        "apart": (3, "", "lasline: stage 2: point 0: Y not held by the scale\n", {}),
    }

    # What comes of the scripts.
    runs_of_each = {
        f"ground/{name}.{kind}": content
        for name, stages in [
            ("hill.las", report((reader, every), ("filters.range", every), (las_writer, every, every))),
            ("old.las", report((reader, 2), ("filters.range", 2), (las_writer, 2, 2))),
            ("older.las", ""),
        ]
        for kind, content in [("json", ground_of(name)), ("report", stages)]
    } | {"ground/hill.las": hill_data, "ground/old.las": small(4)}
    not_read = "lasline: stage 0: version not read\n"
    pair = grid([(100, 200, 300), (101, 201, 301)], [Fraction(1, 100)] * 3, [Fraction(0)] * 3)
    runs |= {
        "one_by_one": (1, "", not_read + "older.las: exit code 3\n", runs_of_each),
        "two_at_once": (123, "", not_read + "older.las: exit code 3\n", runs_of_each),
        # The files are merged in batches of 60, 60, 60 and 20.
        "many_into_one": (
            0,
            report(*[(reader, count) for count in (120, 120, 120, 40)], (las_writer, 400, 400)).replace(
                "writers.las views 1", "writers.las views 4"
            ),
            "",
            {"merged.las": small(4, 200)},
        ),
        "not_merged": (3, "", "lasline: stage 1: version not read\nmerged.las: exit code 3; stage 0 was south.las\n", {}),
        "header": (
            0,
            header_lines(3, 36, coast_points, *COAST_GRID, ["VLR 0: lasline 7, 6 bytes", "EVLR 0: lasline 8, 12 bytes"]),
            "",
            {},
        ),
        "headers": (
            3,
            header_lines(
                6,
                30,
                south_points,
                [Fraction(1, 1000)] * 3,
                [Fraction(500000), Fraction(4800000), Fraction(0)],
                ["VLR 0: LASF_Projection 2112, 23 bytes"],
            ),
            not_read + "older.las: exit code 3\n",
            {},
        ),
        # One file of a name with signs that a shell looks at, and names that stand for files of views.
        "odd_names": (
            2,
            header_lines(0, 20, pair, [Fraction(1, 100)] * 3, [Fraction(0)] * 3, [], 2)
            + report((reader, 2), (reader, 2), (las_writer, 4, 4), several=[2]),
            "an #1.las: not taken, since an output of this name would be files of views: take the # out of it\n"
            "examples/merge.sh: all #1.las would be files of views: take the # out of it\n",
            {"each.las": small(4), "merged.las": small(4, 2)},
        ),
        # This one is run where Snakemake is there.
        "by_rows": (0, "", "", survey()),
        "times": (0, runs["columns"][1] + "".join(f"{250000.0 + k / 100}\n" for k in range(every)), "", {}),
    }

    files = {"hill.las": hill_data, "coast.las": coast_data, "old.las": small(2), "older.las": small(1)}
    files |= {"south.las": south_data, "north.las": north_data, "trees.las": trees_data, "strips.las": strips()}
    for name, (code, printed, said, kept) in runs.items():
        for file, content in [("code", f"{code}\n"), ("printed", printed), ("said", said), *kept.items()]:
            files[f"expected/{name}/{file}"] = content if isinstance(content, bytes) else content.encode()
    write(folder, files)


main()
