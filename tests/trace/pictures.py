"""What a reader sees in the pictures: labels that say what they stand at, with room between them, and a legend that shows
the lines."""
import re
import xml.etree.ElementTree as xml

from common import TRACES, case, lines

LETTER = 8.4  # the width of a digit in the widest of the usual fonts
UNITS = {"": 1, "k": 10**3, "M": 10**6, "G": 10**9, "T": 10**12, "P": 10**15, "E": 10**18}
BYTES = {"B": 1} | {f"{it}iB": 2 ** (10 * at) for at, it in enumerate("KMGTPE", 1)}


def panels(program, *words):
    """The panels of a picture, of which each measure has one."""
    status, _, said = program.call(*words, "--svg", "p.svg", "--quiet")
    assert status == 0, said
    return xml.parse(program.folder / "p.svg").getroot().findall("{*}g")


def labels(panel, anchor):
    """The labels of an axis, each with its place: the ratios' are anchored at their end, the sizes' in the middle."""
    place = {"end": "y", "middle": "x"}[anchor]
    found = [it for it in panel.findall("{*}text") if it.get("text-anchor") == anchor and it.get("transform") is None]
    return [(it.text, float(it.get(place))) for it in found if "size" not in it.text]


@case
def ratios_are_what_they_stand_at(program):
    """Each label of the axis of ratios is the ratio there, to its last digit, and stands clear of the axis's name."""
    for misses, requests in ((7, 7), (7, 9), (7, 13), (7, 20), (7, 50), (7, 200), (7, 900), (7, 20_000), (7, 90_000)):
        name = program.put("r.keys", lines(at % misses for at in range(requests)))
        panel = panels(program, name, "--policy", "fifo", "--size", "10")[0]
        found = [(float(text), place, text) for text, place in labels(panel, "end")]
        (bottom, low, _), (top, high, longest) = found[0], found[-1]
        assert bottom == 0 and top >= misses / requests and len({text for *_, text in found}) == len(found) > 4, found
        for ratio, place, _ in found:
            assert abs(ratio - top * (low - place) / (low - high)) < top / 1000, found
        name = next(it for it in panel.findall("{*}text") if it.text == "miss ratio")
        right = float(re.match(r"translate\((\d+)", name.get("transform"))[1]) + 4
        edge = float(next(it for it in panel.findall("{*}text") if it.text == longest).get("x"))
        assert edge - LETTER * len(longest) >= right - 2, (longest, edge, right)


@case
def all_hits_have_the_whole_axis(program):
    name = program.put("h.keys", lines(at % 7 for at in range(100)))
    panel = panels(program, name, "--policy", "fifo", "--size", "10", "--warmup", "50")[0]
    assert [text for text, _ in labels(panel, "end")] == ["0.0", "0.2", "0.4", "0.6", "0.8", "1.0"]


@case
def sizes_have_room(program):
    """Labels of the axis of sizes do not touch, and are the sizes that they stand at."""
    ranges = ["1,2", "200k,250M", "300k,70M", "1,1k,1M", "1k,9G", "1,3G", "1,1T,9000000T", "0,18446744073709551615"]
    for name, *words in (["build.csv", "--weigh", "size"], ["sqlite.keys"]):
        for sizes in ranges:
            found = labels(panels(program, TRACES / name, "--policy", "fifo", "--size", sizes, *words)[0], "middle")
            assert len(found) >= 2, (sizes, found)
            for (one, left), (other, right) in zip(found, found[1:]):
                assert right - left >= LETTER * (len(one) + len(other)) / 2, (sizes, found)
            numbers = [re.fullmatch(r"(\d+) ?(\w*)", text) for text, _ in found]
            units = BYTES if words else UNITS
            numbers = [int(it[1]) * units[it[2]] for it in numbers]
            assert numbers == sorted(set(numbers)), found


@case
def legend_shows_the_lines(program):
    """The look beside a policy's name is that of its line, in each panel."""
    for panel in panels(program, TRACES / "build.csv", "--policy", "all,belady,lru:high=0.5,sieve", "--size", "5,50"):
        drawn = panel.findall("{*}polyline")
        beside = [it for it in panel.findall("{*}line") if it.get("stroke-dasharray")]
        looks = [[(it.get("stroke"), it.get("stroke-dasharray")) for it in them] for them in (drawn, beside)]
        assert looks[0] == looks[1] and len(drawn) == 7, looks
        markers = [it.get("d") for it in panel.findall("{*}path") if it.get("transform")]
        assert len(markers) == 21 and all(len(set(markers[at : at + 3])) == 1 for at in range(0, 21, 3)), markers


@case
def each_panel_has_its_measure(program):
    """Miss ratios stand in the first panel, and byte miss ratios in the second."""
    words = [TRACES / "build.csv", "--policy", "all", "--weigh", "size"]
    rows = program.rows(*words)
    both = panels(program, *words)
    assert len(both) == 2
    for panel, measure in zip(both, ("miss_ratio", "byte_miss_ratio")):
        ratios = labels(panel, "end")
        (bottom, low), (top, high) = ((float(text), place - 4.5) for text, place in (ratios[0], ratios[-1]))
        points = [it.split(",")[1] for line in panel.findall("{*}polyline") for it in line.get("points").split()]
        assert len(points) == len(rows) == 30
        for point, row in zip(points, rows):
            wanted = low + (high - low) * (float(row[measure]) - bottom) / (top - bottom)
            assert abs(float(point) - wanted) < 0.2, (measure, row)
