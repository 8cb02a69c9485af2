"""Tables and plots of what bench.c printed. bench/run calls it:

    python3 bench/report.py DIR [DOCS]

DIR holds with.tsv and without.tsv, bench.c's lines of the run with the peers' hardware paths and of the one without, and machine.tsv. It
prints the tables, in Markdown, and writes them and two plots to DIR; and where DOCS is given, the plots to DOCS too, and the tables into
DOCS/BENCHMARKS.md between its two marks.
"""
import math
import sys
from pathlib import Path

OWN = "this library"
SIZES = [16, 64, 1 << 10, 1 << 16, 1 << 24]
FILES = [1 << 10, 1 << 20, 1 << 30, 1 << 40]
JOINED = 1000 << 20  # in parts of 1 MiB
JOURNAL = 1000 << 12  # in records of 4 KiB
HARDWARE = ["OpenSSL", "nettle", "libgcrypt", "mbedTLS"]  # peers that choose their path by themselves
BEGIN, END = "<!-- recorded by bench/run --record: begin -->", "<!-- recorded by bench/run --record: end -->"
NONE = "—"
NOTE = """A block is 16 bytes of the message. Times are the best of all rounds; *ratio* is the reference's time in the same process by this one
(above 1: faster than the reference); *spread* is (median − best) / best."""
NO_EFFECT = "\n\nWhere a mask has no effect, the path is not masked, or the processor has nothing to mask: its times without are left out."


class Run:
    """One process: the best time and the median of each call, in ns, by what, length and who."""

    def __init__(self, path):
        self.times = {}
        for line in path.read_text().splitlines():
            what, n, who, best, median = line.split("\t")
            self.times[what, int(n), who] = (float(best), float(median))
        for n in SIZES:  # bench.c says why the difference is counter mode; the spreads add up
            (all_best, all_median), (less_best, less_median) = self.times["encrypt", n, OWN], self.times["refusal", n, OWN]
            best = all_best - less_best
            self.times["counter", n, OWN] = (best, best + all_median - all_best + less_median - less_best)

    def best(self, what, n, who):
        return self.times.get((what, n, who), (None, None))[0]

    def spread(self, what, n, who):
        best, median = self.times[what, n, who]
        return (median - best) / best

    def who(self, what):
        """Who is timed, this library first, the others as bench.c lists them."""
        names = dict.fromkeys(who for w, _, who in self.times if w == what)
        return sorted(names, key=lambda who: who != OWN)


# ---- how numbers and lengths are written


def digits(x):
    """Three digits, and all before the point."""
    return f"{x:.{max(0, 2 - max(0, math.floor(math.log10(x))))}f}" if x > 0 else f"{x:.2f}"


def grouped(x):
    """Three digits, then zeros, in groups."""
    return f"{float(f'{x:.3g}'):,.0f}".replace(",", " ") if x >= 100 else digits(x)


def length(n):
    for power, unit in [(40, "TiB"), (30, "GiB"), (20, "MiB"), (10, "KiB")]:
        if n >= 1 << power:
            return f"{n >> power} {unit}"
    return f"{n} B"


def duration(ns):
    for size, unit in [(3600e9, "h"), (60e9, "min"), (1e9, "s"), (1e6, "ms"), (1e3, "µs")]:
        if ns >= size:
            return f"{digits(ns / size)} {unit}"
    return f"{digits(ns)} ns"


def decade(ns):
    """A power of ten of nanoseconds."""
    return f"{ns / 1e9:,.0f} s".replace(",", " ") if ns >= 1e9 else duration(ns).replace(".00", "").replace(".0", "")


def markdown(head, rows):
    """A table that can be read as it stands, too: all columns but the first to the right."""
    width = [max(len(row[i]) for row in [head] + rows) for i in range(len(head))]
    line = lambda cells: "| " + " | ".join(c.ljust(w) if i == 0 else c.rjust(w) for i, (c, w) in enumerate(zip(cells, width))) + " |"
    rule = "|" + "|".join("-" * (w + 2) if i == 0 else "-" * (w + 1) + ":" for i, w in enumerate(width)) + "|"
    return "\n".join([line(head), rule] + [line(row) for row in rows])


# ---- tables


def cells(run, what, n, who, reference, blocks):
    """Time by block, ratio and spread in one process."""
    best, by = run.best(what, n, who), run.best(what, n, reference)
    if best is None:
        return [NONE] * 3
    return [digits(best / blocks), digits(by / best) if by else NONE, f"{100 * run.spread(what, n, who):.0f} %"]


def beside(runs, unmasked, what, sizes, reference):
    """The two runs side by side: for each length everyone's time by block, and reference's time by it."""
    head = ["", "with hardware: ns/block", "ratio", "spread", "without: ns/block", "ratio", "spread"]
    rows = []
    for n in sizes:
        if len(sizes) > 1:
            rows.append([f"**{length(n)}**"] + [""] * 6)
        for who in runs[0].who(what):
            without = [NONE, NONE, "not masked"] if who in unmasked else cells(runs[1], what, n, who, reference, n / 16)
            rows.append([who] + cells(runs[0], what, n, who, reference, n / 16) + without)
    return markdown(head, rows)


def masks(runs):
    """Of each peer, block times of 64 KiB with hardware and without; and those whose mask shows no effect on GMAC or counter mode."""
    rows, unmasked = [], set()
    for who in HARDWARE:
        row = [who]
        for what in ["gmac", "counter"]:
            a, b = (run.best(what, 1 << 16, who) for run in runs)
            if a is None:
                continue
            works = b > 1.2 * a
            unmasked |= set() if works else {who}
            row.append(f"{digits(a / 4096)} → {digits(b / 4096)}, {'works' if works else 'NO EFFECT'}")
        if len(row) == 3:
            rows.append(row)
    return markdown(["", "GMAC", "counter mode"], rows), unmasked


def glance(run):
    """This library's ratio to BearSSL's constant-time code, in the run without hardware paths."""
    asked = [("GHASH, to ctmul64", "ghash", "BearSSL ctmul64"), ("GMAC, to aes_ct64 + ctmul64", "gmac", "BearSSL aes_ct64 + ctmul64"),
             ("counter mode, to aes_ct64", "counter", "BearSSL aes_ct64"),
             ("GCM encryption, to aes_ct64 + ctmul64", "encrypt", "BearSSL aes_ct64 + ctmul64"),
             ("GCM decryption, to aes_ct64 + ctmul64", "decrypt", "BearSSL aes_ct64 + ctmul64")]
    rows = [[name] + [digits(run.best(what, n, who) / run.best(what, n, OWN)) for n in SIZES]
            for name, what, who in asked if run.best(what, 16, who)]
    return markdown([""] + [length(n) for n in SIZES], rows)


def again(run, n):
    """The time of hashing a file of n bytes, and whether it was measured: else it is worked out from that of the longest."""
    best = run.best("ghash", n, OWN)
    return (best, True) if best else (run.best("ghash", SIZES[-1], OWN) * n / SIZES[-1], False)


def edits(run):
    head = ["file", "change of 1 byte", "spread", "change of 4 KiB", "spread", "hashing it again", "by 1 byte's"]
    rows = []
    for n in FILES:
        row = [length(n)]
        for what in ["change 1", "change 4096"]:
            best = run.best(what, n, OWN)
            row += [duration(best), f"{100 * run.spread(what, n, OWN):.0f} %"] if best else [NONE, NONE]
        hashed, measured = again(run, n)
        rows.append(row + [duration(hashed) + ("" if measured else ", worked out"), grouped(hashed / run.best("change 1", n, OWN))])
    return markdown(head, rows)


def joins(run):
    best = run.best("join", JOINED, OWN)
    hashed, measured = again(run, JOINED)
    row = [f"{grouped(JOINED >> 20)} of 1 MiB", duration(best), f"{100 * run.spread('join', JOINED, OWN):.0f} %",
           duration(hashed) + ("" if measured else ", worked out"), grouped(hashed / best)]
    return markdown(["parts", "join", "spread", "hashing them again", "by the join's"], [row])


def forecasts(run):
    row = [f"{grouped(JOURNAL >> 12)} of 4 KiB"]
    for what in ["forecast", "replay"]:
        row += [duration(run.best(what, JOURNAL, OWN)), f"{100 * run.spread(what, JOURNAL, OWN):.0f} %"]
    row.append(grouped(run.best("replay", JOURNAL, OWN) / run.best("forecast", JOURNAL, OWN)))
    return markdown(["appends", "forecast", "spread", "replay", "spread", "by the forecast's"], [row])


def calls(run):
    asked = [("start", 1 << 10, "start"), ("seal", 1 << 10, "seal"), ("check", 1 << 10, "check"), ("read of 1 KiB", 1 << 10, "read"),
             ("read of 1 MiB", 1 << 20, "read")]
    rows = [[name, duration(run.best(what, n, OWN)), f"{100 * run.spread(what, n, OWN):.0f} %"] for name, n, what in asked]
    return markdown(["", "time", "spread"], rows)


def tables(runs, machine):
    mask, unmasked = masks(runs)
    side = lambda what, sizes, reference: beside(runs, unmasked, what, sizes, reference)
    parts = [
        ("This run", "\n".join(f"- {name}: {value}" for name, value in machine)),
        ("Do the masks work? ns/block of 64 KiB, with hardware → without", mask + NO_EFFECT * bool(unmasked)),
        ("At a glance: this library's speed by BearSSL's constant-time code's (above 1: faster)", glance(runs[1])),
        ("GHASH; ratio to BearSSL ctmul64", side("ghash", SIZES, "BearSSL ctmul64")),
        ("GMAC; ratio to BearSSL aes_ct64 + ctmul64. This library's has key expansion and H in each call, the others' not",
         side("gmac", SIZES, "BearSSL aes_ct64 + ctmul64")),
        ("One product; ratio to BearSSL ctmul64", side("product", [16], "BearSSL ctmul64")),
        ("AES-128 of one block, with the key's expansion; ratio to BearSSL aes_ct64", side("block", [16], "BearSSL aes_ct64")),
        ("AES-128 in counter mode; ratio to BearSSL aes_ct64. This library's is worked out", side("counter", SIZES, "BearSSL aes_ct64")),
        ("GCM encryption; ratio to BearSSL aes_ct64 + ctmul64. Keys as for GMAC", side("encrypt", SIZES, "BearSSL aes_ct64 + ctmul64")),
        ("GCM decryption; ratio to BearSSL aes_ct64 + ctmul64. Keys as for GMAC", side("decrypt", SIZES, "BearSSL aes_ct64 + ctmul64")),
        ("One edit, at the front of the file, and hashing the file again", edits(runs[0])),
        ("A join of parts, and hashing them again", joins(runs[0])),
        ("A forecast of a journal, and its replay", forecasts(runs[0])),
        ("The file keeper's other calls", calls(runs[0])),
    ]
    return NOTE + "\n\n" + "\n".join(f"### {title}\n\n{text}\n" for title, text in parts)


# ---- plots


class Plot:
    """An SVG with two logarithmic axes; each line is named at its right end."""

    W, H, LEFT, RIGHT, TOP, BOTTOM, GAP = 900, 570, 84, 220, 66, 60, 17

    def __init__(self, title, below, x_name, y_name, x_ticks, y_ticks):
        self.x_range, self.y_range = [[f(ticks[k][0]) for f, k in ((math.log, 0), (math.log, -1))] for ticks in (x_ticks, y_ticks)]
        self.parts, self.names = [], []
        self.text(self.LEFT, 28, title, "start", 16, "bold")
        self.text(self.LEFT, 48, below, "start")
        right, bottom = self.W - self.RIGHT, self.H - self.BOTTOM
        for value, name in x_ticks:
            x = self.x(value)
            self.parts.append(f'<line x1="{x:.1f}" y1="{self.TOP}" x2="{x:.1f}" y2="{bottom}" stroke="#e4e4e4"/>')
            self.text(x, bottom + 20, name, "middle")
        for value, name in y_ticks:
            y = self.y(value)
            self.parts.append(f'<line x1="{self.LEFT}" y1="{y:.1f}" x2="{right}" y2="{y:.1f}" stroke="#e4e4e4"/>')
            self.text(self.LEFT - 8, y + 4, name, "end")
        self.parts.append(f'<path d="M{self.LEFT} {self.TOP}V{bottom}H{right}" fill="none" stroke="#333"/>')
        self.text((self.LEFT + right) / 2, self.H - 14, x_name, "middle")
        middle = (self.TOP + bottom) / 2
        self.parts.append(f'<text x="18" y="{middle}" text-anchor="middle" transform="rotate(-90 18 {middle})">{y_name}</text>')

    def x(self, value):
        a, b = self.x_range
        return self.LEFT + (math.log(value) - a) / (b - a) * (self.W - self.RIGHT - self.LEFT)

    def y(self, value):
        a, b = self.y_range
        return self.H - self.BOTTOM - (math.log(value) - a) / (b - a) * (self.H - self.BOTTOM - self.TOP)

    def text(self, x, y, words, anchor, size=13, weight="normal", colour="#222"):
        self.parts.append(f'<text x="{x:.1f}" y="{y:.1f}" text-anchor="{anchor}" font-size="{size}" font-weight="{weight}" fill="{colour}">'
                          f"{words}</text>")

    def line(self, points, colour, name=None, width=2.0, dash="", hollow=False, weight="normal"):
        at = [(self.x(a), self.y(b)) for a, b in points]
        style = f'stroke="{colour}" stroke-width="{width}"' + (f' stroke-dasharray="{dash}"' if dash else "")
        self.parts.append(f'<polyline points="{" ".join(f"{a:.1f},{b:.1f}" for a, b in at)}" fill="none" stroke-linejoin="round" {style}/>')
        fill = "#ffffff" if hollow else colour
        for a, b in at:
            self.parts.append(f'<circle cx="{a:.1f}" cy="{b:.1f}" r="{1 + width:.1f}" fill="{fill}" stroke="{colour}"/>')
        if name:
            self.names.append((at[-1][0], at[-1][1], name, colour, weight))

    def name_lines(self):
        """Names stand in the order of the lines' ends, GAP apart at least, as near to them as that allows."""
        names = sorted(self.names, key=lambda name: name[1])
        at = []
        for name in names:
            at.append(max(name[1], at[-1] + self.GAP) if at else max(name[1], self.TOP))
        limit = self.H - self.BOTTOM
        for i in reversed(range(len(at))):
            at[i] = min(at[i], limit)
            limit = at[i] - self.GAP
        for (x, y, words, colour, weight), to in zip(names, at):
            self.parts.append(f'<path d="M{x + 6:.1f} {y:.1f}L{x + 22:.1f} {to:.1f}" stroke="{colour}" stroke-width="1" fill="none"/>')
            self.text(x + 26, to + 4, words, "start", weight=weight, colour=colour)

    def svg(self):
        self.name_lines()
        return (f'<svg xmlns="http://www.w3.org/2000/svg" viewBox="0 0 {self.W} {self.H}" width="{self.W}" height="{self.H}" '
                f'font-family="Helvetica, Arial, sans-serif" font-size="13" fill="#222">\n'
                f'<rect width="{self.W}" height="{self.H}" fill="#ffffff"/>\n' + "\n".join(self.parts) + "\n</svg>\n")


def ticks(values, name, low, high):
    """The values from the last that is not above low to the first that is not below high."""
    first = max([i for i, v in enumerate(values) if v <= low], default=0)
    last = min([i for i, v in enumerate(values) if v >= high], default=len(values) - 1)
    return [(v, name(v)) for v in values[first:last + 1]]


COLOURS = {OWN: "#c4161c", "BearSSL ctmul64": "#1f5fa8", "BearSSL ctmul": "#5b9bd5", "BearSSL pclmul": "#1f5fa8", "OpenSSL": "#2e7d32",
           "nettle": "#8e44ad", "libgcrypt": "#b8720a", "mbedTLS": "#5d5d5d"}


def speed_plot(runs, unmasked):
    """MB/s of GHASH, or of GMAC where a peer shows no GHASH; the hardware paths dashed."""
    lines = []
    for who, colour in COLOURS.items():
        for run, hardware in [(runs[1], False), (runs[0], True)]:
            what = "ghash" if who in run.who("ghash") else "gmac"
            points = sorted((n, n * 1e3 / best) for (w, n, name), (best, _) in run.times.items() if (w, name) == (what, who))
            if points and (hardware or who not in unmasked) and (not hardware or who in HARDWARE or who == "BearSSL pclmul"):
                lines.append((points, colour, who, what, hardware))
    speeds = [y for points, *_ in lines for _, y in points]
    below = "GMAC: of peers that show no GHASH. Dashed: with the processor's instructions for AES and for products of polynomials"
    plot = Plot("Speed of GHASH", below, "message (logarithmic)", "MB/s (logarithmic)",
                [(1 << k, length(1 << k)) for k in range(4, 25, 4)],
                ticks([m * 10 ** k for k in range(6) for m in (1, 2, 5)], lambda v: f"{v:,}".replace(",", " "), min(speeds), max(speeds)))
    for points, colour, who, what, hardware in sorted(lines, key=lambda line: (line[2] == OWN, not line[4])):
        name = who + (" GMAC" if what == "gmac" else "") + (", hardware" if hardware else "")
        weight, width = ("bold", 3) if who == OWN else ("normal", 1 if hardware else 1.8)
        plot.line(points, colour, name, width, "5 4" if hardware else "", weight=weight)
    return plot.svg()


def edit_plot(run):
    """An edit at the front of the file, and hashing the file again."""
    changes = {what: sorted((n, best) for (w, n, _), (best, _) in run.times.items() if w == what) for what in ["change 1", "change 4096"]}
    measured = sorted((n, best) for (w, n, who), (best, _) in run.times.items() if (w, who) == ("ghash", OWN) and n >= FILES[0])
    worked_out = [measured[-1]] + [(n, again(run, n)[0]) for n in [1 << 30, 1 << 35, 1 << 40]]
    times = [y for line in [*changes.values(), worked_out] for _, y in line] + [measured[0][1]]
    plot = Plot("Cost of an edit at the front of a file", "Dashed: worked out from the time of 16 MiB", "file (logarithmic)", "time (logarithmic)",
                [(1 << k, length(1 << k)) for k in range(10, 41, 5)],
                ticks([10.0 ** k for k in range(2, 16)], decade, min(times), max(times)))
    plot.line(worked_out, "#5d5d5d", "hashing the file again", dash="5 4", hollow=True)
    plot.line(measured, "#5d5d5d")
    plot.line(changes["change 4096"], "#1f5fa8", "changing 4 KiB")
    plot.line(changes["change 1"], "#c4161c", "changing 1 byte", 3, weight="bold")
    return plot.svg()


def main():
    work = Path(sys.argv[1])
    runs = [Run(work / "with.tsv"), Run(work / "without.tsv")]
    machine = [line.split("\t") for line in (work / "machine.tsv").read_text().splitlines()]
    text = tables(runs, machine)
    print(text)
    files = {"edit-cost.svg": edit_plot(runs[0]), "ghash-speed.svg": speed_plot(runs, masks(runs)[1])}
    (work / "tables.md").write_text(text)
    for folder in [work] + [Path(docs) for docs in sys.argv[2:]]:
        for name, svg in files.items():
            (folder / name).write_text(svg)
    for docs in sys.argv[2:]:
        page = Path(docs) / "BENCHMARKS.md"
        before, rest = page.read_text().split(BEGIN)
        page.write_text(before + BEGIN + "\n\n" + text + "\n" + END + rest.split(END)[1])
        print(f"recorded in {page}, {docs}/edit-cost.svg and {docs}/ghash-speed.svg")


main()
