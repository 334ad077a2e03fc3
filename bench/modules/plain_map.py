"""The picture of a disk, read off what docs/USING.md says of it and off the places of its parts: a text of SVG.

A picture hangs on nothing but the format and the lines of the report, so it is made of these lines.
"""

# Of each verdict: its colour, and the steps of its shape from the upper left corner of its field.
LOOKS = {
    "good": ("#5aae61", "h10v10h-10z"),
    "contradictory": ("#40004b", "l10 0l-10 10h10z"),
    "bad": ("#d6301d", "l3 0l2 3l2 -3h3l-3 5l3 5h-3l-2 -3l-2 3h-3l3 -5z"),
    "missing": ("#8c8c8c", "v10h10v-10zm2 2h6v6h-6z"),
}

# A field has so many units across and down.
FIELD = 12

LABELLED_CYLINDERS = range(0, 99, 5)
LABELLED_SECTORS = [*range(33), *range(65, 74), *range(193, 202)]


def label(x, y, number):
    return f'<text x="{x}" y="{y}">{number}</text>'


def in_fours(labels):
    return "".join("".join(labels[k : k + 4]) + "\n" for k in range(0, len(labels), 4))


def all_labels():
    """The numbers of cylinders and of sectors that grids show a window of: each in the middle of its field, or beside it."""
    columns = in_fours([label(FIELD * number + 5, 9, number) for number in LABELLED_CYLINDERS])
    rows = in_fours([label(18, FIELD * number + 9, number) for number in LABELLED_SECTORS])
    return (f'<defs><g id="columns" text-anchor="middle">\n{columns}</g>'
            f'<g id="rows" text-anchor="end">\n{rows}</g></defs>\n')


class Picture:
    """Where the parts of a format's picture lie: 40 units from its left, a grid for each head below the one before, then the legend."""

    def __init__(self, form, command="map"):
        self.form = form
        self.command = command
        self.heads = 1 + max(head for _, head in form.tracks)
        self.across = FIELD * (1 + max(cylinder for cylinder, _ in form.tracks))
        self.down = FIELD * max(len(form.sector_numbers(k)) for k in range(len(form.tracks)))
        self.legend = self.grid(self.heads - 1) + self.down + 14

    def grid(self, head):
        """The top of a head's grid; 48 units are between two grids, for the next one's heading."""
        return 56 + head * (self.down + 48)

    def top(self):
        word = self.form.word
        return (f'<svg xmlns="http://www.w3.org/2000/svg" viewBox="0 0 {self.across + 56} {self.legend + 88}"'
                ' font-family="monospace" font-size="9">\n'
                f'<title>flux {self.command} {word}</title>\n<rect width="100%" height="100%" fill="#ffffff"/>\n'
                f'<text x="40" y="20" font-size="13">{word}</text>\n') + all_labels() + "".join(map(self.empty_grid, range(self.heads)))

    def empty_grid(self, head):
        # the window on the cylinders' numbers leaves out where the next cylinder's number would begin
        across, numbers, down, first = self.across, self.across - 1, self.down, self.form.recording.first
        return (f'<g transform="translate(40 {self.grid(head)})"><text y="-18">head {head}</text>\n'
                f'<rect x="-1" y="-1" width="{across}" height="{down}" fill="#eeeeee"/>\n'
                f'<svg y="-14" width="{numbers}" height="12"><use href="#columns"/></svg>\n'
                f'<svg x="-24" width="20" height="{down}" viewBox="0 {FIELD * first} 20 {down}"><use href="#rows"/></svg></g>\n')

    def mark(self, verdict, left, top):
        colour, shape = LOOKS[verdict]
        return f'<path fill="{colour}" d="M{left} {top}{shape}"'

    def field(self, line):
        """The field of a sector, whose line of the report is its title."""
        track, sector, verdict = line.split()[:3]
        cylinder, head = map(int, track.split("."))
        row = int(sector) - self.form.recording.first
        return self.mark(verdict, 40 + FIELD * cylinder, self.grid(head) + FIELD * row) + f"><title>{line}</title></path>\n"

    def foot(self, lines, last):
        """The legend, with how many sectors have each verdict, and a last line below it."""
        verdicts = [line.split()[2] for line in lines]
        out = ""
        for row, verdict in enumerate(LOOKS):
            top = self.legend + 16 * row
            out += self.mark(verdict, 40, top) + f'/><text x="58" y="{top + 9}">{verdict} {verdicts.count(verdict)}</text>\n'
        return out + f'<text x="40" y="{self.legend + 76}">{last}</text>\n</svg>\n'

    def counts(self, line):
        """A line right of the legend's first row."""
        return f'<text x="240" y="{self.legend + 9}">{line}</text>\n'


def picture(form, lines, last):
    """The picture of a disk with these sectors' lines; the last line is that of the totals, or says why the disk is refused."""
    drawn = Picture(form)
    return drawn.top() + "".join(map(drawn.field, lines)) + drawn.foot(lines, last)
