"""What the carriers of an input, any bytes, did, learnt from the program's answers."""
import re
import subprocess
from dataclasses import dataclass, field

LONGEST_INPUT = 65536
LINES = {b"start": 5, b"enter": 6, b"leave": 2, b"surface": 2, b"show": 1}  # of a block; those of a cycle are two and its wishes


class Unfit(Exception):
    """An input of which no picture can be drawn."""


@dataclass
class Track:
    """A carrier from its entry to its end; a point is a time in cycles and the position of its front."""

    number: int
    points: list
    speed: int
    length: int
    rate: int  # its own braking rate
    replaced: list = field(default_factory=list)  # the times of cycles in which the wish was replaced
    end: str = "on the lane"  # or "left", "gone"


@dataclass
class Story:
    lane_end: int = 0
    time: int = 0  # cycles run
    tracks: list = field(default_factory=list)
    refusals: list = field(default_factory=list)  # entries refused: time, position, number of the refusal
    surfaces: list = field(default_factory=list)  # changes of surface: time, code
    refused_surfaces: list = field(default_factory=list)  # time, code, number of the refusal
    cut: bool = False  # malformed text follows, of which nothing was run


def of(text, program):
    """The story of an input, with the lane shown after each block."""
    blocks, rest = split(text)
    watched = b"".join(block + b"call=show\n" for block in blocks) + rest
    if len(watched) > LONGEST_INPUT:
        raise Unfit(f"with the lane shown after each block the input has more than {LONGEST_INPUT} bytes")
    run = subprocess.run([program], input=watched, capture_output=True, check=False)
    teller = Teller()
    try:
        answers = re.split(r"^(?=ok=|no=)", run.stdout.decode(), flags=re.M)[1:]
        # Malformed text has an answer but no lane beside it, and is left out.
        for block, answer, shown in zip(blocks, answers[::2], answers[1::2]):
            teller.take(fields(block.decode()), fields(answer), carriers(shown))
    except (ValueError, LookupError):
        raise Unfit(f"{program} does not answer as the supervisor does") from None
    teller.story.cut = len(answers) % 2 == 1
    if not teller.story.tracks:
        raise Unfit("no carrier enters")
    return teller.story


def split(text):
    """The blocks of a text by their numbers of lines, and what is left from the first line on that begins none or has too few after it."""
    lines, blocks, at = re.findall(rb"[^\n]*\n", text), [], 0
    while (length := block_length(lines[at : at + 2])) and at + length <= len(lines):
        blocks.append(b"".join(lines[at : at + length]))
        at += length
    return blocks, text[sum(map(len, blocks)) :]


def block_length(lines):
    """The lines of the block that begins with these two; 0 if none does."""
    head = re.match(rb"call=(?:cycle\ncars=(\d{1,2})|(\w+))\n", b"".join(lines))
    if not head:
        return 0
    return 2 + int(head[1]) if head[1] else LINES.get(head[2], 0)


def fields(block):
    """The lines of a block by key; of lines with the same key the last counts."""
    return dict(line.split("=", 1) for line in block.splitlines() if "=" in line)


def carriers(shown):
    """Number, position, speed, length and own rate of each carrier, front to back."""
    figures = [int(line.split("=")[1]) for line in shown.splitlines()[2:]]
    return list(zip(*(figures[index::5] for index in range(5))))


class Teller:
    """Follows the lane from call to call."""

    def __init__(self):
        self.story = Story()
        self.present = []  # tracks, front to back
        self.lane_end = 0

    def take(self, block, answer, lane):
        call = block.get("call")
        if "no" in answer:
            self.refused(call, block, int(answer["no"]))
        elif call == "start":
            self.started(int(block["end"]))
        elif call == "enter":
            self.entered(int(answer["place"]), lane)
        elif call == "leave":
            self.left(int(block["car"]))
        elif call == "surface":
            self.story.surfaces.append((self.story.time, int(block["surface"])))
        elif call == "cycle":
            self.driven(int(answer["over"], 16), lane)

    def refused(self, call, block, number):
        if call == "enter":
            position = min(int(block["at"]), self.lane_end)
            self.story.refusals.append((self.story.time, position, number))
        elif call == "surface":
            self.story.refused_surfaces.append((self.story.time, int(block["surface"]), number))

    def started(self, lane_end):
        self.present = []
        self.lane_end = lane_end
        self.story.lane_end = max(self.story.lane_end, lane_end)

    def entered(self, place, lane):
        number, position, speed, length, rate = lane[place]
        track = Track(number, [(self.story.time, position)], speed, length, rate)
        self.present.insert(place, track)
        self.story.tracks.append(track)

    def left(self, number):
        for track in self.present:
            if track.number == number:
                track.end = "left"
        self.present = [track for track in self.present if track.number != number]

    def driven(self, word, lane):
        before = self.story.time
        self.story.time += 1
        after = {number: (position, speed) for number, position, speed, *_ in lane}
        for place, track in enumerate(self.present):
            if word >> place & 1:
                track.replaced.append(before)
            if track.number in after:
                position, track.speed = after[track.number]
                track.points.append((self.story.time, position))
            else:
                track.end = "gone"
                track.points.append((before + self.share_to_end(track), self.lane_end + track.length))
        self.present = [track for track in self.present if track.end != "gone"]

    def share_to_end(self, track):
        """About which share of a cycle brings a carrier's tail to the lane end: that at its speed before the cycle."""
        _, position = track.points[-1]
        return min(1, (self.lane_end + track.length - position) / max(1, 2 * track.speed))
