"""A short host in Python over a shared library, made of libhost.a and shared.c. A refused call raises its number and words.

Usage: host.py SHARED_LIBRARY
"""
import ctypes
import sys
from ctypes import byref, c_bool, c_char_p, c_double, c_size_t, c_uint8, c_uint32, c_uint64

VERSION, SURFACES, WORDS_OF_A_LANE, LONGEST_HANDOVER = 8, 8, 712, 4071  # of the interface that the structs below are of
UNITS, HOLD = 0, 3


def struct(**fields):
    return type("Struct", (ctypes.Structure,), {"_fields_": list(fields.items())})


Lane = c_uint64 * WORDS_OF_A_LANE
Road = struct(surface=c_uint64, end=c_uint64, limit=c_uint64)
Carrier = struct(number=c_uint64, position=c_uint64, speed=c_uint64, length=c_uint64, rate=c_uint64)
Newcomer = struct(speed=c_uint64, length=c_uint64, rate=c_uint64)
Entered = struct(no=c_uint32, place=c_size_t)
Opening = struct(no=c_uint32, exists=c_bool, lowest=c_uint64, highest=c_uint64)
Cycled = struct(no=c_uint32, word=c_uint64, replaced=c_uint32, gone=c_uint32)
ReadOut = struct(no=c_uint32, position=c_double, speed=c_double)
Listed = struct(no=c_uint32, length=c_size_t)


class Refused(Exception):
    """Its arguments are the refusal's number and words."""


def array(element, numbers):
    """Numbers as C's; one that its element cannot hold raises OverflowError, where ctypes would cut it in silence."""
    size = ctypes.sizeof(element)
    return (element * len(numbers)).from_buffer_copy(b"".join(number.to_bytes(size, "little") for number in numbers))


def wide(number):
    return c_uint64(*array(c_uint64, [number]))


def units(number):
    """As the header's rondavitse_units."""
    return number & 0xFFFFFFFF if -0x8000 <= number < 0x8000 else 0x8000


class Supervisor:
    """A lane, to be started or taken over from another host."""

    def __init__(self, path):
        self.library, self.lane = ctypes.CDLL(path), Lane()
        if self.called("version", c_uint32) != VERSION:
            raise ImportError(f"{path} is of another version")

    def start(self, table, road, first):
        self.called("empty", None, byref(self.lane))
        self.check(self.called("load", c_uint32, byref(self.lane), table, c_size_t(len(table))))
        self.check(self.called("start", c_uint32, byref(self.lane), Road(*map(wide, road)), wide(first)))

    def take_over(self, text):
        """Where this is refused, the lane is an empty one afterwards."""
        self.check(self.called("take_over", c_uint32, byref(self.lane), text, c_size_t(len(text))))

    def handover(self):
        text = (c_uint8 * LONGEST_HANDOVER)()
        length = self.answer("handover", Listed, text, c_size_t(len(text))).length
        return bytes(text[:length])

    def called(self, name, result, *arguments):
        function = self.library["rondavitse_" + name]
        function.restype = result
        return function(*arguments)

    def check(self, no):
        if no:
            raise Refused(no, self.called("shared_words", c_char_p, c_uint32(no)).decode())

    def answer(self, name, result, *arguments):
        answer = self.called(name, result, byref(self.lane), *arguments)
        self.check(answer.no)
        return answer

    def change_surface(self, surface):
        self.check(self.called("surface", c_uint32, byref(self.lane), wide(surface)))

    def enter(self, number, position, speed, length, rate):
        return self.answer("enter", Entered, Carrier(*map(wide, (number, position, speed, length, rate)))).place

    def opening_behind(self, number, *newcomer):
        return self.find_opening(0, number, newcomer)

    def opening_ahead_of_all(self, *newcomer):
        return self.find_opening(1, 0, newcomer)

    def find_opening(self, head, number, newcomer):
        """The lowest and the highest position; None where there is none."""
        answer = self.answer("find_opening", Opening, wide(head), wide(number), Newcomer(*map(wide, newcomer)))
        return (answer.lowest, answer.highest) if answer.exists else None

    def cycle(self, wishes):
        count = c_size_t(len(wishes))
        sorts, values = (array(element, [wish[i] for wish in wishes]) for i, element in enumerate((c_uint8, c_uint32)))
        return self.answer("cycle", Cycled, count, sorts, count, values, count)

    def read(self, number):
        return self.answer("read", ReadOut, wide(number))


def try_entry(lane, number, *figures):
    try:
        print(f"carrier {number} enters at place {lane.enter(number, *figures)}")
    except Refused as refusal:
        print("carrier {} refused by {}: {}".format(number, *refusal.args))


def try_surface(lane, surface):
    try:
        lane.change_surface(surface)
        print(f"surface {surface} in force")
    except Refused as refusal:
        print("surface {} refused by {}: {}".format(surface, *refusal.args))


def try_take_over(path, text):
    try:
        Supervisor(path).take_over(text)
    except Refused as refusal:
        print("taking over refused by {}: {}".format(*refusal.args))


def in_a_new_host(path, lane):
    """As when another host takes this one's place: nothing goes over but the text."""
    text, new = lane.handover(), Supervisor(path)
    print(f"lane handed over in {len(text)} bytes")
    try_take_over(path, text[:-1])  # a file that was not yet whole
    try_take_over(path, text.replace(b"speed=16", b"speed=32"))  # the second would not stop before the first's tail
    new.take_over(text)
    return new


def enter_behind(lane, ahead, number, speed, length, rate):
    """A carrier from a side road drives in behind another one, halfway between the ends of the opening; while there is none it waits a cycle, in
    which the foremost speeds up, and asks again."""
    while not (opening := lane.opening_behind(ahead, speed, length, rate)):
        print(f"no opening behind carrier {ahead}: waits a cycle")
        lane.cycle([(UNITS, units(10)), (HOLD, 0)])
    print("opening behind carrier {}: {} to {}".format(ahead, *opening))
    try_entry(lane, number, sum(opening) // 2, speed, length, rate)


def try_side_road(lane, ahead, *newcomer):
    try:
        enter_behind(lane, ahead, *newcomer)
    except Refused as refusal:
        print("opening behind carrier {} refused by {}: {}".format(ahead, *refusal.args))


def main(path):
    dry, wet = b"b=60\nB=120\nA=30\n", b"b=20\nB=80\nA=10\n"
    table = dry + wet * (SURFACES - 1)  # of a terminal on which all surfaces but the dry one are alike
    lane = Supervisor(path)
    lane.start(table, (0, 10000, 1000), 0)
    try_entry(lane, 7, 1000, 0, 200, 90)
    try_entry(lane, 8, 700, 64, 100, 40)  # loaded: its own rate, below the surface's b, would not stop it before the first's tail
    try_entry(lane, 8, 700, 64, 100, 48)
    try_entry(lane, 9, 650, 0, 100, 90)  # behind the second's front and not behind its tail
    try_entry(lane, 10, 500, 0, 4294967396, 90)  # a length of 100 if it were cut
    try_entry(lane, 11, 500, 0, 100, 4294967360)  # an own rate of 64 if it were cut
    try_surface(lane, 1)  # the second would not stop before the first's tail
    for number in (4294967328, 32):  # the first would be 32 if it were cut
        try:
            answer = lane.cycle([(HOLD, 0), (UNITS, units(number))])
            print(f"cycle: replaced {answer.word:016X}, gone {answer.gone}")
        except Refused as refusal:
            print("cycle refused by {}: {}".format(*refusal.args))
    try_surface(lane, 4294967297)  # 1 if it were cut
    try_surface(lane, 1)
    lane = in_a_new_host(path, lane)
    try_side_road(lane, 4294967303, 12, 8, 50, 4)  # behind 7 if it were cut
    try_side_road(lane, 7, 12, 8, 50, 4)
    print("opening ahead of all: {} to {}".format(*lane.opening_ahead_of_all(8, 50, 4)))
    for number in (7, 12, 8):
        reading = lane.read(number)
        print(f"carrier {number}: {reading.position:.11f} m, {reading.speed:.7f} m/s")


if __name__ == "__main__":
    main(sys.argv[1]) if len(sys.argv) == 2 else sys.exit(__doc__)
