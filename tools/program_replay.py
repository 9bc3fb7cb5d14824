"""How `replay` ends: at a wrong head, where its input is cut short, or with its last frame. Its
answers to right frames are held against a stored run by `rt ci`, and a few are here, worked out by
hand."""
import struct

from program_annual import ONE, P1_MASSES, in_pieces, try_failures, try_usage
from program_books import CHECKPOINT, LINE, LONGEST, MOST_BEHIND, book, checkpoint
from program_books import trailer
from program_runs import FAILED, ROOT, WORKED, expect, expect_answer, expect_told

FRESH, WAKE, REPORT, RECORD = 1, 2, 3, 4
BLANK = b"\xaa" * CHECKPOINT
EMPTY = trailer(0, 0)  # the shortest book, so that there are few places to cut


def head(call, argument=0, lengths=(0, 0, 0)):
    return struct.pack("<BxxxIIIIxxxx", call, argument, *lengths)


def frame(call, argument=0, of=b"", kept=b"", out=b""):
    return head(call, argument, (len(of), len(kept), len(out))) + of + kept + out


def answer(number=0, reason=0, count=0, out=b""):
    return struct.pack("<BBxxI", number, reason, count).ljust(64, b"\0") + out


def report_answer(*figures):
    return (answer()[:8] + struct.pack("<5Q", *figures)).ljust(64, b"\0")


def record_answer(number=0, reason=0, method=0, ledger=0, masses=(0, 0, 0)):
    return struct.pack("<BBBBxxxx3Q", number, reason, method, ledger, *masses).ljust(64, b"\0")


START = frame(FRESH, of=ONE, out=BLANK)
STARTED = answer(out=checkpoint(ONE))

# Heads that each break one rule.
WRONG_HEADS = {
    "call 0": head(0),
    "call 5": head(5),
    "call 255": head(255),
    "byte 1": b"\1\1\0\0" + head(FRESH)[4:],
    "byte 2": b"\1\0\1\0" + head(FRESH)[4:],
    "byte 3": b"\1\0\0\x80" + head(FRESH)[4:],
    "a fresh start with a budget": head(FRESH, 1),
    "a report with a budget": head(REPORT, 1 << 24),
    "too long a book": head(FRESH, 0, (MOST_BEHIND + 1, 0, 0)),
    "too long a checkpoint": head(WAKE, 0, (0, MOST_BEHIND + 1, 0)),
    "too long a buffer": head(FRESH, 0, (0, 0, MOST_BEHIND + 1)),
    "a byte too much with the checkpoint": head(WAKE, 0, (MOST_BEHIND - 95, CHECKPOINT, 0)),
    "a byte too much with the buffer": head(WAKE, 0, (MOST_BEHIND - 191, CHECKPOINT, CHECKPOINT)),
    "a book of 2^32 - 1 bytes": head(RECORD, 0, (2**32 - 1, 0, 0)),
    # In 32 bits these lengths add up to no bytes, to 128 and to 2^32 - 3.
    "two parts of 2^31 bytes": head(WAKE, 0, (2**31, 2**31, 0)),
    "a buffer of 2^32 - 96 bytes": head(WAKE, 0, (128, CHECKPOINT, 2**32 - CHECKPOINT)),
    "all parts of 2^32 - 1 bytes": head(WAKE, 0, 3 * (2**32 - 1,)),
    "byte 20": head(FRESH)[:20] + b"\1\0\0\0",
    "byte 23": head(FRESH)[:20] + b"\0\0\0\1",
}


def try_heads(programs, cases):
    """What was answered before a wrong head stays answered, and what stands behind it isn't."""
    wrong = [(1, name) for name in WRONG_HEADS] + [(0, "call 0"), (12, "call 0"), (101, "byte 23")]
    for before, name in wrong:
        with cases.case(f"replay: {name} in the head of frame {before} stops it"):
            stream = before * START + WRONG_HEADS[name] + START
            told = b"frame %d has a head that breaks the rules\n" % before
            expect_answer(programs.run("replay", data=stream), FAILED, before * STARTED, told)


def try_cuts(programs, cases):
    frames = [frame(REPORT), frame(WAKE, 7, EMPTY, checkpoint(EMPTY), BLANK)]
    answers = [answer(20), answer(out=checkpoint(EMPTY))]
    stream, ends = b"".join(frames), [0, len(frames[0]), len(frames[0] + frames[1])]
    with cases.case(f"replay: a stream cut at each of its {len(stream)} bytes"):
        for length in range(len(stream) + 1):
            whole = sum(end <= length for end in ends[1:])
            status, told = (WORKED, b"") if length in ends else (
                FAILED, b"frame %d is cut short\n" % whole)
            expect_answer(programs.run("replay", data=stream[:length]), status,
                          b"".join(answers[:whole]), told)
    with cases.case("replay: frame 12 is cut short in its last byte"):
        expect_answer(programs.run("replay", data=(13 * START)[:-1]), FAILED, 12 * STARTED,
                      b"frame 12 is cut short\n")


def try_answers(programs, cases):
    co2, _, ch4, n2o = P1_MASSES
    ended = checkpoint(ONE, 1, P1_MASSES)
    with cases.case("replay: every call, byte by byte through a pipe"):
        stream = (START + frame(WAKE, 2**32 - 1, ONE, checkpoint(ONE), BLANK)
                  + frame(REPORT, 0, ONE, ended) + frame(RECORD, 0, ONE))
        figures = report_answer(1900, 0, 0, 0, 1902)
        record = record_answer(method=1, ledger=1, masses=(co2 // 1000, ch4, n2o))
        wanted = STARTED + answer(count=1, out=ended) + figures + record
        expect_told(in_pieces(programs, "replay", stream, [1]), wanted)
    with cases.case("replay: a record set aside, from wake to report"):
        of = book([bytes(LINE)])
        aside = checkpoint(of, 1, aside=1, reason=1)
        stream = frame(WAKE, 1, of, checkpoint(of), BLANK) + frame(REPORT, 0, of, aside)
        expect_told(programs.run("replay", data=stream), answer(count=1, out=aside) + answer(41, 1))
    with cases.case("replay: its stored run"):
        stored = ROOT / "crates/replay"
        told = programs.run("replay", data=(stored / "stdin").read_bytes())
        expect(told.out, (stored / "stdout").read_bytes(), "standard output")


HALF = MOST_BEHIND // 2
# Lengths of a book, a checkpoint and a buffer: as much as a head may name, of one or shared by all,
# and about a half of it, up to which a buffer is kept in the lesser of two rooms.
SHAPES = [(MOST_BEHIND, 0, 0), (0, MOST_BEHIND, 0), (0, 0, MOST_BEHIND), (HALF, 0, HALF),
          (HALF - 1, 0, HALF + 1), (0, HALF + 1, HALF - 1), (1, HALF - 1, HALF),
          (MOST_BEHIND - 192, CHECKPOINT, CHECKPOINT), (MOST_BEHIND // 3,) * 3]


def parts_of(shape):
    """Bytes of these lengths, of which each part has its own."""
    return [bytes([mark]) * length for mark, length in zip(b"\xb1\xc2\xd3", shape)]


def try_shapes(programs, cases):
    """Frames as long as they may be, and a short one behind. No such book is right."""
    for shape in SHAPES:
        with cases.case(f"replay: parts of {shape} bytes"):
            of, kept, out = parts_of(shape)
            number = 21 if 0 < len(of) <= LONGEST and len(of) % LINE == 0 else 20
            asked = [frame(call, 0, of, kept, out) for call in (FRESH, WAKE, REPORT, RECORD)]
            told = programs.run("replay", data=b"".join(asked) + START)
            expect_told(told, len(asked) * answer(number, out=out) + STARTED)
    with cases.case("replay: a right book beside the longest checkpoint, and the longest buffer"):
        most = MOST_BEHIND - len(ONE)
        begun, room = bytes(most - CHECKPOINT), bytes(most)
        told = programs.run("replay", data=frame(WAKE, 1, ONE, begun, BLANK)
                            + frame(FRESH, 0, ONE, b"", room) + START)
        expect_told(told, answer(30, out=BLANK) + answer(32, out=room) + STARTED)


def try_long_cuts(programs, cases):
    """A long frame that is cut in each of its parts, behind a short one that is answered."""
    of, kept, out = parts_of((HALF, HALF // 2, HALF // 2))
    whole = frame(FRESH, 0, of, kept, out)
    for left in (24, 25, HALF, HALF + 24, HALF + HALF // 2 + 24, len(whole) - 1):
        with cases.case(f"replay: a frame of {len(whole)} bytes is cut after {left}"):
            expect_answer(programs.run("replay", data=START + whole[:left]), FAILED, STARTED,
                          b"frame 1 is cut short\n")


def try_replay(programs, cases):
    try_heads(programs, cases)
    try_cuts(programs, cases)
    try_answers(programs, cases)
    try_shapes(programs, cases)
    try_long_cuts(programs, cases)
    try_usage(programs, cases, "replay", b"FRAMES")
    try_failures(programs, cases, "replay", {"a right frame": START})
