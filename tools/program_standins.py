"""Wrong programs in the place of a right one, to see that the tests beside catch them.

A stand-in is a shell script that takes a program's name and arguments as tools/program does. It
runs the real program, and spoils one thing.
"""
import pathlib
import shlex

from program_annual import try_cut_off, try_lengths, try_reports, try_set_aside
from program_anodes import try_anode_book
from program_dry import try_dry_book
from program_gas import METHANE_MASS, OIL, ROWS, try_gas_book
from program_grown import try_cut
from program_hours import try_hour_lines
from program_jobs import plan_plant
from program_kept import try_kept_answers
from program_lines import try_plant
from program_long import try_far_frames, try_long_jobs, try_longest_lines, try_too_long_lines
from program_long import try_too_long_wakes
from program_low_heat import try_low_lines
from program_model import burned
from program_months import try_month_book
from program_repeats import try_repeat_book
from program_replay import try_answers, try_heads
from program_resent import try_anode_steps, try_hour_steps
from program_runs import Cases, Programs, Wrong, expect, memory_folder
from program_volumes import try_gas_volumes
from program_wake import try_jobs
from program_warming import try_warming_changes, try_warming_reports


def with_set(number):
    """For a body: the real program reads the book with this set of warming values."""
    return (f'cat >"$scratch/of"; printf "\\{number}" | dd of="$scratch/of" bs=1 conv=notrunc '
            'seek=$(($(wc -c <"$scratch/of") - 12)) status=none; real "$@" <"$scratch/of"')


def counting_repeats(after=None, as_if="hour fossil co2-ug 12950000000000 ch4-ng 0 n2o-ng 0"):
    """For a body: a repeat counts as P7 does, whatever its readings; or only behind such a line."""
    counted = f"s/reason 8$/{as_if}/"
    return f"spoil sed '/{after}/{{n;{counted}}}'" if after else f"spoil sed '{counted}'"


def with_anodes(words):
    """For a body: what stands behind the index of the common anodes is this."""
    return f"spoil sed 's/{ANODES}$/{words}/'"


def with_gas(name, words):
    """For a body: what stands behind the index of this row of analysed gas is something else."""
    place = [row for row, *_ in ROWS].index(name)
    return f"spoil sed 's/^record {place} .*/record {place} {words}/'"


def with_volumes(change):
    """For a body: the real program reads the book with its molar volumes changed."""
    return f"""
python3 -c '
import struct, sys
of = bytearray(sys.stdin.buffer.read())
for at in range(struct.unpack_from("<I", of, len(of) - 20)[0], len(of) - 32, 32):
    volume, = struct.unpack_from("<I", of, at + 20)
    struct.pack_into("<I", of, at + 20, {change})
sys.stdout.buffer.write(of)' | real "$@"
"""


ANODES = "anodes fossil co2-ug 1513488480000000 ch4-ng 0 n2o-ng 0"
# For a body: the real `wake` sees zeros in the place of the records that are done.
FORGETFUL = """
cp "$2" "$scratch/of"
if [ -e "$3" ]; then
    head -c $((32 * $(od -An -tu4 -N4 "$3"))) /dev/zero | dd of="$2" conv=notrunc status=none
    cp "$2" "$3.book"
fi
real "$@"
end=$?
cp "$scratch/of" "$2"
cp "$2" "$3.book"
exit "$end"
"""
# For a body: the impurities are added up before the real program sees them, so far as 16 bits hold
# their sum, and all are sulphur.
IN_16_BITS = """
python3 -c '
import struct, sys
of = bytearray(sys.stdin.buffer.read())
for at in range(0, struct.unpack_from("<I", of, len(of) - 24)[0], 32):
    impurities = struct.unpack_from("<HHH", of, at + 16)
    struct.pack_into("<HHH", of, at + 16, sum(impurities) % 65536, 0, 0)
sys.stdout.buffer.write(of)' | real "$@"
"""
# For a body: the input is kept as a file, and whatever is longer than 65,536 bytes is refused.
KEPT_INPUT = 'of=$scratch/of; cat >"$of"; '
IS_SHORT = '[ "$(wc -c <"$of")" -le 65536 ]'
SHORT_ALONE = IS_SHORT + " || { echo refused 20; exit 3; }; "
# For a body: the real `lines` gets a book of a line too many without its first record.
A_LINE_MORE = """
python3 -c '
import struct, sys
of = bytearray(sys.stdin.buffer.read())
if len(of) == 4194336:
    starts = struct.unpack_from("<II", of, len(of) - 24)
    struct.pack_into("<II", of, len(of) - 24, *(start - 32 for start in starts))
    del of[:32]
sys.stdout.buffer.write(of)' | real "$@"
"""
# For a body: what is told of a record is told of the one 65,536 places behind it too.
FAR_LINES = """
spoil python3 -c '
import sys
told = [line.split(b" ", 2)[2] for line in sys.stdin.buffer]
sys.stdout.buffer.writelines(b"record %d " % i + told[i % 65536] for i in range(len(told)))'
"""
# For a body: the real `replay` is asked for a record by the lower 16 bits of its index.
FAR_FRAMES = """
python3 -c '
import struct, sys
given, at = bytearray(sys.stdin.buffer.read()), 0
while at < len(given):
    if given[at] == 4:
        given[at + 6:at + 8] = bytes(2)
    at += 24 + sum(struct.unpack_from("<III", given, at + 8))
sys.stdout.buffer.write(given)' | real "$@"
"""
# Each stand-in spoils one program's output, its end or its file. Its status stays the program's own
# where that isn't the fault.
WRONG = [
    ("annual", "one figure is off", "spoil sed s/9856701/9856702/", try_reports),
    ("annual", "a line is missing", "spoil sed /^co2e/d", try_reports),
    ("annual", "a blank line follows", "spoil sed '$G'", try_reports),
    ("annual", "a refusal is no status", 'real "$@"; exit 0', try_set_aside),
    ("annual", "every site must report", "spoil sed 's/^must-report no/must-report yes/'",
     try_kept_answers),
    ("annual", "the first warming values are every book's", with_set(0), try_warming_reports),
    ("annual", "the second warming values are every book's", with_set(1), try_kept_answers),
    ("lines", "one mass is off", "spoil sed '1s/ch4-ng /ch4-ng 9/'", try_plant),
    ("lines", "the last record is missing", "spoil sed '$d'", try_plant),
    ("lines", "a half of R goes up", "spoil sed 's/co2-ug 32116 /co2-ug 32634 /'",
     try_kept_answers),
    ("lines", "a half of R goes down", "spoil sed 's/co2-ug 647502428384 /co2-ug 647502427866 /'",
     try_hour_lines),
    ("lines", "R is cut off", "spoil sed 's/co2-ug 647501214192 /co2-ug 647501213674 /'",
     try_hour_lines),
    ("lines", "half a kJ of a low value's heat goes down",
     "spoil sed 's/co2-ug 1945300000000 /co2-ug 1945250000000 /'", try_low_lines),
    ("lines", "1.11 times the mass in place of the heat",
     "spoil sed 's/co2-ug 1945300000000 /co2-ug 1945275000000 /'", try_low_lines),
    ("lines", "every fuel may have a low value", "spoil sed 's/reason 4$/method 2 fossil co2-ug "
     "1942500000000 ch4-ng 34965000000 n2o-ng 3496500000/'", try_low_lines),
    ("lines", "moisture is passed over",
     "spoil sed 's/co2-ug 12937050000000 /co2-ug 12950000000000 /'", try_dry_book),
    ("lines", "moisture is taken off an R that is rounded",
     "spoil sed 's/co2-ug 58016 /co2-ug 58534 /'", try_dry_book),
    ("lines", "tenths of a percent are taken for percents",
     "spoil sed 's/co2-ug 12302500000000 /co2-ug 6475000000000 /'", try_dry_book),
    ("lines", "a wet unit may have moisture", "spoil sed 's/reason 1$/hour fossil co2-ug "
     "12937050000000 ch4-ng 0 n2o-ng 0/'", try_dry_book),
    ("lines", "moisture is judged before the unit is found", "spoil sed 's/reason 2$/reason 1/'",
     try_dry_book),
    ("lines", "a repeat counts", counting_repeats(), try_repeat_book),
    ("lines", "only the record before is looked at", counting_repeats("method 4"),
     try_repeat_book),
    ("lines", "a repeat with other readings counts", counting_repeats("co2-ug 32116 "),
     try_repeat_book),
    ("lines", "a repeat of what was set aside counts", counting_repeats("reason 4$"),
     try_repeat_book),
    ("lines", "a repeat is told before its reading is judged",
     "spoil sed '/^record 12 /s/reason 4$/reason 8/'", try_repeat_book),
    # 4,130,700,000,000 × 366.7, and 420,000,000 × 98.75 × 99.60 × 366.4.
    ("lines", "the carbon of anodes becomes CO2 by 3.667", with_anodes(
        "anodes fossil co2-ug 1514727690000000 ch4-ng 0 n2o-ng 0"), try_anode_book),
    ("lines", "impurities are multiplied and not added", with_anodes(
        "anodes fossil co2-ug 1513565424000000 ch4-ng 0 n2o-ng 0"), try_anode_book),
    ("lines", "anodes are biomass", "spoil sed 's/anodes fossil/anodes biomass/'",
     try_anode_book),
    ("lines", "a mass of anodes is cut off", "spoil sed 's/co2-ug 733 /co2-ug 732 /'",
     try_anode_book),
    ("lines", "impurities are added in 16 bits", IN_16_BITS, try_anode_book),
    ("lines", "anodes of a unit with a monitor give no CO2",
     "spoil sed '/^record 0 /s/co2-ug [0-9]*/co2-ug 0/'", try_month_book),
    ("lines", "anodes of a unit without a monitor are set aside",
     "spoil sed '/^record 21 /s/anodes.*/reason 5/'", try_month_book),
    ("lines", "a month of anodes is looked for by its unit alone",
     "spoil sed '/^record 2 /s/anodes.*/reason 8/'", try_month_book),
    ("lines", "an hour repeats anodes of the same numbers",
     "spoil sed '/^record 4 /s/hour.*/reason 8/'", try_month_book),
    ("lines", "anodes repeat an hour of the same numbers",
     "spoil sed '/^record 24 /s/anodes.*/reason 8/'", try_month_book),
    ("lines", "a month of anodes counts twice", counting_repeats(as_if=ANODES), try_month_book),
    ("lines", "a month whose first anodes were set aside counts",
     counting_repeats("reason 4$", ANODES), try_month_book),
    ("lines", "analysed gas isn't known", "spoil sed 's/method 3 .*/reason 1/'", try_gas_book),
    ("lines", "a mass of gas is cut off",
     "spoil sed 's/co2-ug 1828580266667 /co2-ug 1828580266666 /'", try_gas_book),
    ("lines", "a half of a gas's mass goes up", "spoil sed 's/co2-ug 1030 /co2-ug 1031 /'",
     try_gas_book),
    ("lines", "a half of a gas's mass goes down", "spoil sed 's/co2-ug 344 /co2-ug 343 /'",
     try_gas_book),
    ("lines", "a half goes by what is even of the part alone",
     "spoil sed 's/co2-ug 3092 /co2-ug 3091 /'", try_gas_book),
    # 7.328 × 10^22 less a multiple of 2^64, by 20,000.
    ("lines", "a gas's product has 64 bits",
     "spoil sed 's/co2-ug 3664000000000000000 /co2-ug 476626961283049 /'", try_gas_book),
    ("lines", "the carbon of gas becomes CO2 by 3.667",
     "spoil sed 's/co2-ug 1828580266667 /co2-ug 1830077466667 /'", try_gas_book),
    ("lines", "the first fuel's molar volume is every fuel's",
     "spoil sed 's/co2-ug 1858708965610 /co2-ug 1828580266667 /'", try_gas_book),
    ("lines", "the molar volume is 24,060 litres always", with_volumes("volume and 24060"),
     try_gas_book),
    ("lines", "a molecular weight has 16 bits",
     with_gas("a molecular weight in the third byte", "reason 4"), try_gas_book),
    # 1,000 × 4,000,000 × 16,040 × 3,664 / 24,060.
    ("lines", "a kilogram of gas may have as much carbon as a cubic metre",
     with_gas("carbon 4000000", burned(3, 9_770_666_666_667)), try_gas_book),
    ("lines", "gas without a molar volume has no CO2",
     with_gas("a gas without a molar volume", burned(3, 0)), try_gas_book),
    ("lines", "whatever has a molar volume is gas", with_gas(
        f"a molar volume of a fuel that isn't a gas, {OIL}", burned(3, METHANE_MASS)),
     try_gas_book),
    ("lines", "gas of a unit with a monitor has CO2",
     with_gas("a unit with a monitor", burned(3, METHANE_MASS)), try_gas_book),
    ("lines", "analysed gas of a large unit needs a measured heat",
     with_gas("a large unit", "reason 6"), try_gas_book),
    ("lines", "gas without a heat has no CH4 and no N2O",
     with_gas("no heat", burned(3, 2_199_782_060_800, 0, 0)), try_gas_book),
    ("lines", "a low value beside gas is its heat", with_gas(
        "a low value", burned(3, METHANE_MASS, 31_500_000_000, 3_150_000_000)), try_gas_book),
    ("lines", "analysed gas may have the flag of carbon",
     with_gas("flags 2", burned(3, METHANE_MASS)), try_gas_book),
    ("lines", "every molar volume is right", with_volumes("0"), try_gas_volumes),
    ("annual", "every molar volume is right", with_volumes("0"), try_gas_volumes),
    ("annual", "no molar volume is right", with_volumes("volume and 1"), try_gas_volumes),
    ("annual", "it takes as much as a book may have", KEPT_INPUT + IS_SHORT
     + ' && { real "$@" <"$of"; exit; }; rm -f "$scratch/ours"*; '
     'words=(wake "$of" "$scratch/ours" 4294967295); spoil sed "/^moved/d; /^done/d"', try_lengths),
    ("annual", "what goes on behind 65,536 bytes is cut off", 'head -c 65536 | real "$@"',
     try_lengths),
    ("annual", "a read that fails is an end", KEPT_INPUT.replace("cat", "cat 2>/dev/null")
     + 'real "$@" <"$of"', try_cut_off),
    ("lines", "65,536 bytes are all that it takes",
     KEPT_INPUT + SHORT_ALONE + 'real "$@" <"$of"', try_longest_lines),
    ("lines", "it takes a line too many", A_LINE_MORE, try_too_long_lines),
    ("lines", "a place has 16 bits", FAR_LINES, try_longest_lines),
    ("wake", "65,536 bytes are all that it takes", "of=$2; " + SHORT_ALONE + 'real "$@"',
     try_long_jobs),
    ("wake", "it takes a line too many", '[ "$(wc -c <"$2")" -ne 4194336 ] || '
     '{ printf "moved 1\ndone 1 of 131070\n"; exit 0; }; real "$@"', try_too_long_wakes),
    ("wake", "the place in its checkpoint has 16 bits", 'real "$@"; end=$?; head -c 2 /dev/zero | '
     'dd of="$3" bs=1 seek=2 conv=notrunc status=none; exit "$end"', try_long_jobs),
    ("wake", "the first record set aside is told in 16 bits",
     "spoil sed 's/record 65536 /record 0 /'", try_long_jobs),
    ("wake", "its copy ends after 65,536 bytes",
     'real "$@"; end=$?; truncate -s "<65536" "$3.book"; exit "$end"', try_long_jobs),
    ("wake", "it keeps a copy of what is no book",
     '[ ! -f "$3.book" ] || cp "$2" "$3.book"; real "$@"', try_cut),
    ("replay", "an index has 16 bits", FAR_FRAMES, try_far_frames),
    ("replay", "it says nothing", "spoil true", try_answers),
    ("replay", "a wrong head is no failure", 'real "$@"; exit 0', try_heads),
    ("replay", "a wrong head isn't told", 'real "$@" 2>/dev/null', try_heads),
    ("wake", "it is told twice", "spoil sed p", try_jobs),
    ("wake", "done is one too many", "spoil sed 's/^done 100/done 101/'", try_jobs),
    ("wake", "its copy is another book's",
     'real "$@"; end=$?; echo >>"$3.book"; exit "$end"', try_jobs),
    ("wake", "a rest in its checkpoint is off",
     'real "$@"; end=$?; printf "\\377" | dd of="$3" bs=1 seek=24 conv=notrunc status=none; '
     'exit "$end"', try_kept_answers),
    ("wake", "it passes over an edited book",
     'cp "$2" "$3.book" 2>/dev/null; real "$@"', try_warming_changes),
    ("wake", "it keeps no copy", 'real "$@"; end=$?; rm "$3.book"; exit "$end"', try_jobs),
    ("wake", "only the hours of this wake are looked at", FORGETFUL, try_hour_steps),
    ("wake", "only the anodes of this wake are looked at", FORGETFUL, try_anode_steps),
]
# For the body of a stand-in: the real output goes through a command.
SPOIL = """
words=("$@")
spoil() {
    real "${words[@]}" >"$scratch/told"
    end=$?
    "$@" <"$scratch/told"
    exit "$end"
}
"""


def stand_in(folder, name, real, body):
    """Writes a stand-in for the program of this name. In its body, `real` runs the real ones."""
    script = pathlib.Path(folder) / "standin"
    command = " ".join(map(shlex.quote, real.command))
    script.write_text(
        f'real() {{ {command} "$@"; }}\nscratch={shlex.quote(str(folder))}\n'
        f'[ "$1" = {name} ] || {{ real "$@"; exit; }}\n{body}\n', encoding="utf-8")
    return Programs(["bash", str(script)])


def expect_caught(quiet, words):
    """The cases that were tried found a fault, and it is the one that was put there."""
    if not any(words in fault for fault in quiet.faults):
        raise Wrong(f"no fault has {words!r}: {quiet.faults[:2]}")


def faults_of(programs, program, body, attempt, plan):
    """What is found wrong with a stand-in."""
    quiet, more = Cases(quiet=True), [plan] if attempt is try_jobs else []
    with memory_folder() as folder, quiet.case("preparing"):
        attempt(stand_in(folder, program, programs, SPOIL + body), quiet, *more)
    return quiet


def try_spoiled(programs, cases):
    plan = plan_plant(programs)
    for program, name, body, attempt in WRONG:
        with cases.case(f"a wrong {program} is caught: {name}"):
            expect_caught(faults_of(programs, program, body, attempt, plan), "")
    for program, attempt in dict.fromkeys((program, attempt) for program, _, _, attempt in WRONG):
        with cases.case(f"{program} through a command passes {attempt.__name__}"):
            quiet = faults_of(programs, program, "spoil cat", attempt, plan)
            expect(quiet.faults, [], "what is wrong with it")
