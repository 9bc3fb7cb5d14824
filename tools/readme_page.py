"""Reads a page of words and indented blocks: its commands with what they print, the files that it
shows, and the commands that its sentences name.

A command is a line of an indented block that begins with `$ `. What it prints stands below it, up
to the next command or the end of the block; a line `..` stands for any lines, also for none. A
block without a command is a file, if the line before it ends in the file's name, as `my.txt`:, and
else a picture of something. A block begins behind an empty line.
"""
import collections
import re

INDENT, PROMPT, ANY = "    ", "$ ", ".."
NAMES_FILE = re.compile(r"`([\w./-]+)`:$")
COMMANDS = ("tools/", "./run", "examples/", "rt ", "second/", "bench/", ".ci/")

Command = collections.namedtuple("Command", "words printed line")
File = collections.namedtuple("File", "name lines line")


def split_page(text):
    """Blocks as (number of the first line, the line before, the block's lines), and the rest."""
    blocks, words, block = [], [], []
    for number, line in enumerate(text.splitlines(), 1):
        is_indented = line.startswith(INDENT)
        if block and (is_indented or not line.strip()):
            block.append(line[len(INDENT):])
        elif is_indented and words[-1:] in ([], [""]):
            before = next((word for word in reversed(words) if word), "")
            block = [line[len(INDENT):]]
            blocks.append((number, before, block))
        else:
            block = []
            words.append(line.strip())
    for _, _, lines in blocks:
        while not lines[-1].strip():
            lines.pop()
    return blocks, words


def commands_in(lines, number):
    """The commands of a block, in their order. A line that ends in a backslash goes on."""
    if not lines[0].startswith(PROMPT):
        raise ValueError(f"line {number} stands before the block's first command")
    commands, goes_on = [], False
    for at, line in enumerate(lines, number):
        if goes_on:
            commands[-1] = commands[-1]._replace(words=commands[-1].words + "\n" + line)
        elif line.startswith(PROMPT):
            commands.append(Command(line[len(PROMPT):], [], at))
        else:
            commands[-1].printed.append(line)
        goes_on = commands[-1].words.endswith("\\") and not commands[-1].printed
    return commands


def steps_of(text):
    """Files and commands in the order of the page."""
    steps = []
    for number, before, lines in split_page(text)[0]:
        named = NAMES_FILE.search(before)
        if any(line.startswith(PROMPT) for line in lines):
            steps += commands_in(lines, number)
        elif named:
            steps.append(File(named[1], lines, number))
    return steps


def mentions_of(text):
    """The commands in backquotes, once each. A sentence may break one in two lines."""
    words = " ".join(split_page(text)[1])
    quoted = re.findall(r"`([^`]+)`", words)
    return [word for word in dict.fromkeys(quoted) if word.startswith(COMMANDS)]


def matches(shown, lines):
    """Whether the lines are those that the page shows."""
    parts = [r"(?:.*\n)*" if line == ANY else re.escape(line) + r"\n" for line in shown]
    return re.fullmatch("".join(parts), "".join(line + "\n" for line in lines)) is not None
