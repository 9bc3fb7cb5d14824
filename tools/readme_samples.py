"""Pages on which tools/readme-test tries itself: some are right, and the others have one fault."""

SAMPLE_FILES = {
    "run": "#!/bin/sh\necho one\necho two\necho three\n",
    "tools/program": "#!/bin/sh\necho refused 21\nexit 3\n",
    "tools/build": "#!/bin/sh\n",
    "crates.txt": "mass:\nwake: mass\nwake_c staticlib: wake\n",
}


def page(*lines):
    """Lines of a page. Those that begin with a bar stand in a block."""
    return "".join("    " * line.startswith("|") + line.removeprefix("|") + "\n" for line in lines)


RUNS = "", "|$ true"

RIGHT = {
    "what is printed": page("Run it:", "", "|$ ./run", "|one", "|two", "|three"),
    "any lines": page("Words.", "", "|$ ./run", "|..", "|three", "", "More."),
    "any lines, of which there are none": page(
        "", "|$ ./run", "|one", "|..", "|two", "|three", "|.."),
    "two commands, of which one prints nothing": page(
        "", "|$ true", "|$ echo a; echo b >&2", "|a", "|b"),
    "an empty line in what is printed": page("", "|$ echo a; echo; echo b", "|a", "", "|b"),
    "a command of two lines": page("", "|$ echo a \\", "|    b", "|a b"),
    "a file": page("Write `my.txt`:", "", "|a", "", "|b", "", "Then:", "", "|$ cat my.txt", "|a",
                   "", "|b"),
    "a part of a file that is there": page("See `crates.txt`:", "", "|wake: mass", "", ".", *RUNS),
    "a picture": page("The map:", "", "|here    there", "", ".", *RUNS),
    "a refusal": page("", "|$ tools/program wake", "|refused 21"),
    "a refusal that isn't shown whole": page("", "|$ tools/program wake", "|.."),
    "a command that is left out": page(*RUNS, "|$ .ci/run", "|.."),
    "what sentences name": page("`./run BOOK`, `tools/build NAME`, `rt", "ci`,",
                                "`tools/build wake_c`, `tools/program wake BOOK`.", *RUNS),
    "what is no command": page("`wake BOOK`, `crates/none`, [none](docs/none.md).", *RUNS),
    "a line of a list that goes on": page("- a point", "|$ none", *RUNS),
}

# Each wrong page, and words of its one fault.
WRONG = {
    "another line is printed": (page("", "|$ ./run", "|one", "|2", "|three"),
                                "line 2, ./run: it prints"),
    "a line is missing on the page": (page("", "|$ ./run", "|one", "|three"), "it prints"),
    "a line too many on the page": (page("", "|$ true", "|one"), "it prints"),
    "the last line is missing": (page("", "|$ ./run", "|one", "|two"), "it prints"),
    "a blank behind a line": (page("", "|$ echo a", "|a "), "it prints"),
    "a command fails": (page("", "|$ echo a; exit 1", "|a"), "the exit status is 1, not 0"),
    "a command fails silently": (page("", "|$ false"), "the exit status is 1, not 0"),
    "a refusal that is no status": (page("", "|$ echo refused 21", "|refused 21"),
                                    "the exit status is 0, not 3"),
    "a silent refusal": (page("", "|$ exit 3"), "the exit status is 3, not 0"),
    "there is no such command": (page("", "|$ ./gone", "|.."), "the exit status is 127"),
    "a file is shown too late": (page("", "|$ cat my.txt", "|a", "", "As `my.txt`:", "", "|a"),
                                 "it prints"),
    "another part of a file": (page("See `crates.txt`:", "", "|wake: none", "", ".", *RUNS),
                               "no such lines"),
    "a sentence names a missing file": (page("`tools/none`", *RUNS), "there is no tools/none"),
    "a sentence names a missing crate": (page("`tools/build wake", "none`", *RUNS),
                                         "there is no crate none"),
    "a sentence names a missing program": (page("`tools/program none BOOK`", *RUNS),
                                           "there is no crate none"),
    "there is no command": (page("Words.", "", "|a picture"), "it has no command"),
    "a block begins with what is printed": (page("", "|one", "|$ ./run"),
                                            "before the block's first command"),
    "a command between fences": (page(*RUNS, "", "```", "$ false", "```"),
                                 "none stands between fences"),
}
