"""The examples: what the program is run on, and what it has to say.

An example NAME, in the folder of its command, is made of these files, each of which may be missing:

    NAME.args    its arguments, one a line; else those of its folder, below. Arguments after an empty line are another way to
                 request the same, and have to give the same
    NAME.jsonl   its standard input; else, if there is a NAME.input, that of the example that this names, as replay/hole; else
                 that of serve/first-run, so that a run that is to read nothing could read something
    NAME.out     its standard output; else nothing
    NAME.err     its standard error; else nothing
    NAME.status  its exit status; else 0
"""
import os

TOP = os.path.dirname(os.path.dirname(os.path.realpath(__file__)))
EXAMPLES = f"{TOP}/examples"
# The folders, and the arguments of an example there that has none of its own.
FOLDERS = {
    "serve": ["serve"], "replay": ["replay"], "cluster": ["cluster"], "outcomes": ["outcomes"], "plan": ["plan", "--set", "web"],
    "race": ["race"], "words": ["serve"],
}
DEFAULT_INPUT = b"serve/first-run"


def read(path, default=b""):
    """The bytes of a file, or the default where it is missing."""
    if not os.path.exists(path):
        return default
    with open(path, "rb") as file:
        return file.read()


class Example:
    """One example: its name, each list of arguments for it, its input, and what it should print."""

    def __init__(self, folder, name):
        at = f"{EXAMPLES}/{folder}/{name}"
        self.name = f"{folder}/{name}"
        self.asked = [FOLDERS[folder]]
        if os.path.exists(f"{at}.args"):
            self.asked = [words.splitlines() for words in read(f"{at}.args").decode().split("\n\n")]
        other = read(f"{at}.input", DEFAULT_INPUT).decode().strip()
        self.stdin = read(f"{at}.jsonl", read(f"{EXAMPLES}/{other}.jsonl"))
        self.said = (int(read(f"{at}.status", b"0")), read(f"{at}.out"), read(f"{at}.err"))


def names_in(folder):
    return sorted({name.rsplit(".", 1)[0] for name in os.listdir(f"{EXAMPLES}/{folder}")})


def examples():
    return [Example(folder, name) for folder in FOLDERS for name in names_in(folder)]
