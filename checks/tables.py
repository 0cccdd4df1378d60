"""The tables of docs/REFERENCE.md against the examples: what a table says some example shows, and the other way round.

What is too long to lie in a file is shown by checks/limits.
"""
import contextlib
import json
import re
import subprocess

from transcripts import TOP, examples, read

PAGE = read(f"{TOP}/docs/REFERENCE.md").decode()
LIMITS = read(f"{TOP}/checks/limits").decode()
SHOWN = examples()


def table(heading):
    """The rows of the table whose heading begins so, each as its cells."""
    rows = PAGE.split(f"\n| {heading} |", 1)[1].split("\n\n")[0].splitlines()[2:]
    return [[cell.strip() for cell in re.split(r"(?<!\\)\|", row)[1:-1]] for row in rows]


def apart(what, told, shown):
    """What the page says and no example shows, and the other way round."""
    yield from (f"docs/REFERENCE.md: {what} {one} is in no example" for one in sorted(told - shown))
    yield from (f"docs/REFERENCE.md: {what} {one} is in an example, and not on the page" for one in sorted(shown - told))


def said_to(words):
    """What an example should print for these arguments: its status and both outputs."""
    return next((example.said for example in SHOWN if words.split() in example.asked), (0, b"", b""))


def answers():
    """The verb of each request in examples/serve, with the code and the reason or result of its reply."""
    for example in SHOWN:
        if example.name.startswith("serve/"):
            for line, reply in zip(example.stdin.split(b"\n"), map(json.loads, example.said[1].splitlines())):
                verb = json.loads(line)["do"] if reply["code"] != 400 else "no request"
                yield f"{verb}: {reply['code']} {reply.get('reason') or reply['result']}"
    yield from (f"no request: 400 {reason}" for reason in re.findall(r'"code":400,"reason":"(\w+)"', LIMITS))


def answer_faults(program):
    """The results and reasons of each verb with their codes, and the lines that are no request."""
    codes, lines = ({row[0]: row[at] for row in table(heading)} for heading, at in (("Reason | Code", 1), ("Reason | Meaning", 2)))
    told = {f"{verb}: {codes.get(reason)} {reason}" for verb, reasons in table("Request") for reason in re.findall(r"\b[A-Z]\w+", reasons)}
    for reply, when in table("Reply"):
        verbs = re.findall("create|get|list|update|status|delete|compact", when.replace("deletion", "delete"))
        told |= {f"{verb}: {code} {result}" for verb in verbs for code, result in re.findall(r'"code":(\d+).*"result":"(\w+)"', reply)}
    yield from apart("the answer to", told | {f"no request: 400 {reason}" for reason in lines}, set(answers()))
    for reason, given in ((reason, line) for reason, cell in lines.items() for line in re.findall("`([^`]+)`", cell)):
        said = subprocess.run([program, "serve"], input=given.encode(), capture_output=True, timeout=60).stdout.decode()
        if f'"reason":"{reason}"' not in said:
            yield f"docs/REFERENCE.md: {given} should be {reason}, and is answered {said.strip()}"


def refusal_faults():
    """The names by which scripts, races and plans are refused."""
    for what, words in (("script", ("replay", "cluster")), ("race", ("outcomes",)), ("plan", ("plan",))):
        told = {name for names, _ in table(f"A refused {what}") for name in re.findall(r"\w+", names)}
        shown = [example.said[2].decode() for example in SHOWN if example.name.startswith(words)]
        shown += re.findall(rf'"(?:{"|".join(words)})\b.*(refused: \w+)', LIMITS)
        yield from apart(f"a {what} that is refused:", told, set(re.findall(r"refused: (\w+)", "\n".join(shown))))


def option_faults():
    """The commands, the options of each, and the numbers in what is said of them; if one comes twice in a row, once."""
    rows = {found[1]: (found[2], row[1]) for row in table("Command") if (found := re.fullmatch(r"`stsctl (\w+) (.+)`", row[0]))}
    commands = set(re.findall(r"\n  (\w+)  ", said_to("--help")[1].decode()))
    yield from apart("the command", {*rows, "help"}, commands)
    for word, (options, what) in rows.items():
        usage, _, text = said_to(f"{word} --help")[1].decode().partition("\n\nOptions:")
        helped = re.findall(r"\n +(--\w+)(?: <(\w+)>)?  +(.*)", text)
        shown = {f"{name} {value}" if f" {name}" in usage else f"[{name}{value and ' '}{value}]" for name, value, _ in helped}
        yield from apart(f"stsctl {word}:", set(re.findall(r"\[--[^]]+\]|--\w+ \w+", options)), shown)
        texts = (what, " ".join(about for _, _, about in helped))
        numbers = [re.sub(r"\b(\d+) (?=\1\b)", "", " ".join(re.findall(r"\d+", text))) for text in texts]
        if numbers[0] != numbers[1]:
            yield f"docs/REFERENCE.md: stsctl {word}: the page has the numbers {numbers[0]}, and its help {numbers[1]}"


def help_faults():
    """The inputs that the help on a command shows, each a part of it: some example runs on each."""
    for word in re.findall(r"\n  (\w+)  ", said_to("--help")[1].decode()):
        for part in said_to(f"{word} --help")[1].split(b"\n\n"):
            lines = [line for line in part.splitlines() if line.startswith(b"{")]
            if lines and not any(one.stdin.splitlines() == lines and one.asked[0][0] == word and one.said[0] == 0 for one in SHOWN):
                yield f"examples/words: no example has an input that the help on {word} shows"


def status_faults(program):
    """The exit statuses, one of which a run that cannot write has, and what is printed for arguments that are named whole."""
    with open("/dev/full", "w") as full:
        failed = subprocess.run([program, "--help"], stdout=full, timeout=60).returncode
    yield from apart("the exit status", {int(row[0]) for row in table("Exit status")}, {failed, *(example.said[0] for example in SHOWN)})
    versions = [(line, "--version") for line in re.findall(r"`(stsctl \d[^`]+)`", PAGE)]
    for line, words in re.findall(r"`(Usage: [^`]+)` after `([^`]+)`", PAGE) + versions:
        if line not in b"\n".join(said_to(words)[1:]).decode().splitlines():
            yield f"docs/REFERENCE.md: stsctl {words} does not say {line}"


def form_faults():
    """The lines that are given by their members, of which a word in capitals is any value."""
    seen = []
    for line in {line for example in SHOWN for text in (example.stdin, example.said[1]) for line in text.splitlines()}:
        with contextlib.suppress(ValueError):
            json.loads(line, object_hook=seen.append)
    for form in re.findall(r'`(\{"[^`]+\})`', PAGE.split("\n| Reason | Meaning")[0]):
        told = json.loads(re.sub(r"(?<=[:\[,])([A-Z]+|\.\.)(?=[,\]}])", "null", form))
        texts = [name for name, value in told.items() if isinstance(value, (str, int))]
        if not any(told.keys() == one.keys() and all(told[name] == one[name] for name in texts) for one in seen):
            yield f"docs/REFERENCE.md: {form} is in no example"


def faults(program):
    return [*answer_faults(program), *refusal_faults(), *option_faults(), *help_faults(), *status_faults(program), *form_faults()]
