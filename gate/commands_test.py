#!/usr/bin/env python3
"""Compares what the program's help names with its completion files, its man page, README.md, docs/GUIDE.md and docs/FORMATS.md: commands,
options, verbs, replies, refusals, kinds of line faults, lines of traces, reasons of the judge, limits, and statuses with what standard error says.

    gate/commands_test.py [PROGRAM]     PROGRAM is crates/ulfm/out/ulfm, if it isn't given

It prints a line for each difference, and ends with 1 where there is one.
"""
import os
import re
import subprocess
import sys

TOP = os.path.dirname(os.path.dirname(os.path.realpath(__file__)))
OPTION = re.compile(r"(?<![\w-])(--[a-z]+|-[A-Za-z])(?![\w-])")
TOP_LEVEL = ""
differences = 0


def read(name):
    with open(os.path.join(TOP, name), encoding="utf-8") as it:
        return it.read()


def differs(what, where, found, wanted):
    """Prints what differs between two pages."""
    global differences
    if found != wanted:
        differences += 1
        if isinstance(found, dict):
            found, wanted = set(found.items()), set(wanted.items())
        if isinstance(found, set):
            extra = sorted(map(str, found - wanted))
            missing = sorted(map(str, wanted - found))
            print(f"{what}: {where} has {', '.join(extra) or 'nothing'} too much and lacks {', '.join(missing) or 'nothing'}")
        else:
            print(f"{what}: {where} has {found}, wanted is {wanted}")


def answered(program, *words):
    """What the program prints for these words, which must end with 0."""
    done = subprocess.run([program, *words], stdin=subprocess.DEVNULL, capture_output=True, text=True, timeout=60)
    if done.returncode != 0 or done.stderr:
        sys.exit(f"{' '.join(('ulfm',) + words)} ended with {done.returncode}: {done.stderr}")
    return done.stdout


def section(text, head):
    """The lines below a head of help, up to an empty line."""
    lines = text.splitlines()
    if head not in lines:
        return []
    below = lines[lines.index(head) + 1:]
    return below[:below.index("")] if "" in below else below


def usage_of(text):
    """The words by which help says that a command is called, without its options."""
    found = re.search(r"^Usage: (.*)$", text, re.M)
    return re.split(r" [\[<-]", found.group(1))[0] if found else ""


def options_of(text):
    """The options that a text names."""
    return set(OPTION.findall(text))


def of_help(text):
    """The options in the section of help that lists them."""
    return {option for line in section(text, "Options:") for option in OPTION.findall(line[:line.find("  ", 8)] if "  " in line[8:] else line)}


def of_bash(commands):
    """What the completion for bash offers at the start, and behind each command."""
    offered = {}
    for command in (TOP_LEVEL, *commands):
        words = ["ulfm", *([command] if command else []), ""]
        script = 'source "$0"; COMP_WORDS=("$@"); COMP_CWORD=$(($# - 1)); _ulfm; printf "%s\\n" "${COMPREPLY[@]}"'
        made = subprocess.run(["bash", "-c", script, os.path.join(TOP, "docs/completions/ulfm.bash"), *words], capture_output=True, text=True)
        offered[command] = set(made.stdout.split())
    return offered


def of_zsh(commands):
    """What the completion for zsh names in the function of each command."""
    offered = {}
    for name, body in re.findall(r"^_ulfm(?:_(\w+))?\(\) \{\n(.*?)^\}$", read("docs/completions/_ulfm"), flags=re.M | re.S):
        listed = re.findall(r"^ +'([a-z]+):", body, re.M) + " ".join(re.findall(r"_values 'command' (.*)", body)).split()
        options = re.findall(r"^ +'(?:\([^)]*\)'\{([-\w,]+)\}|(--\w+)\[)", body, re.M)
        offered[name or TOP_LEVEL] = set(listed) | {option for pair in options for option in (pair[0] or pair[1]).split(",")}
    return offered


def of_fish(commands):
    """What the completion for fish offers."""
    offered = {name: set() for name in (TOP_LEVEL, *commands)}
    for line in read("docs/completions/ulfm.fish").splitlines():
        seen = re.search(r"-n '?(__fish_use_subcommand|__fish_seen_subcommand_from (\w+))'?", line)
        if not seen:
            continue
        rest = re.sub(r"-d '[^']*'", "", line[seen.end():])
        words = offered[seen.group(2) or TOP_LEVEL]
        words |= {f"-{name}" for name in re.findall(r"-s (\w)", rest)} | {f"--{name}" for name in re.findall(r"-l (\w+)", rest)}
        words |= {word for names in re.findall(r"-a '?([\w ]+?)'?(?: |$)", rest) for word in names.split()}
    return offered


def of_man(page, commands):
    """The options that the man page has below each command, and at the top."""
    offered = {}
    below = page.split(".SH COMMANDS\n")[1].split("\n.SH ")[0]
    for part in below.split(".SS ")[1:]:
        name, text = part.split("\n", 1)
        offered[name] = options_of(text.replace("\\-", "-"))
    offered[TOP_LEVEL] = options_of(page.split(".SH OPTIONS\n")[1].split("\n.SH ")[0].replace("\\-", "-")) | set(offered)
    return offered


def calls_of(text):
    """The verbs of call scripts that a page of plain lines lists, each with the words of its replies."""
    text = re.split("With --steps|STEP SCRIPTS", text)[0]
    lines = re.findall(r"^ *((?:fail|get|ack|agree|shrink|barrier|poll|revoke|isrevoked|free|[a-z]+)(?: [RCNF]){1,3})  +(.*(?:\n {14,}\S.*)*)$", text, re.M)
    return {call: replies_of(replies) for call, replies in lines}


def replies_of(text):
    return tuple(sorted(" ".join(reply.split()) for reply in text.split(",")))


def calls_of_formats(text):
    """The same of the table in FORMATS."""
    table = text.split("### Calls and replies")[1].split("\n###")[0]
    calls = {}
    for row in re.findall(r"^\| (`.*) \|$", table, re.M):
        cells = row.split(" | ")
        replies = re.findall(r"`([^`]*)`", cells[2])
        for call in re.findall(r"`([^`]*)`", cells[0]):
            calls[call] = tuple(sorted(replies))
    return calls


def calls_of_guide(text):
    """The same of the table in the guide, whose second cell is the library's call."""
    rows = re.findall(r"^\| `(\w+(?: [RCNF])+)` \| `.*` \| (`.*`) \|$", text, re.M)
    return {call: tuple(sorted(re.findall(r"`([^`]*)`", replies))) for call, replies in rows}


def trace_lines_of(text):
    """The lines of traces that a page of plain lines lists, behind what it says of their header."""
    text = text.split("ulfm-trace 1 RANKS COMMS ROUNDS")[-1].split("ulfm-observed 1")[0]
    return set(re.findall(r"^ *((?:call|look|event|reply) [A-Z][A-Za-z ]*?)(?:  +\S.*)?$", text, re.M))


def trace_lines_of_formats(text):
    table = text.split("### Lines of traces")[1].split("\n###")[0]
    return set(re.findall(r"^\| `((?:call|look|event|reply) [^`]*)` \|", table, re.M))


def log_lines_of(text):
    """The lines of logs that a page of plain lines lists, behind what it says of their header."""
    text = text.split("ulfm-observed 1 RANKS COMMS ROUNDS ORDER FAILURES")[-1]
    return set(re.findall(r"^ *((?:call|reply|lost) [A-Z][A-Z ]*?)(?:  +\S.*)?$", text, re.M))


def log_lines_of_formats(text):
    table = text.split("## Logs of calls and replies")[1].split("\n###")[0]
    return set(re.findall(r"^\| `((?:call|reply|lost) [^`]*)` \|", table, re.M))


def reasons_of(text):
    """The judge's reasons, in order, of a page of plain lines."""
    found = re.search(r"\btext(?: \([^)]*\))?((?:,| or) [a-z]+(?: \([^)]*\))?)+\.", " ".join(text.split()))
    return re.findall(r"[a-z]+", re.sub(r" \([^)]*\)| or\b", "", found.group(0))) if found else []


def reasons_of_formats(text):
    table = text.split("### The judge")[1].split("\n## ")[0].split("| Reason |")[1]
    return re.findall(r"^\| `([a-z]+)` \|", table, re.M)


def trace_limits_of(text):
    """The greatest line of a trace, and how many there may be."""
    plain = " ".join(text.replace(",", "").split())
    return set(re.findall(r"line has at most (\d+) bytes(?: without its newline)? and a trace at most (\d+) lines", plain))


def refusals_of(text):
    """The refusals, each a number and a name, of a page of plain lines, and of the table in FORMATS."""
    return set(re.findall(r"(?:^ *|(?<=, )|(?<=`refused ))(\d+ [a-z]+(?:-[a-z]+)*)(?=,|` \||$)", text, re.M))


def step_words_of(text):
    """The lines of step scripts and the names of steps that a page of plain lines has."""
    text = (re.split("With --steps|STEP SCRIPTS", text) + [""])[1]
    lines = re.findall(r"^ *((?:call X|(?:step|before|finish|fail)(?: [RNK])+))(?:  |$)", text, re.M)
    names = re.search(r"K is one of ([a-z, ]+)\.", " ".join(text.split()))
    return set(lines) | set(names.group(1).split(", ") if names else ())


def step_words_of_formats(text):
    """The same of the tables in FORMATS."""
    part = text.split("## Step scripts, version 1")[1].split("\n## ")[0]
    return set(re.findall(r"^\| `([^`]*)` \|", part, re.M))


def statuses_of(text):
    """The statuses that a page of plain lines lists, each with what standard error says."""
    return set(re.findall(r"^ *([0-3])  (ulfm: [a-z]+(?: [a-zN]+)*(?:: KIND)?)(?:  |$)", text, re.M))


def statuses_of_formats(text):
    return statuses_of_table(text.split("## Exit statuses and standard error")[1])


def statuses_of_table(text):
    """The same of a page's table of statuses."""
    return set(re.findall(r"^\| ([0-3]) \| `([^`]*)` \|", text.split("| Status | Standard error |")[1].split("\n\n")[0], re.M))


def kinds_of_formats(text):
    table = text.split("### Line faults")[1].split("\n## ")[0]
    return [kind for kind in re.findall(r"^\| `([a-z]+)` \|", table, re.M)]


def kinds_of(text):
    found = re.search(r"\bcut, long(?:, [a-z]+)+", " ".join(text.split()).replace(", and with --steps also", ","))
    return found.group(0).split(", ") if found else []


def limits_of_formats(text):
    """The ranges of FORMATS: of the header's words and the race's options, the size, ranks and communicators that are named."""
    plain = text.replace(",", "")
    limits = {name.lower(): span for name, span in re.findall(r"^\| (RANKS|COMMS|ROUNDS) \|.*\| (\d+ to \d+) \|$", plain, re.M)}
    limits |= {option: span for option, span in re.findall(r"^\| `(--ranks|--rounds)`.*\| (\d+ to \d+) \|$", plain, re.M)}
    limits["size"] = re.search(r"is at most (\d+)\.", plain).group(1)
    limits["rank"] = re.search(r"a rank \(at most (\d+)\)", plain).group(1)
    limits["comm"] = re.search(r"a communicator \(at most (\d+)\)", plain).group(1)
    limits["line"] = re.search(r"the line has over (\d+) bytes", plain).group(1)
    limits["lines"] = str(int(re.search(r"this is line (\d+)", plain).group(1)) - 1)
    return limits


def limits_of_guide(text):
    """The same of the table in the guide, without those of single words of a line."""
    rows = re.findall(r"^\| ([a-z].*) \| (\d+ to \d+|at most \d+(?: \d+)?) \|$", text.replace(",", ""), re.M)
    named = {
        "ranks of a world": ("ranks",),
        "communicators of a world": ("comms",),
        "rounds of each sort": ("rounds",),
        "words of a world": ("size",),
        "bytes of a script": ("line", "lines"),
        "bytes of a trace": ("trace line", "trace lines"),
        "ranks of a race": ("--ranks",),
        "rounds of a race": ("--rounds",),
    }
    limits = {}
    for what, span in rows:
        for begin, names in named.items():
            if what.startswith(begin):
                limits |= zip(names, span.removeprefix("at most ").split(" ") if span.startswith("at") else [span])
    return limits


def of_readme(text):
    """The verbs, the ranges of a world and the statuses that README has in a line or two each."""
    plain = " ".join(text.replace(",", "").split())
    verbs = re.search(r"A script's verbs are ((?:`[a-z]+` )+and `[a-z]+`)", plain)
    ranges = re.search(r"a world has (\d+ to \d+) ranks (\d+ to \d+) communicators and (\d+ to \d+) rounds", plain)
    statuses = re.search(r"The exit status is (.*?)\.(?: |$)", plain)
    return (
        set(re.findall(r"`([a-z]+)`", verbs.group(1))) if verbs else set(),
        dict(zip(("ranks", "comms", "rounds"), ranges.groups())) if ranges else {},
        set(re.findall(r"\b(\d)\b", statuses.group(1))) if statuses else set(),
    )


def limits_of(text):
    """The same of a page of plain lines."""
    plain = " ".join(text.replace(",", "").split())
    found = {
        "ranks": r"ranks (1 to \d+)",
        "comms": r"communicators (1 to \d+)",
        "rounds": r"rounds (1 to \d+)",
        "--ranks": r"ranks race (\d+ to \d+)",
        "--rounds": r"they agree (\d+ to \d+)",
        "size": r"is at most (\d+)",
        "rank": r"a rank (?:is )?at most (\d+)",
        "comm": r"a communicator (?:is )?at most (\d+)",
        "line": r"at most (\d+) bytes",
        "lines": r"at most (\d+) lines",
    }
    return {name: match.group(1) for name, match in ((name, re.search(form, plain)) for name, form in found.items()) if match}


def man_as_text(page):
    """The man page without its markup."""
    page = re.sub(r"^\.[A-Z]+ ?", "", page, flags=re.M).replace("\\-", "-").replace('"', "")
    return re.sub(r"\\f[A-Z]", "", page)


def main():
    program = os.path.abspath(sys.argv[1]) if len(sys.argv) > 1 else os.path.join(TOP, "crates/ulfm/out/ulfm")
    top = answered(program, "--help")
    commands = {line.split()[0] for line in section(top, "Commands:")}
    helps = {name: answered(program, name, "--help") for name in sorted(commands - {"help"})}
    differs("usage", "ulfm --help", usage_of(top), "ulfm")
    for name, text in helps.items():
        differs("help", f"ulfm help {name}", answered(program, "help", name), text)
        differs("usage", f"ulfm {name} --help", usage_of(text), f"ulfm {name}")
    wanted = {name: of_help(text) for name, text in helps.items()} | {TOP_LEVEL: commands | of_help(top), "help": set()}
    page = read("docs/ulfm.1")
    formats = read("docs/FORMATS.md")
    for where, offered in (("ulfm.bash", of_bash(commands)), ("_ulfm", of_zsh(commands)), ("ulfm.fish", of_fish(commands)), ("ulfm.1", of_man(page, commands))):
        for name in sorted(wanted):
            words = offered.get(name, set()) - (commands if name == "help" else set())
            differs(f"words behind ulfm {name}", where, words, wanted[name])
    man = man_as_text(page)
    version = answered(program, "--version")
    differs("version", "ulfm.1", f"ulfm {re.search(r'ulfm ([0-9.]+)', page).group(1)}\n", version)
    pages = {"ulfm run --help": helps["run"], "ulfm.1": man}
    for where, text in pages.items():
        differs("calls and replies", where, calls_of(text), calls_of_formats(formats))
        differs("line faults", where, kinds_of(text), kinds_of_formats(formats))
        differs("refusals", where, refusals_of(text), refusals_of(formats))
        differs("step scripts", where, step_words_of(text), step_words_of_formats(formats))
    for where, text in ({"ulfm --help": top, "ulfm.1": man}).items():
        differs("statuses", where, statuses_of(text), statuses_of_formats(formats))
    together = statuses_of(helps["run"]) | statuses_of(helps["race"]) | statuses_of(helps["replay"])
    differs("statuses", "ulfm run --help with ulfm race --help and ulfm replay --help", together, statuses_of_formats(formats))
    limits = limits_of_formats(formats)
    for where, text in {"help": helps["run"] + helps["race"], "ulfm.1": man}.items():
        differs("limits", where, limits_of(text), limits)
    for where, text in {"ulfm check --help": helps["check"], "ulfm.1": man}.items():
        differs("lines of traces", where, trace_lines_of(text), trace_lines_of_formats(formats))
        differs("lines of logs", where, log_lines_of(text), log_lines_of_formats(formats))
        differs("reasons of the judge", where, reasons_of(text), reasons_of_formats(formats))
        differs("limits of traces", where, trace_limits_of(text), trace_limits_of(formats))
    guide, readme = read("docs/GUIDE.md"), of_readme(read("README.md"))
    (longest, most), = trace_limits_of(formats)
    shorter = {name: span for name, span in limits.items() if name not in ("rank", "comm")}
    differs("calls and replies", "docs/GUIDE.md", calls_of_guide(guide), calls_of_formats(formats))
    differs("statuses", "docs/GUIDE.md", statuses_of_table(guide), statuses_of_formats(formats))
    differs("limits", "docs/GUIDE.md", limits_of_guide(guide), shorter | {"trace line": longest, "trace lines": most})
    differs("verbs", "README.md", readme[0], {call.split()[0] for call in calls_of_formats(formats)})
    differs("limits", "README.md", readme[1], {name: limits[name] for name in ("ranks", "comms", "rounds")})
    differs("statuses", "README.md", readme[2], {status for status, _ in statuses_of_formats(formats)} | {"0"})
    for where in ("README.md", "docs/GUIDE.md", "docs/FORMATS.md"):
        named = set(re.findall(r"\bulfm ([a-z]+)(?= (?:<|--|\|)|`|$)", read(where), re.M))
        differs("commands", where, (named & commands) - {"help"}, commands - {"help"})
        for name, rest in re.findall(r"\bulfm (run|race)((?: (?:--[a-z]+|[0-9NKR]+))+)", read(where)):
            differs(f"options of ulfm {name}", where, options_of(rest) - wanted[name], set())
    print("commands: all pages agree" if differences == 0 else f"commands: {differences} differences")
    return 0 if differences == 0 else 1


sys.exit(main())
