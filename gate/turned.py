"""Must-fail edits: which function of the code each of them turns, and the texts that several make together."""
import os
import re

from crates import read

FUNCTION = re.compile(r"^[ \t]*(?:pub(?:\([^)]*\))?[ \t]+)?(?:const[ \t]+|unsafe[ \t]+|extern[ \t]+\S+[ \t]+)*fn[ \t]+(\w+)", re.M)
BODY = re.compile(r"^[ \t]*(?:\{|(?:pub|fn|const|unsafe|\)).*\{)$", re.M)
USES = re.compile(r"(?:use [^;]*;\s*)+")
IMPL = re.compile(r"^impl\b(.*)$", re.M)
CYCLE = re.compile(r"#\[cycle\b[^\n]*\n(?:[ \t]*(?:#\[|//)[^\n]*\n)*\Z")


class Edit:
    """A must-fail edit: its text, why it is a bad one, whether it changes code, and the function that it turns, or None where that can't be told."""

    def __init__(self, crate, folder, file):
        self.file, self.name = file, os.path.basename(file)
        self.text = read(file)
        self.fault = edited([self.text], folder)[1]
        turned = set() if self.fault else functions_of(self.text, crate, folder)
        self.changes_code = bool(turned)
        self.function = turned.pop() if len(turned) == 1 else None


def edits_of(crate, folder):
    """The edits of a crate, in the order of their names."""
    place = f"{folder}/must-fail"
    names = sorted(it for it in os.listdir(place) if it.endswith(".edit")) if os.path.isdir(place) else []
    return [Edit(crate, folder, f"{place}/{it}") for it in names]


def strays_of(folder):
    """What stands among the edits of a crate and is none, nor a page to be read."""
    place = f"{folder}/must-fail"
    return sorted(it for it in os.listdir(place) if not it.endswith((".edit", ".md"))) if os.path.isdir(place) else []


def pairs_of(text):
    """The pairs of texts of an edit, each with the file that it changes."""
    path, old = "", ""
    for line in text.split("\n"):
        if line.startswith("file: "):
            path = line.removeprefix("file: ").strip()
        elif line.startswith("old: "):
            old = line.removeprefix("old: ")
        elif line.startswith("new:"):
            yield path, old, line.removeprefix("new:").removeprefix(" ")


def edited(texts, folder):
    """The files' texts that these edits make together, by their path in the crate, or why they can't be applied."""
    made = {}
    for path, old, new in (pair for text in texts for pair in pairs_of(text)):
        if path not in made:
            if os.path.normpath(path) != path or not path.startswith(("src/", "specs/", "proofs/")) or not os.path.isfile(f"{folder}/{path}"):
                return {}, f"there is no file {path} below src/, specs/ or proofs/"
            made[path] = read(f"{folder}/{path}")
        count = made[path].count(old) if old else 0
        if count != 1:
            return {}, f"an 'old:' text is in {path} {count} times, and not once"
        made[path] = made[path].replace(old, new)
    return made, "" if made else "it has no 'old:' and 'new:' pair"


def functions_of(text, crate, folder):
    """The functions whose code the edit turns, each by the name that the prover gives it, with None for code outside one. A pair that only sets spaces
    or brackets turns nothing: it is there so that another pair's text stands once. Nor does one that only names what is used, or that changes a contract."""
    found, texts = set(), {}
    for path, old, new in pairs_of(text):
        before = texts.setdefault(path, read(f"{folder}/{path}"))
        is_used = all(USES.fullmatch(it) for it in (old, new))
        if path.startswith("src/") and bare(old) != bare(new) and not is_used:
            found |= code_at(before, before.find(old) + len(old), path, crate)
        texts[path] = before.replace(old, new)
    return found


def bare(text):
    """The text without spaces and round brackets."""
    return re.sub(r"[\s()]", "", text)


def code_at(text, at, path, crate):
    """The function whose body holds the place, by crate, module and name, or by crate, type and name, as `laws::BodyMeld::meld`; None outside a
    function and in one of a cycle, whose functions have one proof; and nothing in a contract."""
    heads = [it for it in FUNCTION.finditer(text) if it.start() < at]
    if not heads:
        return {None}
    head = heads[-1]
    indent = re.match(r"[ \t]*", head[0])[0]
    if re.search(rf"^{indent}\}}", text[head.end() : at], re.M):
        return {None}
    body = BODY.search(text, head.start())
    if body and at < body.end():
        return set()
    if CYCLE.search(text[: head.start()]):
        return {None}
    owner = [it for it in IMPL.finditer(text) if it.start() <= head.start()] if indent else []
    module = path.removeprefix("src/").removesuffix(".rt").split("/")
    module = [] if module in (["lib"], ["main"]) else [it for it in module if it != "mod"]
    return {"::".join([crate, *([type_of(owner[-1][1])] if owner else module), head[1]])}


def type_of(head):
    """The name that the prover gives an impl: its type, and behind it its trait where it has one."""
    head = re.sub(r"\bwhere\b.*", "", head)
    while re.search(r"<[^<>]*>", head):
        head = re.sub(r"<[^<>]*>", "", head)
    names = [it.strip(" {&").split("::")[-1].split()[-1] for it in head.split(" for ")]
    return "".join(reversed(names))
