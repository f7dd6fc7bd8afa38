#!/usr/bin/env python3
"""Tests `ulfm draw`: pictures kept in docs/pictures, byte for byte; generated traces, legal and changed; and, where Chromium is installed, how
three pictures look.

    gate/draw_test.py [--keep] [--traces N] [PROGRAM]

PROGRAM is crates/ulfm/out/ulfm, if it isn't given. `--keep` writes the pictures and text forms of docs/pictures anew. Of each generated trace the
picture is read by a parser that isn't ours, and has a title for each row; the text form without its columns is the trace, up to its bad line; and
both say the verdict that `ulfm check` prints. On a pseudo-terminal the text form is compared with what `gate/drawn_rows.py` makes by the rules. The last line is 'N passed, M failed'.
"""
import argparse
import html
import os
import pty
import random
import re
import shutil
import struct
import subprocess
import sys
import tempfile
import tty
from xml.etree import ElementTree

TOP = os.path.dirname(os.path.dirname(os.path.realpath(__file__)))
sys.path.insert(0, os.path.join(TOP, "bench"))
from fuzz import changed, script  # noqa: E402
from traces import pending, shrinks  # noqa: E402
from checks import ends_counted, holds  # noqa: E402
from drawn_rows import drawn  # noqa: E402

PICTURES = os.path.join(TOP, "docs/pictures")
SVG = "{http://www.w3.org/2000/svg}"
LOOKS = ("recovery_of_three.svg", "late_arrival.svg", "sixty_four_ranks.svg")
# Texts of one picture whose boxes meet, and what lies outside the picture.
MEASURE = """<!doctype html><meta charset=utf-8><body style="margin:0">%s<script>
const texts = [...document.querySelectorAll('text')].filter(t => t.textContent.trim());
const boxes = texts.map(t => t.getBBox()), met = [], out = [];
const svg = document.querySelector('svg'), width = +svg.getAttribute('width'), height = +svg.getAttribute('height');
for (let i = 0; i < boxes.length; i++) {
  const a = boxes[i];
  if (a.x < 0 || a.y < 0 || a.x + a.width > width || a.y + a.height > height) out.push(texts[i].textContent);
  for (let j = i + 1; j < boxes.length; j++) {
    const b = boxes[j];
    if (a.x < b.x + b.width && b.x < a.x + a.width && a.y + 3 < b.y + b.height - 3 && b.y + 3 < a.y + a.height - 3)
      met.push(texts[i].textContent + ' | ' + texts[j].textContent);
  }
}
document.body.innerHTML = '<pre>' + [texts.length, met.length, out.length, ...met, ...out].join('\\n') + '</pre>';
</script>"""


def ran(program, text, *words):
    """Output, status and what is told, for these words over a text."""
    done = subprocess.run([program, *words], input=text, capture_output=True, timeout=120)
    return done.stdout, done.returncode, done.stderr


def without_columns(sheet):
    """Of each line what stands behind its first tab, and nothing of a line that has none: what `cut -s -f 2-` prints."""
    return b"".join(line.split(b"\t", 1)[1] for line in sheet.splitlines(keepends=True) if b"\t" in line)


def own_lines(text, verdict):
    """The lines of a trace that are drawn as its own."""
    if verdict == b"legal\n":
        return text
    lines = text.split(b"\n")[: int(verdict.split()[2]) - 1]
    return b"".join(line + b"\n" for line in lines)


def fits(program, text):
    """Whether both forms of a trace are as they must be, or what is wrong."""
    verdict, status, _ = ran(program, text, "check")
    picture, drawn, told = ran(program, text, "draw")
    if (drawn, told) != (status, b""):
        return f"status {drawn}, told {told}"
    root = ElementTree.fromstring(picture)
    titles = [it.text for it in root.iter(SVG + "title")]
    rows = own_lines(text, verdict).count(b"\n")
    wanted = 1 if rows == 0 and verdict != b"legal\n" else rows + (verdict != b"legal\n")
    last = [it.text for it in root.iter(SVG + "text")][-1]
    if root.get("role") != "img" or len(titles) != wanted or not all(titles) or last.encode() != verdict:
        return f"{len(titles)} titles for {wanted}, last words {last!r}"
    if any(re.search(r"[a-z]:/|href|script|\bon[a-z]+=", html.unescape(ElementTree.tostring(it).decode()).replace(SVG[1:-1], "")) for it in root.iter()):
        return "a link or a script"
    for words in (("draw", "--text"), ("draw", "--text", "--ascii")):
        sheet, drawn, _ = ran(program, text, *words)
        if drawn != status or without_columns(sheet) != own_lines(text, verdict) or not sheet.endswith(b"\n" + verdict):
            return f"{' '.join(words)} doesn't give the trace back"
    return ""


def traces(program, count, rng):
    """So many traces: of random step scripts, of many ranks, and with changes."""
    while count > 0:
        count -= 1
        if rng.random() < 0.02:
            made = rng.choice([pending, shrinks])(rng.randrange(20, 300), rng.choice([2, 3, 8, 9, 20, 64, 65]))
            text = ("\n".join(made) + "\n").encode()
        else:
            text, _, _ = ran(program, script(rng, "steps"), "run", "--steps")
        yield changed(rng, text) if rng.random() < 0.5 else text


def kept(program, keep):
    """Compares each picture and each text form that is kept with what the program draws of its trace."""
    for name in sorted(os.listdir(PICTURES)):
        if not name.endswith(".trace"):
            continue
        text = open(os.path.join(PICTURES, name), "rb").read()
        for end, words in ((".svg", ("draw",)), (".txt", ("draw", "--text"))):
            file = os.path.join(PICTURES, name[: -len(".trace")] + end)
            shown, _, _ = ran(program, text, *words)
            if keep:
                open(file, "wb").write(shown)
            holds(f"{file} is what the program draws", os.path.exists(file) and open(file, "rb").read() == shown)


def on_terminal(program, text, words, variables):
    """What is printed on a terminal, for these words over a text, with these variables and no others."""
    ours, its = pty.openpty()
    tty.setraw(its)
    process = subprocess.Popen([program, *words], stdin=subprocess.PIPE, stdout=its, stderr=subprocess.DEVNULL, env=variables)
    os.close(its)
    process.stdin.write(text)
    process.stdin.close()
    printed = b""
    while True:
        try:
            piece = os.read(ours, 65536)
        except OSError:  # the terminal's other end was closed
            piece = b""
        if not piece:
            break
        printed += piece
    os.close(ours)
    process.wait(timeout=120)
    return printed


def looks_right(program):
    """The text form, on a terminal of each kind and beside one, is what the rules say, byte for byte."""
    utf8 = {"TERM": "xterm-256color", "LC_ALL": "C.UTF-8"}
    kinds = (
        ("colours", (), utf8),
        ("colours", (), {"TERM": "xterm-256color", "LANG": "en_US.UTF-8", "NO_COLOR": ""}),
        ("colours", (), {"TERM": "xterm", "LC_ALL": "", "LC_CTYPE": "de_DE.utf8", "LANG": "C"}),
        ("boxes", (), utf8 | {"NO_COLOR": "1"}),
        ("ascii", ("--ascii",), utf8),
        ("ascii", (), utf8 | {"TERM": "dumb"}),
        ("ascii", (), {"TERM": "xterm-256color", "LC_ALL": "C", "LANG": "en_US.UTF-8"}),
        ("ascii", (), {"TERM": "xterm-256color"}),
    )
    for name in ("recovery_of_three", "late_arrival", "mark_comes_first", "decision_of_nobody", "revoked_between_loads", "illegal_reply"):
        text = open(os.path.join(PICTURES, name + ".trace"), "rb").read()
        verdict = ran(program, text, "check")[0].decode()
        for looks, words, variables in kinds:
            found = on_terminal(program, text, ("draw", "--text", *words), variables)
            holds(f"{name} on a terminal with {variables} and {words} is drawn in {looks}", found == drawn(text, verdict, looks))
        holds(f"{name} into a pipe is drawn in ASCII", ran(program, text, "draw", "--text")[0] == drawn(text, verdict, "ascii"))


def same_as_examples():
    """The traces of the worked step scripts are what their scripts give."""
    for script_file in sorted(os.listdir(os.path.join(TOP, "examples"))):
        name, end = os.path.splitext(script_file)
        trace = os.path.join(PICTURES, name + ".trace")
        if end == ".steps" and not name.startswith("step_faults"):
            out = open(os.path.join(TOP, "examples", name + ".out"), "rb").read()
            holds(f"{trace} is examples/{name}.out", os.path.exists(trace) and open(trace, "rb").read() == out)


def colours(css, base=()):
    """The colours of a style, by selector and property."""
    found = dict(base)
    for selectors, body in re.findall(r"([^{}]+)\{([^}]*)\}", css):
        for selector in selectors.split(","):
            for name, value in re.findall(r"(fill|stroke):(#[0-9a-f]+)", body):
                found[selector.strip(), name] = value
    return found


def contrast(one, other):
    """The contrast of two colours, as the guidelines for accessible pages define it."""
    def luminance(colour):
        digits = colour[1:] if len(colour) == 7 else "".join(digit * 2 for digit in colour[1:])
        parts = [int(digits[at : at + 2], 16) / 255 for at in (0, 2, 4)]
        red, green, blue = (part / 12.92 if part <= 0.03928 else ((part + 0.055) / 1.055) ** 2.4 for part in parts)
        return 0.2126 * red + 0.7152 * green + 0.0722 * blue

    low, high = sorted((luminance(one), luminance(other)))
    return (high + 0.05) / (low + 0.05)


def stands_out():
    """Each text stands out from each ground that it may stand on by 4.5, in light and in dark."""
    picture = open(os.path.join(PICTURES, LOOKS[0]), encoding="utf-8").read()
    light, dark = re.search(r"<style>(.*?)</style>", picture, re.S).group(1).split("@media (prefers-color-scheme:dark){")
    day = colours(light)
    for name, found in (("light", day), ("dark", colours(dark, day))):
        for (selector, what), colour in sorted(found.items()):
            if selector.startswith("text") and what == "fill":
                for ground in (".bg", ".row", ".fog") + ((".why",) if selector in ("text.w", "text.i") else ()):
                    ratio = contrast(colour, found[ground, "fill"])
                    holds(f"{name}: {selector} on {ground}: {ratio:.2f}", ratio >= 4.5)


def browser():
    return shutil.which("chromium") or shutil.which("chromium-browser") or shutil.which("google-chrome")


def looked(chromium, folder, name):
    """A screenshot of a picture has its size, and no text of it runs over another or out of the picture."""
    picture = open(os.path.join(PICTURES, name), encoding="utf-8").read()
    width, height = map(int, re.search(r'width="(\d+)" height="(\d+)"', picture).groups())
    common = [chromium, "--headless", "--no-sandbox", "--disable-gpu", "--hide-scrollbars", f"--user-data-dir={folder}/profile"]
    shot = os.path.join(folder, name + ".png")
    subprocess.run([*common, f"--window-size={width},{height}", f"--screenshot={shot}", "file://" + os.path.join(PICTURES, name)], capture_output=True, timeout=120)
    size = struct.unpack(">II", open(shot, "rb").read(24)[16:]) if os.path.exists(shot) else None
    holds(f"{name}: the screenshot has the size {width} by {height}, found {size}", size == (width, height))
    page = os.path.join(folder, "page.html")
    open(page, "w", encoding="utf-8").write(MEASURE % picture)
    dumped = subprocess.run([*common, "--dump-dom", "file://" + page], capture_output=True, timeout=120, text=True).stdout
    found = re.search(r"<pre>(.*?)</pre>", dumped, re.S)
    told = found.group(1).split("\n") if found else ["0", "?", "?"]
    holds(f"{name}: of {told[0]} texts {told[1]} meet and {told[2]} lie outside: {told[3:6]}", int(told[0]) > 20 and told[1:3] == ["0", "0"])


def main():
    options = argparse.ArgumentParser()
    options.add_argument("--keep", action="store_true")
    options.add_argument("--traces", type=int, default=2000)
    options.add_argument("program", nargs="?", default=os.path.join(TOP, "crates/ulfm/out/ulfm"))
    asked = options.parse_args()
    program, rng = os.path.abspath(asked.program), random.Random(20)
    same_as_examples()
    kept(program, asked.keep)
    stands_out()
    looks_right(program)
    verdicts = {True: 0, False: 0}
    for text in traces(program, asked.traces, rng):
        wrong = fits(program, text)
        verdicts[ran(program, text, "check")[1] == 0] += 1
        holds(f"{wrong}: {text[:300]!r}", not wrong)
    print(f"{verdicts[True]} legal traces and {verdicts[False]} others were drawn")
    if browser():
        with tempfile.TemporaryDirectory() as folder:
            for name in LOOKS:
                looked(browser(), folder, name)
    else:
        print("no Chromium is installed: how pictures look is left out")
    ends_counted()


if __name__ == "__main__":
    main()
