#!/usr/bin/env python3
"""Compares ulfm.h with what the library exports: no compiler does, since the two sides never meet in one.

Of each export of crates/ulfm_c the name, the parameters' types in their order and the result; the reply's fields; the codes with the refusals'
numbers and the crate's own; the greatest limits; the version. exports.txt names what ulfm.h declares, and the archive shows nothing else.

    test/header.py [CRATE]      the last line is 'N passed, M failed'
"""
import os
import re
import subprocess
import sys

C = os.path.dirname(os.path.dirname(os.path.abspath(__file__)))
TOP = os.path.dirname(C)
CRATE = os.path.abspath(sys.argv[1]) if sys.argv[1:] else os.path.join(TOP, "crates/ulfm_c")
# what a parameter or a result of an export is in C; `Global` takes no bytes
IN_C = {
    "Global": [],
    "bool": ["bool"],
    "i32": ["int"],
    "u16": ["uint16_t"],
    "u32": ["uint32_t"],
    "u64": ["uint64_t"],
    "Flag": ["ulfm_flag"],
    "&mut Handle": ["ulfm_handle *"],
    "&mut [Handle]": ["ulfm_handle *", "size_t"],
    "&mut PolledReply": ["ulfm_reply *"],
    "&mut [u16]": ["uint16_t *", "size_t"],
    "&mut u16": ["uint16_t *"],
    "&mut u32": ["uint32_t *"],
    "&mut u64": ["uint64_t *"],
    "&mut i32": ["int *"],
    "&mut EntryBytes": ["ulfm_entry *"],
    "&EntryBytes": ["ulfm_entry *"],
    "&mut usize": ["size_t *"],
    "&mut bool": ["bool *"],
}
# of each refusal and fault the code in C, where their names differ
CODES = {
    "NoSuchComm": "COMM",
    "IsRevoked": "REVOKED",
    "NoSuchRank": "RANK",
    "OutOfMemory": "NO_MEM",
    "NO_HANDLE": "HANDLE",
    "WRONG_COUNT": "COUNT",
}
# what the header declares beside the exports: these are in C
BESIDE = {"ulfm_strerror", "ulfm_failure_entry", "ulfm_shared_size", "ulfm_open_shared", "ulfm_forget_shared"}
# codes of the header alone
OWN_CODES = {"PENDING"}
results = []


def same(what, found, wanted):
    results.append(found == wanted)
    if found != wanted:
        print(f"{what}: {found} and not {wanted}")


def read(*path):
    with open(os.path.join(*path), encoding="utf-8") as it:
        return it.read()


def plain(text):
    """C or Rattle without comments, each stretch of white space one space."""
    return " ".join(re.sub(r"/\*.*?\*/|//[^\n]*", " ", text, flags=re.S).split())


def spelled(kind):
    kind = " ".join(kind.replace("*", " * ").split()).removeprefix("const ")
    return kind.replace(" *", " *").strip()


def declared(header):
    """Of each prototype its result and its parameters' types."""
    found = {}
    for result, name, parameters in re.findall(r"(?<=[;{}] )((?:const )?\w+ \*?) ?(ulfm_\w+)\(([^()]*)\)(?: ULFM_NONNULL)?(?=;)", header):
        kinds = [spelled(re.sub(r"\w+$", "", it.strip())) for it in parameters.split(",")]
        found[name] = (spelled(result), kinds)
    return found


def exported(sources):
    found = {}
    for name, parameters, result in re.findall(r'pub extern "C" fn (\w+)\( ?([^()]*?),? ?\) -> (\w+)', sources):
        kinds = [it.split(": ", 1)[1].strip() for it in parameters.split(", ")]
        found[name] = (IN_C[result][0], [c for kind in kinds for c in IN_C[kind]])
    return found


def main():
    raw = read(C, "ulfm.h")
    code = plain(re.sub(r"^\s*#.*$", ";", raw.replace('extern "C" {', ""), flags=re.M))
    files = sorted(os.listdir(os.path.join(CRATE, "src")))
    sources = plain("\n".join(read(CRATE, "src", it) for it in files if it.endswith(".rt")))

    prototypes = declared("; " + code)
    exports = exported(sources)
    flag = re.search(r"typedef (\w+) ulfm_flag;", code).group(1)
    same("the width of a flag", flag, IN_C[re.search(r"pub type Flag = (\w+);", sources).group(1)][0])
    # a flag is a number of its width, however it is named
    by_width = lambda kinds: [flag if it == "ulfm_flag" else it for it in kinds]
    results.append(len(exports) >= 12)
    same("names in ulfm.h", sorted(set(prototypes) - BESIDE), sorted(exports))
    for name in sorted(set(exports) & set(prototypes)):
        result, kinds = exports[name]
        same(name, (prototypes[name][0], by_width(prototypes[name][1])), (result, by_width(kinds)))

    in_c = re.search(r"struct ulfm_reply \{([^}]*)\}", code).group(1)
    in_rattle = re.search(r"pub struct PolledReply \{([^}]*)\}", sources).group(1)
    fields = [tuple(reversed(it.split())) for it in in_c.strip(" ;").split("; ")]
    wanted = [tuple(it.removeprefix("pub ").split(": ")) for it in in_rattle.strip(" ,").split(", ")]
    same(
        "the reply's fields",
        [(name, *by_width([kind])) for name, kind in fields],
        [(name, *by_width(IN_C[kind])) for name, kind in wanted],
    )

    codes = {name: int(number) for name, number in re.findall(r"ULFM_ERR_(\w+) = (\d+)", code)}
    refusals = re.findall(r"Refusal::(\w+) => (\d+),", plain(read(TOP, "crates/ulfm_model/src/refusal.rt")))
    own = re.findall(r"pub const (\w+): i32 = (\d+);", sources)
    upper = lambda name: CODES.get(name, re.sub(r"(?<=[a-z])(?=[A-Z])", "_", name).upper())
    same("codes", {name: number for name, number in codes.items() if name not in OWN_CODES}, {upper(name): int(number) for name, number in refusals + own})
    kinds = {name: int(number) for name, number in re.findall(r"\bULFM_(PENDING|AGREED|SHRUNK|DONE|IDLE|WANTS|ANSWERED|LEFT_OUT|TAKEN|OWN) = (\d+)", code)}
    numbered = re.findall(r"pub const (\w+): u32 = (\d+);", sources) + [(upper(name), number) for name, number in re.findall(r"Fed::(\w+) => (\d+),", sources)]
    same("kinds", kinds, {name: int(number) for name, number in numbered})

    limits = {name: int(number) for name, number in re.findall(r"#define ULFM_(MAX_\w+) (\d+)", raw)}
    same("limits", limits, {name: int(number.replace("_", "")) for name, number in re.findall(r"pub const (MAX_\w+): \w+ = ([\d_]+);", read(TOP, "crates/ulfm_model/src/limits.rt"))})

    version = re.search(r'#define ULFM_VERSION "([^"]*)"', raw).group(1)
    same("version", ".".join(re.findall(r"#define ULFM_VERSION_(?:MAJOR|MINOR|PATCH) (\d+)", raw)), version)
    same("version of the Makefile", re.search(r"^VERSION = (.*)$", read(C, "Makefile"), re.M).group(1), version)
    same("version of the program", re.search(r'"ulfm ([0-9.]+)"', read(TOP, "docs/ulfm.1")).group(1), version)

    # what pages and examples call is there: the exports, and the header's own functions in C
    there = set(prototypes) | set(re.findall(r"static inline \w+ (ulfm_\w+)\(", code))
    examples = [f"c/examples/{it}" for it in ("first.c", "ranks.h", "recovery.c", "loop.c", "processes.c", "store.c", "ulfm.rs")]
    drivers = [f"c/drivers/{it}" for it in sorted(os.listdir(os.path.join(C, "drivers")))]
    for page in ("docs/C.md", "docs/STORE.md", "c/ulfm.3", *examples, *drivers):
        same(f"calls of {page}", sorted(set(re.findall(r"\b(ulfm_\w+)\(", read(TOP, page))) - there), [])

    same("exports.txt", read(C, "exports.txt").split(), sorted(prototypes))
    symbols = subprocess.run(["nm", "-g", "--defined-only", os.path.join(C, "out/libulfm.a")], capture_output=True, text=True, check=True).stdout
    same("symbols of the archive", sorted(re.findall(r"^\w+ \w (\S+)$", symbols, re.M)), sorted(prototypes))
    print(f"{results.count(True)} passed, {results.count(False)} failed")
    return int(not all(results))


if __name__ == "__main__":
    sys.exit(main())
