#!/usr/bin/env python3
"""Lists places in crates/*/src that an older form of the language may have shaped, by the points of docs/DESIGN-PASS.md.

Run at the top of the repository: tools/places.py [POINT..]. Tests count too. It goes by text, so it finds candidates, and misses what no word shows.
"""
import collections
import glob
import re
import sys

WORDS = {
    1: {
        "enums, to be read by their cases": r"^\s*(pub(\(crate\))? )?enum \w+",
        "a number that says nothing": r"^\s*(pub(\(crate\))? )?fn \w+\(\) -> u\d+",
        "a number for a kind": r"\b(wall|kind|code|mode|tag): (usize|u8|u16|u32|u64)\b",
        "an error turned by hand": r"is_err\(\)|Err\(_\) => (Err|return|\w+::\w+\(\w+::)|Err\(\w+\) => (return|Answer|Plan)",
    },
    3: {
        "while": r"\bwhile\b",
        "a count from a range": r"\bfor \w+ in [^{]*\.\.",
        "a search or a test item by item": r"^\s*return (false|true|Some\(\w+\)|Err\(.*\));$",
    },
    4: {
        "equality or order by fields": r"\.x [!=]= \w+(\(.*\))?\.x|\.y [!=]= \w+(\(.*\))?\.y|fn same_\w+",
        "a conversion by hand": r"\bfn (place|answer|to_\w+|from_\w+|\w+_of)\(self\)|\bfn \w+\(&?self\) -> (Place|Answer)",
        "printing by hand": r"\bfn (render|refused|numbered|add_line|way)\b",
    },
    5: {
        "hall and obstacles side by side": r"hall: &Hall,.*obstacles: &\[|^\s*obstacles: &\[Shape<16>\],$",
        "bytes and a byte's number side by side": r"bytes: &\[u8\],.*(at|from|i): usize",
        "a bound of a side": r"SideNear \d+",
        "a bound of a direction": r"DirectionNear \d+",
        "a bound of a corner": r"CornerNear \d+|EachNear \d+",
        "obstacles of a hall": r"\{ Obstacles \(task_of",
        "a surface that stands": r"\{ Stands \(map",
        "a place of small numbers": r"PlaceNear \(2 \^ 20\)",
    },
    6: {
        "an array filled by number": r"= \[[^\]]*; \w+\];",
        "a count beside a buffer": r"^\s*(pub(\(crate\))? )?(count|len|length): (u8|u16|u32|usize),",
        "numbers for things": r"^\s*(pub )?\w+ \{ \w+: usize, \w+: usize \}",
    },
    7: {
        "a switch on words": r"match \w+ \{\s*$",
    },
}


def sources():
    for name in sorted(glob.glob("crates/*/src/*.rt")):
        with open(name) as file:
            yield name, file.read()


def by_words(point):
    for what, pattern in WORDS.get(point, {}).items():
        found = [
            (name, number, line.strip())
            for name, text in sources()
            for number, line in enumerate(text.split("\n"), 1)
            if re.search(pattern, line) and not line.lstrip().startswith("//")
        ]
        print(f"{point}. {what}: {len(found)}")
        for name, number, line in found:
            print(f"     {name}:{number}: {line[:110]}")


def functions():
    head = re.compile(r"^([ ]*)(?:pub(?:\(crate\))? )?fn (\w+)")
    for name, text in sources():
        lines = text.split("\n")
        for number, line in enumerate(lines):
            found = head.match(line)
            if not found:
                continue
            indent = found.group(1)
            ends = (i for i in range(number, len(lines)) if lines[i] in (indent + "}", indent + "{}"))
            end = next(ends, len(lines) - 1)
            opened = (i for i in range(number, end + 1) if lines[i] == indent + "{" or lines[i].startswith(indent) and lines[i].endswith(" {"))
            start = next(opened, number)
            yield name, found.group(2), "\n".join(lines[start + 1:end])


def skeleton(body):
    names = {}
    kept = []
    for word in re.findall(r"[A-Za-z_]\w*|\d+|[<>=!]=|[<>]|\S", body):
        if re.match(r"[A-Za-z_]", word) and word not in ("for", "in", "if", "else", "match", "return", "let", "mut", "while", "Some", "None", "Ok", "Err"):
            word = names.setdefault(word, f"n{len(names)}")
        elif word.isdigit():
            word = "0"
        elif word in ("<", ">", "<=", ">=", "==", "!="):
            word = "?"
        kept.append(word)
    return " ".join(kept)


def twins():
    groups = collections.defaultdict(list)
    for name, function, body in functions():
        form = skeleton(body)
        if len(form.split()) >= 16:
            groups[form].append(f"{name}: {function}")
    alike = [group for group in groups.values() if len(group) > 1]
    print(f"2. functions whose bodies are alike but for names, numbers and comparisons: {len(alike)} groups")
    for group in alike:
        print("     " + "; ".join(group))


def main():
    points = [int(word) for word in sys.argv[1:]] or [1, 2, 3, 4, 5, 6, 7]
    for point in points:
        if point == 2:
            twins()
        else:
            by_words(point)


main()
