#!/usr/bin/env python3
"""Lists the places in src/ that docs/DESIGN-PASS.md counts, point by point.

    python3 tools/design_places.py [COMMIT] [--list]

Without a commit it reads the files as they stand. It prints a count for each kind of place, and
with --list each place too. It goes by text, so it finds places that are fine as they are: the page
says of each kind what was changed and what was kept.
"""
import re
import subprocess
import sys
from collections import Counter, defaultdict

ARGS = [a for a in sys.argv[1:] if not a.startswith("--")]
LIST = "--list" in sys.argv


def sources():
    """Each .rt file of src/: its path and its text."""
    if ARGS:
        names = subprocess.run(
            ["git", "ls-tree", "-r", "--name-only", ARGS[0], "crates"],
            capture_output=True, text=True, check=True).stdout.split("\n")
        read = lambda n: subprocess.run(
            ["git", "show", f"{ARGS[0]}:{n}"], capture_output=True, text=True, check=True).stdout
    else:
        names = subprocess.run(
            ["git", "ls-files", "crates"], capture_output=True, text=True, check=True).stdout.split("\n")
        read = lambda n: open(n).read()
    for name in names:
        if "/src/" in name and name.endswith(".rt"):
            yield name, read(name)


FILES = list(sources())
PATTERNS = [
    ("1a enums (of these, the shape of Option or Result is for the reader to see)", r"^\s*(pub )?enum "),
    ("1b a flag in a type or among parameters", r"\b[a-z_]+: bool\b"),
    ("1c numbers for kinds", r"fn from_number|fn of\(byte|\b(kind|sweep): u(8|32)\b|\bnumber: u32\b|\.number =="),
    ("1d arms that only unwrap or pass on",
     r"^\s*(Ok|Some)\((\w+)\) => (Ok\(|Some\()?\2\)?,$|^\s*Err\((_|\w+)\) => (None|0|false|Err\(.*|return Err\(.*),$|^\s*None => (None|0|false|return .*),$"),
    ("1e let-else that only gives up with None, false or 0", None),
    ("3a loops over a range whose number indexes something", None),
    ("3b other loops over a range of numbers", None),
    ("3c loops that only look for the first or ask of all", None),
    ("3d while and loop", r"^\s*('\w+: )?(while |loop \{|let \w+ = '\w+: loop)"),
    ("4a conversions, equality, printing by hand",
     r"^\s*(pub )?fn (\w+_of|from_\w+|of|sense_named|\w+_answer|eq|cmp|clone|default)(<[^>]*>)?\("),
    ("6a arrays with a length beside them", None),
    ("7a a step chosen by a number or a flag", r"match (sweep|number|call\.kind|kind) \{|if full \{|\bvoid: bool,$"),
]


def lines_like(pattern):
    found = []
    for name, text in FILES:
        for i, line in enumerate(text.split("\n"), 1):
            if re.search(pattern, line) and not line.strip().startswith("//"):
                found.append(f"{name}:{i}: {line.strip()}")
    return found


def matches(pattern, flags=0):
    """Each match of a pattern over whole files: its file and line, and the match."""
    for name, text in FILES:
        for m in re.finditer(pattern, text, flags):
            yield f"{name}:{text[:m.start()].count(chr(10)) + 1}", m


def giving_up():
    """`let .. else { return None; }` and the like: `?`, `ok()` or a method says the same."""
    pattern = r"let (Ok|Some)\([^;{]*else \{\s*return (None|false|0|Err\(\w+::\w+\));\s*\};"
    return [f"{place}: {' '.join(m.group(0).split())}" for place, m in matches(pattern)]


def block_end(rows, first, indent):
    """The row of the bracket that closes the block which opens at a row."""
    return next((i for i in range(first + 1, len(rows)) if rows[i].rstrip() == indent + "}"), len(rows))


def loops():
    """Each `for`: its place, its head, its variable and its body (by indentation)."""
    for name, text in FILES:
        rows = text.split("\n")
        for i, row in enumerate(rows):
            m = re.match(r"^(\s*)for (.+?) in (.*) \{$", row)
            if not m:
                continue
            end = block_end(rows, i, m.group(1))
            yield f"{name}:{i + 1}: {row.strip()}", m.group(2), m.group(3), "\n".join(rows[i + 1:end])


def range_loops(indexing):
    """Loops over a range: those whose number stands in brackets or is handed to a look-up, or the others."""
    found = []
    for place, var, over, body in loops():
        if ".." not in over or "[.." in over or re.search(r"\w\[", over):
            continue
        uses = re.search(r"\[[^\]]*\b%s\b[^\]]*\]|\.(get|get_mut|cell|tally|show|set_cell)\(%s\b" % (re.escape(var), re.escape(var)), body)
        if bool(uses) == indexing:
            found.append(place)
    return found


def searches():
    """Loops that do no more than test and return, or leave."""
    return [place for place, _var, _over, body in loops()
            if re.fullmatch(r"\s*if [^;{}]*\{\s*return [^;]*;\s*\}\s*", body)]


def arrays_with_length():
    """Structs with an array field and a number of how much of it is in use."""
    return [f"{place}: {m.group(1)}" for place, m in matches(r"struct (\w+)[^{;]*\{(.*?)\n\s*\}", re.S)
            if re.search(r"\b(len|levels|states): (usize|u8)", m.group(2)) and re.search(r": \[", m.group(2))]


def functions():
    """Each function: where, its name, its head and its body (by indentation)."""
    for name, text in FILES:
        rows = text.split("\n")
        for i, row in enumerate(rows):
            m = re.match(r"^(\s*)(?:pub(?:\([a-z]+\))? )?(?:extern \"C\" )?fn (\w+)", row)
            if not m or row.rstrip().endswith(";"):
                continue
            end = block_end(rows, i, m.group(1))
            whole = "\n".join(rows[i:end + 1])
            cut = whole.find("\n" + m.group(1) + "{\n")
            if cut < 0:
                cut = whole.find("{\n")
            yield f"{name}:{i + 1}", m.group(2), whole[:cut], whole[cut:]


FUNCTIONS = list(functions())


def shape(body):
    """The body with every name and number made the same."""
    body = re.sub(r"//.*", "", body)
    tokens = re.findall(r"[A-Za-z_]\w*|\d[\w.]*|\"[^\"]*\"|'[^']*'|[^\s\w]", body)
    words = {"fn", "let", "mut", "if", "else", "match", "for", "in", "return", "loop", "break", "Some", "None",
             "Ok", "Err", "as", "self", "while", "continue", "move", "ref"}
    return " ".join(t if t in words or not re.match(r"[\w\"']", t) else "x" for t in tokens)


def twins():
    """Functions whose bodies have one shape, three statements long or more."""
    by = defaultdict(list)
    for place, fn, _head, body in FUNCTIONS:
        s = shape(body)
        if len(s.split()) >= 24:
            by[s].append(f"{place} {fn}")
    return [", ".join(group) for group in by.values() if len(group) > 1]


def clauses():
    """Facts that three or more functions require, word for word but for the names before `.`."""
    by = defaultdict(list)
    for place, fn, head, _body in FUNCTIONS:
        for m in re.finditer(r"requires(?: \w+)? \{ (.*) \}", head):
            by[m.group(1)].append(f"{place} {fn}")
    return [f"{len(v)} times: {k}" for k, v in by.items() if len(v) > 2]


def travelling():
    """Two or more parameters that come together in three or more functions (allocator and workspace left out)."""
    by = defaultdict(set)
    for place, fn, head, _body in FUNCTIONS:
        inside = re.search(r"\((.*)\)", re.sub(r"\s+", " ", head.split("requires")[0].split("ensures")[0]))
        if not inside or "trials/" in place:
            continue
        params = [p.strip() for p in re.split(r", (?=\w+: )", inside.group(1)) if ":" in p]
        names = sorted({p.split(":")[0].replace("mut ", "").strip() for p in params} - {"heap", "workspace", "rt", "f"})
        for i, a in enumerate(names):
            for b in names[i + 1:]:
                by[(a, b)].add(f"{place} {fn}")
    return [f"{len(v)} functions: {a}, {b}" for (a, b), v in sorted(by.items(), key=lambda kv: -len(kv[1])) if len(v) > 2]


def show(title, found):
    print(f"{len(found):4}  {title}")
    if LIST:
        for place in found:
            print(f"        {place}")


for title, pattern in PATTERNS:
    if title.startswith("1e"):
        show(title, giving_up())
    elif title.startswith("3a"):
        show(title, range_loops(True))
    elif title.startswith("3b"):
        show(title, range_loops(False))
    elif title.startswith("3c"):
        show(title, searches())
    elif title.startswith("6a"):
        show(title, arrays_with_length())
    else:
        show(title, lines_like(pattern))
    if title.startswith("1e"):
        show("2a functions whose bodies have one shape (groups)", twins())
    if title.startswith("4a"):
        show("5a facts that three or more functions require", clauses())
        show("5b parameters that travel together", travelling())
