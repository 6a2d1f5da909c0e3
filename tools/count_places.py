#!/usr/bin/env python3
"""Lists the places in crates/*/src that the design pass looks at, a heading for each point, and their number.

    python3 tools/count_places.py [TREE]

It goes by text: what it lists is read by a person, who says of each place whether it is one.
"""
import collections
import pathlib
import re
import sys

TREE = pathlib.Path(sys.argv[1] if len(sys.argv) > 1 else ".")
FILES = sorted(TREE.glob("crates/*/src/**/*.rt"))


def code_of(path):
    """The lines of a file without comments."""
    return [re.sub(r"\s*//.*", "", line) for line in path.read_text().split("\n")]


def where(path, number):
    return f"{path.relative_to(TREE / 'crates')}:{number}"


def lines_that(pattern, unless=None):
    found = []
    for path in FILES:
        for number, line in enumerate(code_of(path), 1):
            if re.search(pattern, line) and not (unless and re.search(unless, line)):
                found.append((where(path, number), line.strip()))
    return found


def functions():
    """Each function: its place, name, text from `fn` to `{`, and text of its body."""
    for path in FILES:
        text = "\n".join(code_of(path))
        for match in re.finditer(r"\bfn (\w+)", text):
            at, depth, body = match.start(), 0, None
            i = at
            # a clause stands in braces of its own; the body is the group that begins a line or follows the signature of a one-line head
            while i < len(text):
                c = text[i]
                if c == ";" and depth == 0:
                    break
                if c in "{[(":
                    if c == "{" and depth == 0:
                        line = text[text.rfind("\n", 0, i) + 1 : i]
                        if not re.search(r"\b(ensures|requires)\b", line):
                            body = i
                            break
                    depth += 1
                if c in "}])":
                    depth -= 1
                i += 1
            if body is None:
                yield path, text.count("\n", 0, at) + 1, match.group(1), text[at:i], ""
                continue
            depth, j = 0, body
            while True:
                depth += {"{": 1, "}": -1}.get(text[j], 0)
                j += 1
                if depth == 0:
                    break
            yield path, text.count("\n", 0, at) + 1, match.group(1), text[at:body], text[body:j]


def shape(text):
    """A body with its numbers, texts, types and constants blanked."""
    text = re.sub(r'b?"[^"]*"', "S", text)
    text = re.sub(r"b'[^']*'", "N", text)
    text = re.sub(r"\b(u8|u16|u32|u64|usize)\b", "T", text)
    text = re.sub(r"\b0x[0-9A-Fa-f_]+\b|\b\d[\d_]*(u8|u16|u32|u64|usize)?\b", "N", text)
    text = re.sub(r"\b[A-Z]\w*(::[A-Z]\w*)?", "C", text)
    return re.sub(r"\s+", " ", text).strip()


def twins():
    groups = collections.defaultdict(list)
    for path, number, name, _, body in functions():
        if body.count("\n") >= 2:
            groups[shape(body)].append(f"{where(path, number)} {name}")
    return [("; ".join(places), "") for places in groups.values() if len(places) > 1]


def clauses():
    """Facts that stand in the contracts of three functions or more."""
    seen = collections.defaultdict(set)
    for path, number, name, head, _ in functions():
        for match in re.finditer(r"(?:ensures|requires)(?: \w+)? \{ (.*) \}", head):
            seen[match.group(1)].add(f"{where(path, number)} {name}")
    return [(fact, f"{len(places)} functions") for fact, places in sorted(seen.items(), key=lambda x: -len(x[1])) if len(places) > 2]


def travellers():
    """Three or more parameters, by name and type, that two functions or more take together."""
    heads = {}
    for path, number, name, head, _ in functions():
        head = re.split(r"\b(?:ensures|requires|where)\b|->", head)[0]
        inner = head[head.find("(") + 1 : head.rfind(")")]
        names = frozenset(re.sub(r"'\w+ ", "", " ".join(p.split())) for p in re.split(r",\s*(?![^<]*>)", inner) if ":" in p and "rt:" not in p)
        heads[f"{where(path, number)} {name}"] = names
    groups = collections.defaultdict(set)
    items = list(heads.items())
    for i, (place, names) in enumerate(items):
        for other, others in items[i + 1 :]:
            both = names & others
            if len(both) > 2:
                groups[both] |= {place, other}
    return [(", ".join(sorted(names)), "; ".join(sorted(places))) for names, places in groups.items()]


POINTS = {
    "1a own enums, to be read for the shape of Option or Result": lambda: lines_that(r"^\s*(pub(\(crate\))? )?enum "),
    "1b flags in a struct, a variant or a parameter": lambda: lines_that(r"\b\w+: bool\b"),
    "1c numbers that may stand for a kind or for nothing": lambda: lines_that(r"\b(level|next|taken|device|number): u(8|16|32)\b|-> Result<u16, Refusal>"),
    "1d a Result or Option taken apart where ?, map_err, ok or is_ok would do": lambda: lines_that(r"(Err\((e|error|_)\) => (return )?(Err|false|true|None))|(None => (return )?(None|Err|false|true))|return Err\(\w+Error|(Ok|Some)\(_\) => (true|false)"),
    "2 functions whose bodies differ in a name, a number or a type": twins,
    "3a for over a range of numbers": lambda: lines_that(r"\bfor \w+ in [^{]*\.\."),
    "3b while, loop": lambda: lines_that(r"^\s*(while|loop)\b"),
    "3c for that only counts, finds or tests": lambda: lines_that(r"(\+= 1;|saturating_add\(1\)|\| found;)"),
    "4a comparing, naming and converting by hand": lambda: lines_that(r"fn (same_\w+|\w*_of|of|number|from_\w+|to_\w+|digit)\b|== \"|if \w+ \{ \d+ \} else \{ \d+ \}"),
    "4b bytes of a number by hand": lambda: lines_that(r"% 256\b|/ 256\b|\b256 \*|\* 256\b"),
    "4c casts": lambda: lines_that(r"\bas (u8|u16|u32|u64|usize|char)\b"),
    "4d Display and other impls of the library's traits": lambda: lines_that(r"^\s*impl.* (fmt::Display|FromStr|Error|From<.*>|TryFrom<.*>|PartialEq|Ord|Clone) for "),
    "5a facts in three contracts or more": clauses,
    "5b parameters that travel together": travellers,
    "6a arrays of a fixed size": lambda: lines_that(r"\[[\w.:()]+; [\w *]+\]", r"vec!"),
    "6b a length beside a buffer": lambda: lines_that(r"\b(used|len|count|written|size): usize\b|-> \(usize, usize\)"),
    "7 arms of a match that call a function, closures taken and dyn": lambda: lines_that(r"=> (self\.)?[a-z_]\w*(::<.*>)?\(.*\),?$|\bdyn\b|impl Fn|: Fn(Once|Mut)?\("),
}


def main():
    for point, places in POINTS.items():
        found = places()
        print(f"## {point}: {len(found)}")
        for place, text in found:
            print(f"  {place}  {text}")
    answers = sorted(TREE.glob("crates/*/proofs/**/Answers.antt"))
    count = sum(len(re.findall(r"^pub [^\n:]+ : goal\.", p.read_text(), re.M)) for p in answers)
    print(f"## 8 files of answers: {len(answers)}, with {count} answers")


main()
