#!/usr/bin/env python3
"""Brings the names of the repository's own definitions and lemmas to the spelling of today's library:
a type, a fact or a record is UpperCamel (Same-cells becomes SameCells), everything else is snake_case
(byte-kind becomes byte_kind). It also names a
trait's ghost member by the type parameter that it belongs to in a clause of generic code (kind becomes W.kind, meaning
becomes A.meaning). Run once, after the toolchain's own port.py, at the top of the repository:

    python3 tools/respell_names.py [--dry]

Names of goals (returns-then-x, loop-i-preserved, ..) and of the library keep theirs: only a name that a file of
specs/ or proofs/ declares, or binds, is turned. In comments and pages a name is turned between backticks alone.
"""
import os
import re
import sys

TOKEN = r"(?<![\w'«-])[A-Za-z][\w']*(?:-[\w']+)+(?![\w'-])"
# names that would fall together with another: FirstRefusal is a struct of the code, bit_and and the like are the library's
TAKEN = {"First-refusal": "FirstRefusalIn", "bit-and": "bit_of_and", "bit-or": "bit_of_or", "bit-xor": "bit_of_xor"}
# what the check itself names in a proof file; no definition or lemma of the repository is spelled so
MADE = re.compile(r"^(returns|loop|invariant|decreases|in|if|then|else|overflow|bounds|slice_bounds|index|type|left)-|-(requires|init|preserved|test|smaller)(-|$)")


def files(root):
    for folder, dirs, names in os.walk(root):
        dirs[:] = sorted(d for d in dirs if d not in ("out", "target", ".git"))
        for name in sorted(names):
            if name.endswith((".rt", ".antt", ".edit", ".md")):
                yield os.path.join(folder, name)


def is_goal_file(path):
    return os.path.basename(path) in ("Answers.antt", "Invariants.antt", "Choices.antt")


def declared(text, goal_file):
    """Names that the text declares or binds: definitions, lemmas, records, fields, constructors, binders, lets."""
    found = set()
    for line in text.splitlines():
        line = line.split("-- ")[0]
        m = re.match(r"\s*(?:(?:abbrev|unfoldable|pub|record|data|ruleset)\s+)*(" + TOKEN + r")\s*(?:=|:|[({])(.*)", line)
        if m and not (goal_file and re.match(r"\s*goal\.", m.group(2).lstrip(": "))):
            found.add(m.group(1))
        m = re.match(r"\s*(?:(?:pub)\s+)*(?:record|data)\s+(" + TOKEN + r")", line)
        if m:
            found.add(m.group(1))
        for group in re.findall(r"[({]([^(){}:]+?) :(?!:)", line):
            found.update(re.findall(TOKEN, group))
        for group in re.findall(r"λ ([^.]+)\.", line):
            found.update(re.findall(TOKEN, group))
        found.update(re.findall(r"\blet (" + TOKEN + r")\s*(?:=|:)", line))
    return found


def library(text):
    """Names that the text takes from the library, by a use line."""
    found = set()
    for path, names in re.findall(r"use ([\w.«»'+-]+)\.\{([^}]*)\}", text):
        if not path.startswith("Rattle.") or path.startswith(("Rattle.std.", "Rattle.anyhow.")):
            found.update(re.findall(TOKEN, names))
    return found


def respelled(name):
    if name in TAKEN:
        return TAKEN[name]
    parts = name.split("-")
    if name[0].isupper():
        return parts[0] + "".join(p[:1].upper() + p[1:] for p in parts[1:])
    return "_".join(parts)


def turn(text, names, kind):
    pattern = re.compile(TOKEN)

    def one(m):
        return names.get(m.group(0), m.group(0))

    def code(part):
        return pattern.sub(one, part)

    def prose(part):
        return re.sub(r"`[^`\n]*`", lambda m: code(m.group(0)), part)

    if kind == ".md":
        return prose(text)
    mark = "--" if kind == ".antt" else "//"
    lines = []
    for line in text.split("\n"):
        m = re.search(r"(^|\s)" + mark + r"(?= |$)", line)
        at = m.start() if m else len(line)
        before, after = line[:at], line[at:]
        if kind == ".rt" or kind == ".edit":
            pieces = re.split(r'(b?"(?:[^"\\]|\\.)*")', before)
            before = "".join(p if k % 2 else code(p) for k, p in enumerate(pieces))
        else:
            before = code(before)
        lines.append(before + prose(after))
    return "\n".join(lines)


def by_parameter(path, text):
    """In clauses of generic code, each ghost member of a bound with the type parameter that has it."""
    if not path.endswith(".rt") or path.endswith(("words/src/word.rt", "arrays/src/cell_array.rt")):
        return text
    word, array, lines = None, None, []
    for line in text.split("\n"):
        m = re.search(r"\b(\w+): (?:[\w ]+\+ )?Word\b", line)
        if m and ("<" in line or re.match(r"\s+\w+: Word", line)):
            word = m.group(1)
        m = re.search(r"<(?:'\w+, )?(\w+): CellArray", line)
        if m:
            array = m.group(1)
        m = re.match(r"(\s*(?:requires|ensures)\b[^{]*\{)(.*)$", line)
        if m:
            body = m.group(2)
            if word:
                body = re.sub(r"(?<![\w.])kind(?!\w)", word + ".kind", body)
                body = re.sub(r"\bmap code ", f"map {word}.code ", body)
                body = re.sub(r"(?<![\w.])code (result|word)\b", word + r".code \1", body)
            if array:
                body = re.sub(r"(?<![\w.])meaning(?!\w)", array + ".meaning", body)
                body = re.sub(r"(?<![\w.])rest (self|array|chip)\.", array + r".rest \1.", body)
            line = m.group(1) + body
        lines.append(line)
    return "\n".join(lines)


def main():
    dry = "--dry" in sys.argv
    texts = {p: open(p, encoding="utf-8").read() for p in files(".") if "/.git/" not in p}
    for path in texts:
        # the library's bit_and, which port.py leaves by its older names where a file has both
        if path.endswith("words/specs/Kinds.antt"):
            texts[path] = texts[path].replace("bit-and", "bit_and").replace("bitAnd", "bit_and")
        # port.py leaves the word kind of an array's stored word without the array's parameter, which is A in each of these files
        if path.endswith(".rt"):
            texts[path] = re.sub(r"(?<![\w.-])Stored-as-Word(?![\w-])", "A.Stored.Word", texts[path])
    own, lib = set(TAKEN), set()
    for path, text in texts.items():
        if path.endswith(".antt"):
            found = declared(text, is_goal_file(path))
            own |= {n for n in found if not MADE.search(n)} if is_goal_file(path) else found
        if path.endswith((".antt", ".rt")):
            lib |= library(text)
    names = {n: respelled(n) for n in own - lib}
    back = {}
    for old, new in sorted(names.items()):
        back.setdefault(new, []).append(old)
    tokens = set()
    for path, text in texts.items():
        if path.endswith((".antt", ".rt")):
            tokens |= set(re.findall(r"(?<![\w'-])[A-Za-z][\w']*(?![\w'-])", text))
    for new, olds in sorted(back.items()):
        if len(olds) > 1:
            print(f"fall together: {' '.join(olds)} -> {new}")
        if new in tokens:
            print(f"stands already: {olds[0]} -> {new}")
    if dry:
        print(len(names), " ".join(sorted(names)))
        left = set()
        for path, text in texts.items():
            if path.endswith((".antt", ".rt")):
                left |= {t for t in re.findall(TOKEN, text) if t not in names}
        print("LEFT", len(left), " ".join(sorted(left)))
        return
    for path, text in texts.items():
        new = by_parameter(path, turn(text, names, os.path.splitext(path)[1]))
        if new != open(path, encoding="utf-8").read():
            with open(path, "w", encoding="utf-8") as out:
                out.write(new)


if __name__ == "__main__":
    main()
