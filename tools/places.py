#!/usr/bin/env python3
"""Counts the places where the code could have a newer form, as docs/DESIGN-PASS.md names them.

tools/places.py             the number of places of each kind, and how many of them say beside them why they stay
tools/places.py KIND        the places of one kind, a line each
"""
import difflib
import glob
import itertools
import re
import sys

SOURCES = {f: open(f, encoding="utf8").read() for f in sorted(glob.glob("crates/*/src/*.rt"))}
NONE_OR_REFUSAL = r"(Missing|Absent|End|Cut|Past|PastLimit|Failed|Unnamed|Misshapen|Full|Nothing|NoFunction|Refused|Fault|Short\w*|Misshapen\w*)"
BY_HAND = r"(same_\w+|is_same\w*|lesser|larger|smaller|fill_\w+|wide|holds_only|write_hex|write_decimal|flag_of|refusal_number|initial)"


def lines(pattern):
    """Each line of src/ that has the pattern, but for comments."""
    for file, text in SOURCES.items():
        for number, line in enumerate(text.split("\n"), 1):
            if re.search(pattern, line) and not line.lstrip().startswith("//"):
                yield file, number, line.strip()


def enums():
    """Enums of which a case says that there is no value, or that the work was refused."""
    for file, text in SOURCES.items():
        for found in re.finditer(r"^(?:pub )?enum (\w+) \{\n(.*?)^\}", text, re.M | re.S):
            cases = re.findall(r"^    (\w+)(?! = )\b", found.group(2), re.M)
            if any(re.fullmatch(NONE_OR_REFUSAL, case) for case in cases):
                yield file, text[: found.start()].count("\n") + 1, found.group(1) + ": " + " ".join(cases)


def functions():
    """Each function: its file, line, name, parameters and body."""
    for file, text in SOURCES.items():
        for found in re.finditer(r"^ *(?:pub )?(?:pub\(crate\) )?(?:unsafe )?(?:extern \"C\" )?fn (\w+)(?:<[^>]*>)?\(", text, re.M):
            end, depth = found.end(), 1
            while depth:
                depth += {"(": 1, ")": -1}.get(text[end], 0)
                end += 1
            indent = re.match(r" *", found.group(0)).group(0)
            stop = text.find("\n" + indent + "}", end)
            start = text.find("\n" + indent + "{", end)
            body = text[start if -1 < start < stop else end : stop]
            yield file, text[: found.start()].count("\n") + 1, found.group(1), text[found.end() : end - 1], body


def twins():
    """Pairs of functions whose bodies are alike but for some names and numbers."""
    bodies = []
    for file, number, name, _, body in functions():
        words = re.findall(r"\w+|[^\s\w]", re.sub(r"//.*", "", body))
        if 40 <= len(words):
            bodies.append((file, number, name, words))
    for i, (file, number, name, words) in enumerate(bodies):
        for other_file, other, other_name, others in bodies[i + 1 :]:
            if max(len(words), len(others)) <= 1.5 * min(len(words), len(others)):
                match = difflib.SequenceMatcher(None, words, others, autojunk=False)
                if 0.8 <= match.quick_ratio() and 0.8 <= match.ratio():
                    # Both are to say why they stay, or one of them names the other: where the other says nothing, it is the place.
                    named = stays(file, number, rf"\b{other_name}\b") or stays(other_file, other) and not stays(other_file, other, rf"\b{name}\b")
                    place = (file, number) if named else (other_file, other)
                    yield *place, f"{name}, {file.split('/')[1]}:{number} ~ {other_name}, {other_file.split('/')[1]}:{other}"


def blocks(words):
    """Each block that begins with one of the words: its file, line, first row and body."""
    for file, text in SOURCES.items():
        rows = text.split("\n")
        for number, row in enumerate(rows, 1):
            found = re.match(rf"( +)({words})\b", row)
            if found:
                end = next(k for k in range(number, len(rows)) if rows[k].startswith(found.group(1) + "}"))
                yield file, number, row.strip(), "\n".join(rows[number:end])


def loops(by_hand):
    """Loops that are no `for`; by hand: those that step a number by one."""
    for file, number, row, body in blocks("while|loop"):
        if bool(re.search(r"^ +[a-z_.]+ [+-]= (1|[A-Z_]+|\d+);", body, re.M)) == by_hand:
            yield file, number, row


def parameters(least):
    """Functions of many parameters."""
    for file, number, name, given, _ in functions():
        depth, count = 0, 1 if given.strip() else 0
        for mark in given.strip().rstrip(","):
            depth += {"(": 1, "[": 1, "<": 1, ")": -1, "]": -1, ">": -1}.get(mark, 0)
            count += mark == "," and depth == 0
        if least <= count:
            yield file, number, f"{name}: {count}"


def each_parameter(given):
    """The parameters of a function, `name: type` each."""
    out, depth, start = [], 0, 0
    for at, mark in enumerate(given + ","):
        depth += {"(": 1, "[": 1, "<": 1, ")": -1, "]": -1, ">": -1 if given[at - 1 : at] != "-" else 0}.get(mark, 0)
        if mark == "," and depth == 0:
            out.append(" ".join(given[start:at].split()))
            start = at + 1
    return [name for name in out if ":" in name]


def groups():
    """Three parameters that five functions or more of a crate have, the largest such group of the same functions, but for those of C."""
    having = {}
    for file, number, name, given, _ in functions():
        crate = file.split("/")[1]
        if not crate.startswith("pezgok"):
            for three in itertools.combinations(sorted(set(each_parameter(given))), 3):
                having.setdefault((crate, three), set()).add((file, number, name))
    largest = {}
    for (crate, three), users in having.items():
        if 5 <= len(users):
            largest.setdefault((crate, frozenset(users)), set()).update(three)
    for (crate, users), names in sorted(largest.items(), key=lambda item: (item[0][0], -len(item[0][1]))):
        file, number, _ = min(users)
        yield file, number, f"{len(users)} functions of {crate}: " + ", ".join(sorted(names))


def place_and_count():
    """Functions that are told a table in a slice by a place and a count, a parameter each."""
    for file, number, name, given, _ in functions():
        if "[u8]" not in given:
            continue
        names = [parameter.split(":")[0] for parameter in each_parameter(given) if parameter.endswith(": usize")]
        for place, count in zip(names, names[1:]):
            if re.fullmatch(r"p|q|at|to|base|from|offsets|start|stack|sites|units|entries|text", place) and re.fullmatch(r"n|m|k|count|rows|room|left|\w+_count", count):
                yield file, number, f"{name}: {place}, {count}"


def searches():
    """`for` loops that end early with an answer: any, all, find or position by hand."""
    for file, number, row, body in blocks("for"):
        if re.search(r"^ +return\b", body, re.M):
            yield file, number, row


def facts():
    """Facts that the requires clauses of three functions or more ask for: those with a name, by their definition, and those with one text in a crate."""
    asked, at = {}, {}
    for file, text in SOURCES.items():
        crate, homes, current = file.split("/")[1], {}, None
        for home, names in re.findall(r"^ghost use Rattle\.(\w+\.specs\.[\w.]+)\.\{([^}]*)\}", text, re.M):
            homes.update({name.strip(): home for name in names.split(",")})
        for found in re.finditer(r"\bfn (\w+)|requires (?:\w+ )?\{((?:[^{}]|\{[^{}]*\})*)\}", text):
            if found.group(1):
                current = text[: found.start()].count("\n") + 1, found.group(1)
                continue
            clause = " ".join(found.group(2).split())
            named = [name for name in re.findall(r"\b[A-Z]\w+\b", clause) if name in homes and homes[name] != "tlv.specs.Lists"]
            for key in {(homes[name], name) for name in named} or ({(crate, clause)} if not re.search(r"\b[A-Z]\w+\b", clause) else set()):
                asked.setdefault(key, set()).add((file, current[1]))
                at.setdefault(key, []).append((file, current[0]))
    for (home, fact), users in sorted(asked.items(), key=lambda item: -len(item[1])):
        if len(users) < 3:
            continue
        if "." not in home:
            given = sorted(at[home, fact], key=lambda place: (not stays(*place, "with its clause"), not stays(*place)))
            yield *given[0], f"{fact}: {len(users)}"
            continue
        crate, module = home.split(".specs.")
        file = f"crates/{crate}/specs/{module.replace('.', '/')}.antt"
        SOURCES.setdefault(file, open(file, encoding="utf8").read())
        place = re.search(r"^ *(?:(?:abbrev|unfoldable|pub|record|data) )+" + fact + r"\b", SOURCES[file], re.M)
        yield file, SOURCES[file][: place.start()].count("\n") + 1, f"{fact}: {len(users)}"


KINDS = {
    "1-enums": enums,
    "1-numbers": lambda: lines(r"(Fault|Refused|Err)\(([0-9]+|[A-Z_]{2,})\)"),
    "1-status": lambda: lines(r"\b(status|refusal): (&mut )?u8"),
    "1-tests": lambda: lines(r"status (!=|==) 0"),
    "1-arms": lambda: lines(r"(Fault|Refused)\(([a-z]+)\) =>|Err\(([a-z]+)\) => (return )?Err\(\3\)"),
    "2-widths": lambda: lines(r"fn (read|set|put)_u(8|16|32|64)\b"),
    "2-twins": twins,
    "3-counting": lambda: loops(True),
    "3-others": lambda: loops(False),
    "3-searches": searches,
    "4-derives": lambda: lines(r"derive\((Clone, Copy|Drop)\)\]"),
    "4-fields": lambda: lines(r"^ +([a-z_0-9]+): \1,$"),
    "4-by-hand": lambda: lines(r"^ *(pub )?(pub\(crate\) )?fn " + BY_HAND + r"\b"),
    "4-largest": lambda: lines(r"18446744073709551615|4294967295"),
    "5-parameters": lambda: parameters(8),
    "5-groups": groups,
    "5-facts": facts,
    "6-start-and-length": lambda: lines(r"start: usize, (len|size): usize|^ +(len|size): usize,$"),
    "6-place-and-count": place_and_count,
    "6-halving": lambda: lines(r"^ +while (lo|low|from) < (hi|high|to)\b"),
    "7-switches": lambda: lines(r"match ([\w.]*\b(source|opcode|kind|tag|wanted|rows|previous|here)\b|query\[0\])"),
}


def stays(file, number, word=""):
    """A line beside the place, in it or up to five lines above with no empty one between, says why it stays; the word is one of the line's."""
    above = SOURCES[file].split("\n")[max(0, number - 6) : number]
    rows = list(itertools.takewhile(str.strip, reversed(above)))
    return any(re.search("(//|--) Stays.*" + word, row) for row in rows)


def main():
    if 1 < len(sys.argv):
        for file, number, what in KINDS[sys.argv[1]]():
            print(f"{file}:{number}: {what}" + (" (stays)" if stays(file, number) else ""))
        return
    for kind, places in KINDS.items():
        found = list(places())
        print(f"{kind:20} {len(found):5}   of these {sum(stays(file, number) for file, number, _ in found)} stay")


main()
