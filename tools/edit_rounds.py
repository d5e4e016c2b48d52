"""Which functions a must-fail edit changes, which edits go into one check, and what the check says of each.

It reads sources in the layout of `rt fmt`, which the gate asks for: a function's closing brace stands alone, as deep as its `fn`.
"""
import dataclasses
import os
import re

FN = re.compile(r"( *)(?:pub(?:\([^)]*\))? )?(?:const |unsafe |final |extern \"C\" )*fn (\w+)")
BLOCK = re.compile(r"( *)(?:pub(?:\([^)]*\))? )?(?:unsafe )?(impl|trait|mod)\b(.*)")
COMMENT = re.compile(r"\s*(?://|--)")
LINE = re.compile(r"(?m)^fn (\S+): (not proved|no proof|proved|could not tell)(?:[:;] (.*))?$")
ERROR = re.compile(r"(?m)^(?:\./)?proofs/(\S+?)/\w+\.antt:\d+:\d+: error: (.*)$")
# What an error says of a name that the edit took away, which shows nothing of a contract.
NAMES = re.compile(r"has no field|is not in scope|has no `|was not admitted")
CALLS = re.compile(r"(?:it calls|it passes|a call of)\b")


# Sources


def crate_of_line(line):
    """The name of the crate that a line of crates.txt is about, or None."""
    found = re.match(r"(\w+)[^:#]*:", line)
    return found and found[1]


def uses_of(text):
    """By crate, the names of the libraries that it uses, from the text of crates.txt."""
    return {crate_of_line(it): it.split("#")[0].partition(":")[2].split() for it in text.splitlines() if crate_of_line(it)}


def below(uses, name):
    """The repository's libraries below a crate, sorted."""
    found, left = set(), list(uses[name])
    while left:
        it = left.pop()
        if it in uses and it not in found:
            found.add(it)
            left += uses[it]
    return sorted(found)


def without_comments(text):
    """The text without blank lines and lines of comment."""
    return "\n".join(it for it in text.split("\n") if it.strip() and not COMMENT.match(it))


@dataclasses.dataclass(frozen=True)
class Piece:
    """A part of a source file: a function, or what stands between two (no name)."""

    name: str
    text: str
    head: str = ""  # of a function: all before its body
    home: str = ""  # of a method: the type by whose place in the crate it is named


def words_of(text, without=()):
    """The words of a type or a trait as a check writes them in the name of an impl: no lifetimes, no type parameters, no paths."""
    text = re.sub(r"\w+::|'\w+", "", text).replace("[", "slice ").replace("&mut ", "ref mut ").replace("&", "ref ")
    return "".join(it[0].upper() + it[1:] for it in re.findall(r"\w+", text) if it not in without)


def block_name(kind, head):
    """What a check calls the members of an impl, a trait or a module by, and the type at whose place they are named, if there is one."""
    given = re.match(r"<((?:[^<>]|<(?:[^<>]|<[^<>]*>)*>)*)>", head) if kind == "impl" else None
    params = re.findall(r"(?:^|,)\s*(?:const )?(\w+)", re.sub(r"<[^<>]*>", "", given[1])) if given else []
    head = re.split(r"\bwhere\b|\{", head[given.end() :] if given else head)[0].strip()
    trait, _, type_name = head.rpartition(" for ") if kind == "impl" else ("", "", head)
    if trait in ("", "Drop"):
        name = re.match(r"(?:\w+::)*(\w+)", type_name)[1]
        return name, name if kind == "impl" else ""
    return words_of(type_name, params) + words_of(trait, params), ""


def end_of_function(lines, at, indent):
    """The last line of the function that begins at this one, and the line where its body begins (None: it has none)."""
    for number in range(at, len(lines)):
        line = lines[number]
        if number == at and line.endswith("{}"):
            return at, None
        if line == indent + "{" or line.endswith("{") and (number == at or line.startswith(indent + ")")):
            return next((it for it in range(number + 1, len(lines)) if lines[it] == indent + "}"), number), number
        is_last = number + 1 == len(lines) or lines[number + 1].strip() in ("", "}")
        if line.endswith(";") and (number == at or is_last):
            return number, None
    return at, None


def pieces(text):
    """The parts of a source file, in order; their texts, joined by line feeds, are the file."""
    lines, found, rest, blocks, at = text.split("\n"), [], [], [], 0
    while at < len(lines):
        line = lines[at]
        blocks = [it for it in blocks if not (line.rstrip() == it[0] + "}")]
        block, function = BLOCK.match(line), FN.match(line)
        if function:
            last, body = end_of_function(lines, at, function[1])
            if rest:
                found.append(Piece("", "\n".join(rest)))
                rest = []
            name = "::".join([*[it[1] for it in blocks], function[2]])
            head = "\n".join(lines[at : last + 1 if body is None else body + (lines[body] != function[1] + "{")])
            found.append(Piece(name, "\n".join(lines[at : last + 1]), head, blocks[-1][2] if blocks else ""))
            at = last
        else:
            if block and not line.endswith(("}", ";")):
                last = next((it for it in range(at, len(lines)) if lines[it].endswith("{")), at)
                head = " ".join([block[3], *map(str.strip, lines[at + 1 : last + 1])])
                blocks.append((block[1], *block_name(block[2], head.strip())))
            rest.append(line)
        at += 1
    return [*found, Piece("", "\n".join(rest))] if rest else found


def is_shown(piece):
    """Whether other crates can call a function: it is public, a member of a trait or of its impl, or what drops a value."""
    *blocks, name = piece.name.split("::")
    return bool(re.match(r" *pub ", piece.text)) or blocks and not piece.home or name == "drop"


def shown(text):
    """What a source file shows to other crates: the functions that they can call, without their bodies, and all between functions."""
    return "\n".join(it.head if it.name else it.text for it in pieces(text) if not it.name or is_shown(it))


def module_of(path):
    """The module of a file of src/, as its path below the crate."""
    parts = path[len("src/") : -len(".rt")].split("/")
    return [it for it in parts if it not in ("lib", "main", "mod")]


def homes_of(sources):
    """The module of each struct and enum of a crate, from the texts of its files."""
    found = {}
    for file, text in sources.items():
        for name in re.findall(r"(?m)^(?:pub(?:\([^)]*\))? )?(?:struct|enum) (\w+)", text):
            found[name] = module_of(file)
    return found


# Edits


@dataclasses.dataclass(frozen=True)
class Edit:
    """An edit, with the text of each function that it changes, by file and place in it. With none it is to be tried alone."""

    path: str
    changed: tuple = ()  # of (file, place, new text)
    functions: tuple = ()  # their names, as a check writes them
    before: tuple = ()  # of (file, text before)

    @classmethod
    def of(cls, crate, path, texts, homes):
        """The edit of a crate, from the texts of each file that it changes, before and after (None: it cannot be read), and
        the modules of the crate's types."""
        changed, names = [], []
        for file, (old, new) in (texts or {}).items():
            was, now = pieces(old), pieces(new)
            same = len(was) == len(now) and all(a == b or a.name and a.name == b.name for a, b in zip(was, now))
            if not same or not file.startswith("src/"):
                return cls(path)
            for place, (a, b) in enumerate(zip(was, now)):
                if a != b:
                    changed.append((file, place, b.text))
                    names.append("::".join([crate, *homes.get(a.home, module_of(file)), a.name]))
        return cls(path, tuple(changed), tuple(names), tuple((it, old) for it, (old, _) in (texts or {}).items()))


def merged(edits):
    """The texts of the files that these edits change, with all of them in."""
    before = dict(it for edit in edits for it in edit.before)
    parts = {file: [it.text for it in pieces(text)] for file, text in before.items()}
    for edit in edits:
        for file, place, text in edit.changed:
            parts[file][place] = text
    return {file: "\n".join(it) for file, it in parts.items()}


def chosen(edits):
    """Edits that go into one round: no two change one function."""
    found, taken = [], set()
    for edit in edits:
        if not taken & {*edit.functions}:
            found.append(edit)
            taken |= {*edit.functions}
    return found


# What a check says


def came_to_an_end(text):
    """Whether the check judged the functions, by what it printed."""
    return re.search(r"(?m)^only=\d+ ", text) is not None


def unit_of(name):
    """The function that a line of a check is about: a closure counts to the function in which it stands."""
    front, _, inside = name.partition("::fn::")
    return f"{front}::{inside.split('::')[0]}" if inside else name


def told_by(crate, text):
    """By function, why a check of the crate could not prove it and its closures, but for the calls of others that are not proved."""
    found = {}
    for line, said, why in LINE.findall(text):
        if said in ("not proved", "no proof"):
            reasons = [it for it in why.split("; ") if it and not CALLS.match(it) and not it.startswith("expected answers in")]
            found.setdefault(unit_of(line), []).extend(reasons)
    for path, reason in ERROR.findall(text):
        name = unit_of("::".join([crate, *path.split("/")]))
        if name in found:
            found[name].append(reason)
    return found


def refusal(edit, told):
    """Why one of the edit's functions is not proved by itself, or None."""
    for name in edit.functions:
        if told.get(name):
            strong = [it for it in told[name] if not NAMES.search(it)]
            note = "" if strong else "(only because its proof names what the edit took away, so this says little of the contract) "
            return note + [*strong, *told[name]][0][:160]
    return None


def is_sound(edits, told):
    """Whether only functions that these edits change fail by themselves."""
    changed = {name for it in edits for name in it.functions}
    return all(name in changed for name, reasons in told.items() if reasons)
