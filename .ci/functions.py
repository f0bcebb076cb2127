"""The functions of a crate, by the names that a check prints after `fn`, read off its sources. They are in the layout
of `rt fmt`, so a block ends at the first brace that is indented as its first line."""
import dataclasses
import pathlib
import re

FUNCTION = re.compile(r"(?:pub(?:\([a-z ]+\))? )?(?:final )?(?:const )?(?:unsafe )?(?:extern \"C\" )?fn (\w+)")
BLOCK = re.compile(r"(?:pub(?:\([a-z ]+\))? )?(?:unsafe )?(mod|trait|impl)\b")
TYPE = re.compile(r"^(?:pub(?:\([a-z ]+\))? )?(?:struct|enum) (\w+)", re.M)


@dataclasses.dataclass(frozen=True)
class Function:
    file: str  # below the crate's folder
    first: int  # its lines, counted from 0
    last: int
    names: tuple  # the names below the crate that it may have, the likeliest first


def functions_of(folder):
    """Returns the functions with a body in a crate's src/."""
    texts = {file: file.read_text() for file in sorted((folder / "src").rglob("*.rt"))}
    types = {}
    for file, text in texts.items():
        for name in TYPE.findall(text):
            types.setdefault(name, modules_of(folder, file))
    return [it for file, text in texts.items() for it in functions_in(folder, file, text.split("\n"), types)]


def modules_of(folder, file):
    inside = file.relative_to(folder / "src").with_suffix("")
    return [] if inside.as_posix() in ("lib", "main") else list(inside.parts)


def indent_of(line):
    return len(line) - len(line.lstrip())


def functions_in(folder, file, lines, types):
    scopes, at = [(-1, [modules_of(folder, file)])], 0
    while at < len(lines):
        line, indent = lines[at].strip(), indent_of(lines[at])
        while line and indent <= scopes[-1][0] and len(scopes) > 1:
            scopes.pop()
        block, found = BLOCK.match(line), FUNCTION.match(line)
        if block:
            head, at = head_from(lines, at)
            if head.endswith("{"):
                names = names_of_block(block[1], head)
                scopes.append((indent, [[*scope, name] for scope in scopes[-1][1] for name in names]))
        elif found:
            last, has_body = end_of(lines, at)
            if has_body:
                names = names_of(scopes[-1][1], found[1], types)
                yield Function(str(file.relative_to(folder)), at, last, names)
            at = last
        at += 1


def head_from(lines, at):
    """Returns the text of a block's head, to its brace, and the line that it ends in."""
    head = lines[at].strip()
    while not head.endswith(("{", ";", "}")) and at + 1 < len(lines):
        at += 1
        head += " " + lines[at].strip()
    return head, at


def end_of(lines, at):
    """Returns the last line of a function, and whether it has a body."""
    indent, last, is_open = indent_of(lines[at]), at, False
    while last < len(lines):
        line = lines[last].rstrip()
        is_code = not line.strip().startswith("//")
        is_open = is_open or line.endswith("{") and (last == at or indent_of(line) == indent)
        if is_open and line == " " * indent + "}" or line == " " * indent + "{}" or last == at and line.endswith("}"):
            return last, True
        if not is_open and is_code and line.endswith(";"):
            return last, False
        last += 1
    return len(lines) - 1, True


def names_of(scopes, name, types):
    """Returns the names that a function may have: a method is named by the module of its type, or by its own."""
    names = ["::".join([*scope, name]) for scope in scopes]
    for scope in scopes:
        bases = [base for base in types if scope and scope[-1].startswith(base)]
        names += ["::".join([*types[base], scope[-1], name]) for base in bases]
    return tuple(dict.fromkeys(names))


def names_of_block(kind, head):
    """Returns the names that the block may have in those of its functions."""
    if kind != "impl":
        return [re.search(rf"\b{kind} (\w+)", head)[1]]
    text = head.removesuffix("{").partition("impl")[2].strip()
    parameters = []
    if text.startswith("<"):
        inside, text = at_bracket(text)
        parameters = [re.sub(r"^const |:.*$", "", it, flags=re.S).strip() for it in split(inside, ",")]
    text = re.split(r"\bwhere\b", text)[0].strip()
    of_trait = split(text, " for ")
    if len(of_trait) == 2:
        own = short(of_trait[1], parameters) or "Any"
        return list(dict.fromkeys([own + short(it, parameters) for it in (of_trait[0], of_trait[0].partition("<")[0])]))
    base, _, arguments = text.partition("<")
    named = [[long(it, hidden) for it in split(arguments.removesuffix(">"), ",")] for hidden in (parameters, [])]
    # (a block of an alias has the parameters in its name)
    return ["+".join([base.split("::")[-1], *[it for it in names if it]]) for names in named]


def at_bracket(text):
    """Cuts a text that begins with a bracket into what is inside it and what follows."""
    depth = 0
    for at, char in enumerate(text):
        depth += (char == "<") - (char == ">" and text[at - 1] != "-")
        if depth == 0:
            return text[1:at], text[at + 1 :].strip()
    return text[1:], ""


def split(text, by):
    """Splits a text where it is outside brackets."""
    parts, depth, start = [], 0, 0
    for at, char in enumerate(text):
        depth += (char in "<([") - (char in ")]" or char == ">" and text[at - 1] != "-")
        if depth == 0 and text.startswith(by, at):
            parts.append(text[start:at].strip())
            start = at + len(by)
    return [*parts, text[start:].strip()] if text[start:].strip() else parts


def short(text, parameters):
    """Names a type as in `impl Trait for Type`: its words one after another, without the parameters of the impl."""
    return "".join(word[0].upper() + word[1:] for word in words_of(text, parameters))


def long(text, parameters):
    """Names a type as in `impl Type<Argument>`."""
    words = words_of(text, parameters)
    return "+".join(word[0].lower() + word[1:] if word in ("Ref", "RefMut", "Slice") else word for word in words)


def words_of(text, parameters):
    text = text.strip()
    if text in parameters or text.startswith("'"):
        return []
    if text.startswith("&"):
        text = re.sub(r"^&\s*('\w+ )?", "", text)
        is_mut = text.startswith("mut ")
        return ["RefMut" if is_mut else "Ref", *words_of(text.removeprefix("mut "), parameters)]
    if text.startswith("["):
        inside = split(text[1:-1], ";")
        return ["Slice" if len(inside) == 1 else "Array", *words_of(inside[0], parameters)]
    if text.startswith("("):
        parts = split(text[1:-1], ",")
        return [f"Tuple{len(parts)}", *[word for it in parts for word in words_of(it, parameters)]]
    base, _, arguments = text.partition("<")
    values = [it.partition("=")[2] or it for it in split(arguments.removesuffix(">"), ",")]
    inside = [word for it in values for word in words_of(it, parameters)]
    return [base.split("::")[-1], *inside]
