"""Rattle source, as far as the tests over it read it: the items of a file, types, and what stands in a body.

A form that is not read is told (Unread), with its line.
"""

import collections
import functools
import re

TOKEN = re.compile(
    r"""(?P<blank>\s+|//[^\n]*|/\*.*?\*/)
      | (?P<text>(?:br|b|r)?\#*"(?:\\.|[^"\\])*"\#*|b'(?:\\.|[^'\\])')
      | (?P<lifetime>'\w+)
      | (?P<number>\d\w*)
      | (?P<name>[^\W\d]\w*)
      | (?P<sign>::|->|=>|\.\.=|\.\.|&&|\|\||<<|>>|[=!<>]=|.)""",
    re.VERBOSE | re.DOTALL,
)
KEYWORDS = frozenset("as break const continue crate dyn else enum extern fn for ghost if impl in let loop match mod move mut pub ref".split())
KEYWORDS |= frozenset("return self static struct super trait type unsafe use where while".split())
CLOSING = {"(": ")", "[": "]", "{": "}"}
HANDLES = frozenset("stdin stdout stderr".split())
# What an attribute begins with; the one that gives a function its name in C is written in full.
ATTRIBUTES = frozenset("derive inline repr tactic".split())
NO_MANGLE = "unsafe ( no_mangle )"
# How many words of 32 bits a number has.
WIDTHS = {"bool": 1, "u8": 1, "u16": 1, "u32": 1, "i8": 1, "i16": 1, "i32": 1, "f32": 1}
WIDTHS |= {"u64": 2, "usize": 2, "i64": 2, "isize": 2, "f64": 2}
# Methods of a number that give numbers, one or in an Option.
NUMBERS = frozenset("abs_diff checked_add checked_mul checked_sub count_ones div_ceil leading_ones leading_zeros max min pow".split())
NUMBERS |= frozenset("saturating_add saturating_mul saturating_sub trailing_ones trailing_zeros".split())
NUMBERS |= frozenset("wrapping_add wrapping_mul wrapping_neg wrapping_sub".split())

Token = collections.namedtuple("Token", "kind text line")
# References, slices, arrays with the tokens of their length, and names of numbers and declared types.
Ref = collections.namedtuple("Ref", "mutable to")
Slice = collections.namedtuple("Slice", "of")
Array = collections.namedtuple("Array", "of length")
Named = collections.namedtuple("Named", "path")
# A type with arguments; they are kept as they are written.
Applied = collections.namedtuple("Applied", "path arguments")
# `()` and values that stand together in parentheses; and any type that has a trait, as it is written.
Tuple = collections.namedtuple("Tuple", "parts")
Opaque = collections.namedtuple("Opaque", "text")
Field = collections.namedtuple("Field", "name type line")
Constant = collections.namedtuple("Constant", "name type line value")
# A struct has one group of fields, an enum one for each variant, whose names stand beside.
Declared = collections.namedtuple("Declared", "path file line groups choice variants")
Clause = collections.namedtuple("Clause", "kind name tokens line")
# `generic` has the names of what a function is given by type; `home` is the Impl that it stands in, None for one of a module.
Function = collections.namedtuple("Function", "path file line public export generic fields result clauses body home", defaults=[None])
# What an `impl` is of: its trait, None where it has none, and its type.
Impl = collections.namedtuple("Impl", "trait type line generic")
# A call, with the place where its arguments open.
Call = collections.namedtuple("Call", "path arguments line at")


class Unread(Exception):
    """A form that is not read here, and where."""

    def __init__(self, line, what):
        super().__init__(what)
        self.line, self.what = line, what


def tokens_of(text):
    found, line = [], 1
    for m in TOKEN.finditer(text):
        if m.lastgroup == "text" and "r" in m.group().split('"')[0]:
            raise Unread(line, "a raw string")
        if m.lastgroup != "blank":
            found.append(Token(m.lastgroup, m.group(), line))
        line += m.group().count("\n")
    return found


def end_of(tokens, at):
    """The place behind the group that opens at a place."""
    depth = 0
    for i in range(at, len(tokens)):
        if tokens[i].text in CLOSING:
            depth += 1
        elif tokens[i].text in CLOSING.values():
            depth -= 1
        if depth == 0:
            return i + 1
    raise Unread(tokens[at].line, "a group that does not close")


def top(tokens):
    """The places of the tokens that stand in no group; a group counts by its opening."""
    at = 0
    while at < len(tokens):
        yield at
        at = end_of(tokens, at) if tokens[at].text in CLOSING else at + 1


def split(tokens, sign=","):
    """The parts of a row of tokens between signs that stand in no group."""
    cuts = [at for at in top(tokens) if tokens[at].text == sign]
    parts = [tokens[a + 1 : b] for a, b in zip([-1, *cuts], [*cuts, len(tokens)])]
    return parts if parts[-1] else parts[:-1]


def numeral(tokens):
    """The number that stands there alone, None for anything else."""
    m = re.fullmatch(r"(0x[0-9A-Fa-f_]+|[0-9][0-9_]*)(?:u\d+|usize)?", tokens[0].text if len(tokens) == 1 else "")
    return int(m.group(1).replace("_", ""), 16 if "x" in m.group(1) else 10) if m else None


def type_of(tokens):
    """The type that a whole row of tokens says."""
    if not tokens:
        raise Unread(0, "no type")
    first, rest = tokens[0], tokens[1:]
    if first.text == "&":
        rest = rest[1:] if rest and rest[0].kind == "lifetime" else rest
        mutable = bool(rest) and rest[0].text == "mut"
        return Ref(mutable, type_of(rest[1:] if mutable else rest))
    if first.text == "[" and end_of(tokens, 0) == len(tokens):
        parts = split(tokens[1:-1], ";")
        return Slice(type_of(parts[0])) if len(parts) == 1 else Array(type_of(parts[0]), tuple(parts[1]))
    if first.text == "(" and end_of(tokens, 0) == len(tokens):
        return Tuple(tuple(type_of(part) for part in split_types(tokens[1:-1])))
    if first.text == "impl" and rest:
        return Opaque(written(tokens))
    if all(t.kind == "name" for t in tokens[::2]) and all(t.text == "::" for t in tokens[1::2]):
        return Named(tuple(t.text for t in tokens[::2]))
    if first.kind == "name":
        path, end = path_at(tokens, 0)
        if behind(tokens, end).text == "<" and angle_end(tokens, end) == len(tokens):
            inner = Token("sign", ">", tokens[-1].line)  # of a `>>`, which closes what stands inside too
            return Applied(path, (*tokens[end + 1 : -1], *([inner] if tokens[-1].text == ">>" else [])))
    raise Unread(first.line, f"the type {written(tokens)}")


ANGLES = {"<": 1, ">": -1, ">>": -2}
IN_ANGLES = frozenset("< > >> :: : + , ( ) [ ] ; = -> & '_".split())


def angle_end(tokens, at):
    """The place behind the arguments that open at a `<`."""
    depth = 0
    for i in range(at, len(tokens)):
        depth += ANGLES.get(tokens[i].text, 0)
        if depth <= 0 or not (tokens[i].kind in ("name", "lifetime", "number") or tokens[i].text in IN_ANGLES):
            break
    if depth:
        raise Unread(tokens[at].line, "arguments of a type in this form")
    return i + 1


def split_types(tokens):
    """The types between commas that stand in no group and in no arguments."""
    parts, depth, start = [], 0, 0
    for at in top(tokens):
        depth += ANGLES.get(tokens[at].text, 0)
        if tokens[at].text == "," and not depth:
            parts.append(tokens[start:at])
            start = at + 1
    return parts + [tokens[start:]] if tokens[start:] else parts


def arguments_of(kind):
    """The types that a type is applied to; a lifetime is none."""
    parts = split_types(list(kind.arguments))
    return tuple(type_of(part) for part in parts if not (len(part) == 1 and part[0].kind == "lifetime"))


def has_reference(kind):
    """Does a value of a type hold a reference, as far as the type says it?"""
    if isinstance(kind, (Ref, Opaque)):
        return True
    if isinstance(kind, (Slice, Array)):
        return has_reference(kind.of)
    if isinstance(kind, Tuple):
        return any(map(has_reference, kind.parts))
    return isinstance(kind, Applied) and any(token.text in ("&", "impl", "dyn") for token in kind.arguments)


def written(tokens):
    return " ".join(t.text for t in tokens)


def shown(kind):
    """A type as it is written."""
    if isinstance(kind, Ref):
        return f"&{'mut ' if kind.mutable else ''}{shown(kind.to)}"
    if isinstance(kind, Slice):
        return f"[{shown(kind.of)}]"
    if isinstance(kind, Array):
        return f"[{shown(kind.of)}; {written(kind.length)}]"
    if isinstance(kind, Applied):
        return f"{'::'.join(kind.path)}<{written(kind.arguments)}>"
    if isinstance(kind, Tuple):
        return f"({', '.join(map(shown, kind.parts))})"
    return kind.text if isinstance(kind, Opaque) else "::".join(kind.path)


def fields_of(tokens, own=None):
    """Fields or parameters: name and type of each; `self` of a method has the type of its `impl`. A ghost field is none."""
    fields = []
    for part in split_types(tokens):
        first = part[0]
        while part and part[0].text in ("pub", "mut"):
            part = part[1:]
        if first.text == "ghost":
            continue
        if own and part and part[-1].text == "self":
            fields.append(self_of(part, own))
            continue
        if len(part) < 3 or part[0].kind != "name" or part[1].text != ":":
            raise Unread(part[0].line if part else 0, "a field without a name")
        fields.append(Field(part[0].text, type_of(part[2:]), part[0].line))
    return fields


def self_of(part, own):
    """`self`, `&self` or `&mut self`, as a field."""
    signs = [t.text for t in part[:-1] if t.kind != "lifetime"]
    if signs not in ([], ["&"], ["&", "mut"]):
        raise Unread(part[0].line, "a `self` in this form")
    return Field("self", Ref("mut" in signs, own) if signs else own, part[-1].line)


def numbered(tokens):
    """Fields without names, of a tuple: their places are their names."""
    parts = [part[1:] if part[0].text == "pub" else part for part in split_types(tokens)]
    return [Field(str(place), type_of(part), part[0].line) for place, part in enumerate(parts)]


def variants_of(tokens):
    """The name of each variant of an enum, and what it holds."""
    names, groups = [], []
    for variant in split(tokens):
        name, group = variant[0], []
        rest = split(variant[1:], "=")[0] if len(variant) > 1 else []
        told = variant[len(rest) + 2 :]
        if rest and (rest[0].text not in ("(", "{") or end_of(rest, 0) != len(rest)) or len(told) != bool(told) or told and numeral(told) is None:
            raise Unread(name.line, f"the variant {name.text}")
        if rest:
            group = fields_of(rest[1:-1]) if rest[0].text == "{" else numbered(rest[1:-1])
            group = [Field(name.text if rest[0].text == "(" else f.name, f.type, name.line) for f in group]
        names.append(name.text)
        groups.append(group)
    return names, groups


class File:
    """The items of one file, by crate and modules."""

    def __init__(self, path, text):
        self.path, self.module = path, module_of(path)
        self.functions, self.declared, self.constants, self.imports, self.ghosts = {}, {}, {}, {}, []
        tokens = tokens_of(text)
        at = 0
        while written(tokens[at : at + 4]) == "# ! [ tactic":  # asks the prover for something, of the whole crate
            at = end_of(tokens, at + 2)
        while at < len(tokens):
            at = self.item(tokens, at)

    def item(self, tokens, at):
        """Reads one item and gives the place behind it."""
        first, words = tokens[at], []
        at, marks = attributes(tokens, at)
        while tokens[at].text in ("pub", "extern", "ghost") or tokens[at].kind == "text":
            words.append(tokens[at].text)
            at += 1
        keyword = tokens[at].text
        if ("extern" in words or NO_MANGLE in marks) and not ('extern "C"' in " ".join(words) and NO_MANGLE in marks and keyword == "fn"):
            raise Unread(first.line, "an export in this form")
        if keyword == "fn":
            return self.function(tokens, at, "pub" in words, "extern" in words)
        if keyword in ("struct", "enum"):
            return self.declaration(tokens, at, keyword == "enum")
        if keyword == "impl":
            return self.implementation(tokens, at)
        end = at + next((i for i in top(tokens[at:]) if tokens[at + i].text == ";"), 0)
        if keyword not in ("use", "mod", "const") or "extern" in words or keyword == "mod" and end != at + 2:
            raise Unread(first.line, f"an item that begins with `{tokens[at].text}`")
        if keyword == "const":
            self.constant(tokens[at + 1 : end])
        if keyword == "use" and "ghost" in words:
            self.ghosts.append(tokens[at + 1 : end])
        elif keyword == "use":
            self.named(tokens[at + 1 : end])
        return end + 1

    def named(self, tokens, inside=()):
        """Takes in the names of a `use`: a path, or a path and a group of such, `self` for the path before the group."""
        group = next((at for at, token in enumerate(tokens) if token.text == "{"), len(tokens))
        path = (*inside, *(t.text for t in tokens[:group:2]))
        signs = [t.text for t in tokens[1:group:2]]
        if not tokens or not all(t.kind == "name" for t in tokens[:group:2]) or signs != ["::"] * len(signs):
            raise Unread(tokens[0].line if tokens else 0, "a `use` of this form")
        if group == len(tokens):
            path = path[:-1] if inside and path[-1] == "self" else path
            self.imports[path[-1]] = path
            return
        if len(signs) != len(tokens[:group:2]) or end_of(tokens, group) != len(tokens):
            raise Unread(tokens[0].line, "a `use` of this form")
        for part in split(tokens[group + 1 : -1]):
            self.named(part, path)

    def constant(self, tokens, *inside):
        kind, value = split(tokens[2:], "=")
        name = tokens[0]
        self.constants[(*self.module, *inside, name.text)] = Constant(name.text, type_of(kind), name.line, value)

    def declaration(self, tokens, at, choice):
        name, opening = tokens[at + 1], at + 2
        _, opening = parameters(tokens, opening)
        sign, path = tokens[opening].text, (*self.module, name.text)
        if sign not in ("{", "(", ";") or sign != "{" and choice:
            raise Unread(name.line, f"the declaration of {name.text}")
        end = opening if sign == ";" else end_of(tokens, opening)
        inner, names = tokens[opening + 1 : end - 1], []
        if choice:
            names, groups = variants_of(inner)
        else:
            groups = [fields_of(inner) if sign == "{" else numbered(inner)]
        self.declared[path] = Declared(path, self.path, name.line, groups, choice, tuple(names))
        if sign != "{" and tokens[end].text != ";":
            raise Unread(name.line, f"the declaration of {name.text}")
        return end if sign == "{" else end + 1

    def implementation(self, tokens, at):
        """An `impl` of a type, or of a trait for a type: its functions are taken in, each by the name of the `impl`."""
        line = tokens[at].line
        generic, start = parameters(tokens, at + 1)
        opening = start + next((i for i in top(tokens[start:]) if tokens[start + i].text == "{"), 0)
        head = tokens[start:opening]
        cut = next((i for i, t in enumerate(head) if t.text == "for"), None)
        if not head or any(t.text in ("where", "unsafe", "!") for t in head):
            raise Unread(line, "an `impl` in this form")
        trait, own = (None, head) if cut is None else (type_of(head[:cut]), head[cut + 1 :])
        home = Impl(trait, type_of(own), line, generic)
        end, at = end_of(tokens, opening), 0
        inner = with_self(tokens[opening + 1 : end - 1], home.type)
        while at < len(inner):
            at = self.member(inner, at, home)
        return end

    def member(self, tokens, at, home):
        """Reads one item of an `impl` and gives the place behind it. What is ghost says nothing of the code."""
        at, _ = attributes(tokens, at)
        first, public = tokens[at], tokens[at].text == "pub"
        at += public
        if tokens[at].text == "fn":
            return self.function(tokens, at, public, False, home)
        end = at + next((i for i in top(tokens[at:]) if tokens[at + i].text == ";"), 0)
        if tokens[at].text == "const" and end > at:
            self.constant(tokens[at + 1 : end], shown(home.type))
        elif tokens[at].text not in ("ghost", "type") or end == at:
            raise Unread(first.line, f"an item of an `impl` that begins with `{tokens[at].text}`")
        return end + 1

    def function(self, tokens, at, public, export, home=None):
        name, opening = tokens[at + 1], at + 2
        generic, opening = parameters(tokens, opening)
        generic += home.generic if home else ()
        if tokens[opening].text != "(":
            raise Unread(name.line, f"the function {name.text}")
        at = end_of(tokens, opening)
        fields = fields_of(tokens[opening + 1 : at - 1], home and home.type)
        result, clauses = None, []
        if tokens[at].text == "->":
            end = at + next((i for i in top(tokens[at:]) if tokens[at + i].text in ("{", "requires", "ensures", "where")), 0)
            result, at = type_of(tokens[at + 1 : end]), end
        if tokens[at].text == "where":
            at += next((i for i in top(tokens[at:]) if tokens[at + i].text in ("{", "requires", "ensures")), 0)
        while tokens[at].text in ("requires", "ensures"):
            kind, named = tokens[at], tokens[at + 1].kind == "name"
            opening = at + 2 if named else at + 1
            at = self.group(tokens, opening, name)
            clauses.append(Clause(kind.text, tokens[opening - 1].text if named else None, tokens[opening + 1 : at - 1], kind.line))
        end = self.group(tokens, at, name)
        path = (*self.module, *([name_of_impl(home)] if home else []), name.text)
        if path in self.functions:
            raise Unread(name.line, f"a second function {name.text}")
        body = tokens[at + 1 : end - 1]
        generic += tuple(f.type.text for f in fields if isinstance(f.type, Opaque))
        self.functions[path] = Function(path, self.path, name.line, public, export, generic, fields, result, clauses, body, home)
        return end

    def group(self, tokens, at, name):
        """The place behind a clause or a body of a function."""
        if tokens[at].text != "{":
            raise Unread(tokens[at].line, f"what stands in front of the body of {name.text}")
        return end_of(tokens, at)


def attributes(tokens, at):
    """The place behind the attributes of an item, and each as it is written."""
    marks = []
    while tokens[at].text == "#":
        end = end_of(tokens, at + 1)
        marks.append(written(tokens[at + 2 : end - 1]))
        if marks[-1] != NO_MANGLE and marks[-1].split(" ")[0] not in ATTRIBUTES:
            raise Unread(tokens[at].line, f"the attribute `{marks[-1]}`")
        at = end
    return at, marks


def parameters(tokens, at):
    """The names of the parameters that stand at a place between `<` and `>`, if any do, and the place behind them."""
    if tokens[at].text != "<":
        return (), at
    end = angle_end(tokens, at)
    parts = [part[1:] if part[0].text == "const" else part for part in split_types(tokens[at + 1 : end - 1])]
    return tuple(part[0].text for part in parts), end


def with_self(tokens, kind):
    """What stands in an `impl`, with its type in place of `Self`."""
    path = getattr(kind, "path", ("Self",))
    found = []
    for token in tokens:
        words = path if token.text == "Self" else (token.text,)
        for place, word in enumerate(words):
            found += [Token("sign", "::", token.line)] if place else []
            found.append(Token(token.kind, word, token.line))
    return found


def name_of_impl(home):
    """An `impl` as a part of the paths of its functions."""
    return shown(home.type) if home.trait is None else f"{shown(home.trait)} for {shown(home.type)}"


def module_of(path):
    """Crate and modules of a file."""
    crate, module = re.fullmatch(r"crates/([^/]+)/src/(.+)\.rt", path).groups()
    return (crate,) if module in ("lib", "main") else (crate, *module.split("/"))


# ---- bodies


def before(tokens, at):
    return tokens[at - 1] if at else Token("sign", ";", 0)


def behind(tokens, at):
    return tokens[at] if at < len(tokens) else Token("sign", ";", 0)


def is_name(token):
    return token.kind == "name" and token.text not in KEYWORDS


def path_at(tokens, at):
    """The path that begins at a place, and the place behind it."""
    path = [tokens[at].text]
    at += 1
    while behind(tokens, at).text == "::" and behind(tokens, at + 1).kind == "name":
        path.append(tokens[at + 1].text)
        at += 2
    return tuple(path), at


def once(read):
    """What is read of a body is read once, however many walks come to it."""
    found = {}

    @functools.wraps(read)
    def kept(body):
        if id(body) not in found or found[id(body)][0] is not body:
            told = read(body)
            found[id(body)] = body, told if isinstance(told, set) else list(told)
        return found[id(body)][1]

    return kept


@once
def paths_of(body):
    """Each path of names in a body, with its place and the place behind it. Fields and methods are none."""
    at = 0
    while at < len(body):
        end = at + 1
        if is_name(body[at]) or body[at].text in ("crate", "super", "self"):
            path, end = path_at(body, at)
            if before(body, at).text != ".":
                yield path, at, end
        at = end


@once
def calls_of(body):
    """The calls by path, each with the tokens of its arguments."""
    for path, at, end in paths_of(body):
        if behind(body, end).text == "(":
            yield Call(path, split(body[end + 1 : end_of(body, end) - 1]), body[at].line, end)


def takes_handle(body, at, runtime):
    """Is a method one of `rt.stdin()`, `rt.stdout()` and `rt.stderr()`, of the parameter that a program is run with? It takes and gives no row."""
    asked = written(body[max(at - 3, 0) : at + 3]).split(" ")
    return len(asked) == 6 and asked[0] != "." and asked[1:3] == [runtime, "."] and asked[3] in HANDLES and asked[4:] == ["(", ")"]


Method = collections.namedtuple("Method", "name receiver arguments line")


def start_of(body, at):
    """The place where the expression begins that ends before a place: a name or a group, with its calls, fields and indices; no sign in front."""
    while at:
        last = body[at - 1]
        if last.text in CLOSING.values():
            at = opening_of(body, at - 1)
            held = is_name(before(body, at)) or before(body, at).text in (")", "]", "?", "self")
        else:
            held = last.text == "?"
            if not held and last.kind not in ("name", "number", "text"):
                return at
            at -= 1
            if before(body, at).text in (".", "::"):
                at, held = at - 1, True
        if not held:
            return at
    return at


@once
def methods_of(body):
    """The calls of methods, each with the tokens of what it is called on and of its arguments."""
    for at, token in enumerate(body):
        if is_name(token) and before(body, at).text == "." and behind(body, at + 1).text == "(":
            receiver = body[start_of(body, at - 1) : at - 1]
            yield Method(token.text, receiver, split(body[at + 2 : end_of(body, at + 1) - 1]), token.line)


# A closure: its place, the names of its parameters, and the place behind it.
Closure = collections.namedtuple("Closure", "at names end")


@once
def closures_of(body):
    """What begins with `|` where an operand is to stand."""
    at = 0
    while at < len(body):
        back, start = before(body, at), at + 1
        operand = is_name(back) or back.kind in ("number", "text") or back.text in (")", "]", "}", "?", "self")
        if body[at].text in ("|", "||") and not operand:
            if body[at].text == "|":
                start = next((i for i in range(at + 1, len(body)) if body[i].text == "|"), len(body) - 1) + 1
            parts = [split(part, ":")[0] for part in split(body[at + 1 : start - 1])] if start > at + 1 else []
            yield Closure(at, {t.text for part in parts for t in part if is_name(t)}, argument_end(body, start))
            at = start - 1
        at += 1


def argument_end(body, at, ends=(",", ";")):
    """The place behind what stands up to a comma, a semicolon, or the end of the group."""
    while at < len(body) and body[at].text not in (*ends, *CLOSING.values()):
        at = end_of(body, at) if body[at].text in CLOSING else at + 1
    return at


def is_test(body, at):
    """Is the name at a place that of `matches!(..)`, which is a `match`?"""
    return body[at].text == "matches" and behind(body, at + 1).text == "!" and behind(body, at + 2).text == "("


def odd_calls(function, known):
    """What would be called, or brought in, in a form that is not followed: what it is, and its line. Methods of these names are known."""
    body = function.body
    runtime = next((field.name for field in function.fields if field.type == Named(("HostRuntime",))), None)
    for at, token in enumerate(body):
        ahead, back = behind(body, at + 1).text, before(body, at)
        if token.text in ("use", "fn", "struct", "enum", "const", "type", "impl", "static", "unsafe"):
            yield f"`{token.text}` in a body", token.line
        if token.text == "(" and back.text in (")", "]"):
            yield "a call of what is no name", token.line
        if is_name(token) and back.text == "." and ahead == "(" and token.text not in known and not takes_handle(body, at, runtime):
            yield f"the method {token.text}", token.line
        if token.text == "::" and ahead == "<":
            yield "a call with types", token.line
        if is_name(token) and ahead == "!" and behind(body, at + 2).text in CLOSING and not is_test(body, at):
            yield f"the macro {token.text}", token.line


Let = collections.namedtuple("Let", "name at kind value")


def let_at(body, at):
    """A `let`: the name and its place, none where it binds a pattern; the tokens of its type and of its value. That of a condition ends at the
    block, and that of one with an `else` there."""
    asked = before(body, at).text in ("if", "while", "&&")
    at += 2 if behind(body, at + 1).text == "mut" else 1
    end = argument_end(body, at, (";",))
    equal = at + next((i for i in top(body[at:end]) if body[at + i].text == "="), end - at)
    choice = behind(body, equal + 1).text in ("if", "match")
    ends = ("{", "&&") if asked else () if choice else ("else",)
    end = equal + 1 + next((i for i in top(body[equal + 1 : end]) if body[equal + 1 + i].text in ends), end - equal - 1)
    plain = is_name(behind(body, at)) and behind(body, at + 1).text in (":", "=", ";")
    return Let(body[at].text if plain else None, at, body[at + 2 : equal] if plain else [], body[equal + 1 : end])


def names_in(pattern):
    """The names that a pattern binds; a name of a type or a variant is none."""
    pairs = zip(pattern, [*pattern[1:], Token("sign", ";", 0)], [Token("sign", ";", 0), *pattern])
    return {t.text for t, ahead, back in pairs if is_name(t) and ahead.text not in ("(", "{", "::") and back.text != "::"}


def arms_of(inner):
    """The arms of a `match`, each with its pattern and what stands behind the arrow."""
    at = 0
    while at < len(inner):
        arrow = argument_end(inner, at, ("=>",))
        start = arrow + 1
        block = behind(inner, start).text == "{"
        end = end_of(inner, start) if block else argument_end(inner, start)
        pattern = inner[at:arrow]
        guard = next((i for i in top(pattern) if pattern[i].text == "if"), len(pattern))
        yield pattern[:guard], inner[start:end]
        at = end + (behind(inner, end).text == ",")


@once
def bound_names(body):
    """The names that a body binds: by `let`, by `for`, in the patterns of a `match`, and as parameters of closures."""
    names = set().union(*(closure.names for closure in closures_of(body)))
    for at, token in enumerate(body):
        if token.text in ("let", "for"):
            end = next((i for i in range(at, len(body)) if body[i].text in ("=", "in", ";")), at)
            pattern = body[at + 1 : end]
            names |= names_in(pattern[: next((i for i in top(pattern) if pattern[i].text == ":"), len(pattern))])
        if token.text == "match":
            opening = argument_end(body, at + 1, ("{",))
            for pattern, _ in arms_of(body[opening + 1 : end_of(body, opening) - 1]):
                names |= names_in(pattern)
    return names


def groups_of(body):
    """What stands in brackets that are no index: array expressions and types, each with its place."""
    for at, token in enumerate(body):
        back = before(body, at)
        if token.text == "[" and not is_name(back) and back.text not in (")", "]", "#"):
            yield at, body[at : end_of(body, at)]


def opening_of(body, at):
    """The place where the group opens in which a place stands, None for none."""
    depth = 0
    for i in range(at - 1, -1, -1):
        if body[i].text in CLOSING.values():
            depth += 1
        elif body[i].text in CLOSING:
            depth -= 1
        if depth < 0:
            return i
    return None
