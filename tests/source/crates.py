"""All crates of the source together: what a name in a file means, and how many words values have."""

import functools

import rattle
from rattle import Applied, Array, Named, Ref, Tuple

OPERATORS = frozenset("+ - * / % | & ^ << >> == != < > <= >= && || as".split())
TRUTHS = frozenset(["true", "false"])
# What is made of one value, in an Option or a Result.
MADE_OF = frozenset(["Some", "Ok", "Err"])
# Methods of std that give a single number, and those that give what they are called on or given, or a part of it.
SINGLE = frozenset("all any cmp count is_empty is_eq is_err is_ge is_gt is_le is_lt is_none is_ok is_some len position sum then".split())
SINGLE |= rattle.NUMBERS - {"max", "min"}
KEEPING = frozenset("copied max min ok ok_or unwrap unwrap_or".split())
# Traits whose functions are called by a macro, if not by their names.
PRINTING = frozenset(["Debug", "Display"])


@functools.lru_cache(maxsize=None)
def file_of(path, text):
    """A file is read once, however many trees it is in."""
    return rattle.File(path, text)


class Crates:
    """Functions, types and constants by their paths; files that are not read, with what is not."""

    def __init__(self, tree):
        self.files, self.unread, self.twice = {}, {}, []
        self.functions, self.declared, self.constants = {}, {}, {}
        for path, text in tree.items():
            if not path.endswith(".rt"):
                continue
            try:
                file = file_of(path, text)
            except rattle.Unread as fault:
                self.unread[rattle.module_of(path)] = (path, fault.line, f"{fault.what} is not read")
                continue
            self.files[path] = file
            for ours, theirs in ((self.functions, file.functions), (self.declared, file.declared), (self.constants, file.constants)):
                self.twice += [(path, "::".join(name)) for name in theirs if name in ours]
                ours.update(theirs)
        self.modules = {file.module for file in self.files.values()} | set(self.unread)
        self.methods, self.members, self.given = {}, {}, {}
        for function in self.functions.values():
            if function.home:
                self.take_in(function, self.files[function.file])

    def take_in(self, function, file):
        """A function of an `impl`: by its name, by its type with its name, and, of a trait, by the types that it can be called for unnamed."""
        trait, name = function.home.trait, function.path[-1]
        own = {declared.path for kind in named_in(function.home.type) if (declared := self.type_of(kind.path, file))}
        self.methods.setdefault(name, []).append(function)
        for path in own:
            self.members.setdefault((*path, name), []).append(function)
        if trait is not None and getattr(trait, "path", ("",))[-1] not in PRINTING:
            others = {declared.path for kind in named_in(trait) if (declared := self.type_of(kind.path, file))}
            for path in own or others:
                self.given.setdefault(path, []).append(function)

    def resolved(self, path, file):
        """The full path of a name in a file."""
        crate = file.module[0]
        if path[0] == "crate":
            return (crate, *path[1:])
        if path[0] == "self":
            return (*file.module, *path[1:])
        if path[0] == "super":
            return (*file.module[:-1], *path[1:])
        if path[0] in file.imports and file.imports[path[0]] != path[:1]:
            return (*self.resolved(file.imports[path[0]], file), *path[1:])
        if len(path) == 1 or (*file.module, path[0]) in self.modules:
            return (*file.module, *path)
        return path

    def type_of(self, path, file):
        """The declared type that a path names, by itself or by a variant of it."""
        whole = self.declared.get(self.resolved(path, file))
        if whole or len(path) < 2:
            return whole
        declared = self.declared.get(self.resolved(path[:-1], file))
        return declared if declared and path[-1] in declared.variants else None

    def functions_of(self, path, file):
        """The functions that a path names: that of a module, or those of a type that have the name."""
        whole = self.functions.get(self.resolved(path, file))
        if whole and not whole.home:
            return [whole]
        return self.members.get((*self.resolved(path[:-1], file), path[-1]), []) if len(path) > 1 else []

    def is_std(self, path, file):
        """Is the name before a path's end one of the language's own library, by no name of ours?"""
        return (*file.module[:1], path[0]) not in self.modules and path[0] not in file.imports and self.resolved(path, file) not in self.functions

    def length(self, tokens, file):
        """The places of an array, by a numeral or a constant, None for any other length."""
        number = rattle.numeral(tokens)
        if number is None and tokens and rattle.is_name(tokens[0]):
            path, end = rattle.path_at(tokens, 0)
            constant = self.constants.get(self.resolved(path, file)) if end == len(tokens) else None
            number = rattle.numeral(constant.value) if constant else None
        return number

    def words(self, kind, file, inside=()):
        """How many words a value of a type has, None where that cannot be told. A reference has none of its own."""
        if isinstance(kind, Ref):
            return 0
        if isinstance(kind, Array):
            of, places = self.words(kind.of, file, inside), self.length(kind.length, file)
            return None if of is None or places is None else of * places
        if isinstance(kind, Tuple):
            return total(self.words(part, file, inside) for part in kind.parts)
        if isinstance(kind, Applied):
            return self.words_of_applied(kind, file, inside)
        if not isinstance(kind, Named):
            return None
        if kind.path[-1] in rattle.WIDTHS:
            return rattle.WIDTHS[kind.path[-1]]
        declared = self.type_of(kind.path, file)
        if declared is None or declared.path in inside:
            return None
        home = self.files[declared.file]
        groups = [[self.words(field.type, home, (*inside, declared.path)) for field in group] for group in declared.groups]
        if any(None in group for group in groups):
            return None
        return declared.choice + max(map(sum, groups), default=0)

    def words_of_applied(self, kind, file, inside):
        """Those of an Option or a Result, or of a type that has a lifetime alone."""
        try:
            arguments = rattle.arguments_of(kind)
        except rattle.Unread:
            return None
        if not arguments:
            return self.words(Named(kind.path), file, inside)
        if {"Option": 1, "Result": 2}.get(kind.path[-1]) != len(arguments) or len(kind.path) > 1 or not self.is_std(kind.path, file):
            return None
        words = [self.words(argument, file, inside) for argument in arguments]
        return None if None in words else 1 + max(words)

    def field_words(self, name):
        """The most words that a field of this name has, in any type."""
        found = [
            self.words(field.type, self.files[declared.file])
            for declared in self.declared.values()
            for group in declared.groups
            for field in group
            if field.name == name
        ]
        return None if None in found else max(found, default=None)


def total(words):
    """A sum, None where one of its parts is."""
    words = list(words)
    return None if None in words else sum(words)


def named_in(kind):
    """The names of types in a type."""
    if isinstance(kind, Named):
        yield kind
    elif isinstance(kind, Ref):
        yield from named_in(kind.to)
    elif isinstance(kind, (Array, rattle.Slice)):
        yield from named_in(kind.of)
    elif isinstance(kind, Tuple):
        for part in kind.parts:
            yield from named_in(part)
    elif isinstance(kind, Applied):
        yield Named(kind.path)
        for part in rattle.arguments_of(kind):
            yield from named_in(part)


class Values:
    """How many words the values have that a function names: parameters, locals, and any expression."""

    def __init__(self, crates, function):
        self.crates, self.function, self.file = crates, function, crates.files[function.file]
        self.names = {f.name: crates.words(f.type, self.file) for f in function.fields}
        body = function.body
        self.counters = {body[at + 1].text for at, token in enumerate(body) if token.text == "for" and counts(body, at)}
        self.locals = [self.let(at) for at, token in enumerate(function.body) if token.text == "let"]

    def let(self, at):
        """Takes in a local, and gives its words; of a pattern those of its value."""
        let = rattle.let_at(self.function.body, at)
        words = self.crates.words(rattle.type_of(let.kind), self.file) if let.kind else self.of(let.value) if let.value else None
        if let.name:
            known = self.names.get(let.name, 0)
            self.names[let.name] = None if None in (words, known) else max(words, known)
        return words

    def of(self, tokens):
        """The words of an expression, None where that cannot be told."""
        if not tokens:
            return 0
        first = tokens[0]
        if first.text in ("if", "match", "{"):
            return self.of_branches(tokens)
        if first.text in ("loop", "while", "for", "return", "break", "|", "||"):
            return None
        if any(tokens[at].text in OPERATORS for at in rattle.top(tokens) if at):
            return 1
        if tokens[-1].text == "?":
            return self.of(tokens[:-1])
        if first.text in ("!", "-", "*"):
            return self.of(tokens[1:])
        if first.text == "&":
            return self.of(tokens[2:] if rattle.behind(tokens, 1).text == "mut" else tokens[1:])
        if first.kind == "number":
            return 2 if first.text.endswith(("64", "size")) else 1
        if first.kind == "text":
            return 1 if first.text.startswith("b'") else None
        if first.text == "(" and rattle.end_of(tokens, 0) == len(tokens):
            return total(self.of(part) for part in rattle.split(tokens[1:-1]))
        if first.text == "[" and rattle.end_of(tokens, 0) == len(tokens):
            return self.of_array(tokens)
        method = method_at_end(tokens)
        if method:
            return self.of_method(method)
        return self.of_name(tokens) if rattle.is_name(first) or first.text in ("crate", "super", "self") else None

    def of_method(self, method):
        """What a method gives: a single number, what goes in, or what ours of its name give."""
        if method.name in self.crates.methods:
            ours = self.crates.methods[method.name]
            found = [self.crates.words(f.result, self.crates.files[f.file]) if f.result else 0 for f in ours]
            return None if None in found else max(found)
        if method.name in SINGLE:
            return 2
        if method.name == "fold":
            return self.of(method.arguments[0])
        return total(map(self.of, [method.receiver, *method.arguments])) if method.name in KEEPING else None

    def of_branches(self, tokens):
        """The most that a branch of an `if`, an arm of a `match`, or a block ends with."""
        found = []
        for at in rattle.top(tokens):
            if tokens[at].text == "{":
                inner = tokens[at + 1 : rattle.end_of(tokens, at) - 1]
                if tokens[0].text == "match":
                    found += [self.of(value) for _, value in rattle.arms_of(inner)]
                else:
                    found.append(self.of(rattle.split(inner, ";")[-1] if inner and inner[-1].text != ";" else []))
        return None if None in found else max(found, default=None)

    def of_array(self, tokens):
        repeated = rattle.split(tokens[1:-1], ";")
        if len(repeated) == 2:
            of, places = self.of(repeated[0]), self.crates.length(repeated[1], self.file)
            if rattle.numeral(repeated[0]) is not None and repeated[0][0].text.isdigit():
                of = 2  # a number of any width
            return None if of is None or places is None else of * places
        elements = [self.of(element) for element in rattle.split(tokens[1:-1])]
        return None if None in elements else sum(elements)

    def of_name(self, tokens):
        """A name, call, struct, field or element."""
        path, end = rattle.path_at(tokens, 0)
        follows = rattle.behind(tokens, end).text
        if end == len(tokens):
            return self.of_word(path)
        if follows in rattle.CLOSING and rattle.end_of(tokens, end) == len(tokens):
            return self.of_group(path, follows, tokens[end + 1 : -1])
        last = tokens[-1]
        if last.kind in ("name", "number") and tokens[-2].text == ".":
            return self.crates.field_words(last.text)
        # an element of a field: arrays have numbers
        return 1 if last.text == "]" and tokens[-2].text not in (".", "]") else None

    def of_word(self, path):
        """A constant, a variant, a truth, or a local."""
        constant = self.crates.constants.get(self.crates.resolved(path, self.file))
        if constant:
            return self.crates.words(constant.type, self.file)
        if self.crates.type_of(path, self.file):
            return self.crates.words(Named(path), self.file)
        return 1 if path[0] in TRUTHS or path == ("None",) else self.names.get(path[0], 2 if path[0] in self.counters else None)

    def of_group(self, path, follows, inner):
        """What is called, made, or taken out of an array of numbers."""
        if path[-1] in MADE_OF and len(path) == 1 and follows == "(":
            of = self.of(inner)
            return None if of is None else 1 + of
        if follows == "[":
            return 1
        called = next(iter(self.crates.functions_of(path, self.file)), None)
        if called and follows == "(":
            home = self.crates.files[called.file]
            return 0 if called.result is None else self.crates.words(called.result, home)
        if path[:-1] and path[-2] in (*rattle.WIDTHS, "num"):
            return 1
        declared = self.crates.type_of(path, self.file)
        return self.crates.words(Named(declared.path), self.file) if declared else None


def counts(body, at):
    """Does a `for` count numbers of a range?"""
    start = next((i for i in range(at, len(body)) if body[i].text == "in"), len(body))
    return any(t.text in ("..", "..=") for t in body[start : rattle.argument_end(body, start, ("{",))])


def method_at_end(tokens):
    """The method whose call an expression ends with, where it does."""
    if tokens[-1].text != ")":
        return None
    opening = rattle.opening_of(tokens, len(tokens) - 1)
    if opening is None or opening < 3 or tokens[opening - 2].text != "." or not rattle.is_name(tokens[opening - 1]):
        return None
    return rattle.Method(tokens[opening - 1].text, tokens[: opening - 2], rattle.split(tokens[opening + 1 : -1]), tokens[-1].line)
