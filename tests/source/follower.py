"""Follows a call through the crates: every function that it can reach, by name, held to rules on arrays and rows."""

import collections

import rattle
from crates import MADE_OF, Values
from rattle import Applied, Array, Named, Ref, Slice, Tuple
from rows import COPY, EQUALS, FILL, Rows, base_of, is_row

FOLLOWED = "every call is followed"
SMALL = "an array has a clock's or a set's places at most"
LENT = "a row is one that the call was lent"
STRAIGHT = "a frame's words go to no row but theirs"
RULES = {
    FOLLOWED: "nothing is called or named in a form that is not read, and nothing calls itself",
    SMALL: "no array has more words than a clock or a set, no value more than a frame's fields, all values of a function together no more "
    "than twelve clocks and sets, and those of functions with a frame's words that call one another fewer than the largest frame",
    LENT: "each row is one that the walk's first call was lent, or a part of it, and is named only to be lent on, read, measured or copied; "
    "words of it are copied to a row of the walk, nothing holds one, and no closure takes one in",
    STRAIGHT: "a function with a frame's words and another row to write to neither reads the words, nor copies them there, nor is told "
    "anything by a call that has them, but by those that the walk names",
}
# Methods of std that neither give nor take a row, but by the rules for rows; those that take a closure, and the function that does.
TAKING = frozenset("all any filter find fold for_each is_some_and map map_err position take_while".split())
KNOWN = TAKING | rattle.NUMBERS | {COPY, FILL}
KNOWN |= frozenset("chunks_exact cmp contains copied count enumerate first first_chunk into is_empty is_err is_ge is_gt is_le".split())
KNOWN |= frozenset("is_lt is_none is_ok is_some iter iter_mut last len ok ok_or rev skip sum take then try_into unwrap unwrap_or zip".split())
FILLED = ("std", "array", "from_fn")
# Names of std that a body may say by themselves.
WORDS_OF_STD = frozenset(["None", "Option", "Result"])
PLACES = 8  # a clock or a set
FIELDS = 24  # a frame that was read has 22 words, and comes with what is said of it
TOGETHER = 96  # all parameters and locals of a function
LARGEST = 267  # the words of a frame of 8 offices with 255 dependencies

# What a walk begins with; the rows that it is lent; those of them that have a frame's words; where such words may be put; the calls that
# may tell of them a function with other rows to write to; the calls where the walk ends, each with the rows that it is to be lent; and
# where the length in front of a frame is read. In a narrow walk only calls that are lent a row are followed, and arrays are looked at only
# where words are.
Walk = collections.namedtuple("Walk", "name first rows words into tellers ends lengths narrow")


def quoted(names):
    return ", ".join(f"`{name}`" for name in sorted(names))


class Follower:
    """One walk: the functions that it reached, the arrays there, and what is wrong."""

    def __init__(self, crates, walk):
        self.crates, self.walk = crates, walk
        self.faults = {rule: [] for rule in RULES}
        self.arrays, self.reached, self.calls, self.sizes, self.seen, self.types = {}, {}, {}, {}, set(), set()
        for path, name in crates.twice:
            self.fault(FOLLOWED, path, 1, f"{name} is there twice")
        first = crates.functions.get(tuple(walk.first.split("::")))
        if first is None:
            self.fault(FOLLOWED, "crates.txt", 1, f"there is no function {walk.first}")
            return
        waiting = [(first, self.first_rows(first))]
        while waiting:
            waiting += self.visit(*waiting.pop())
        circles = list(self.circles())
        for name in circles:
            self.fault(FOLLOWED, self.reached[name].file, self.reached[name].line, f"{name} calls itself")
        if not circles:
            self.look_at_chains()

    def fault(self, rule, file, line, what):
        if f"{file}:{line}: {what}" not in self.faults[rule]:
            self.faults[rule].append(f"{file}:{line}: {what}")

    def first_rows(self, first):
        """The rows that the first call is lent; of a program's `main` its locals of these names."""
        for field in first.fields:
            if isinstance(field.type, Ref) and not (is_row(field.type) and field.name in self.walk.rows):
                self.fault(LENT, first.file, field.line, f"{self.walk.first} is lent `{field.name}` besides {quoted(self.walk.rows)}")
        return {name: name for name in self.walk.rows}

    def visit(self, function, lent):
        """Looks at a function that is lent these rows, and gives what it calls."""
        key = (function.path, tuple(sorted(lent.items())))
        if key in self.seen:
            return []
        self.seen.add(key)
        name = "::".join(function.path)
        self.reached[name] = function
        rows = Rows(function, lent, self.crates.methods)
        self.look_at_names_of_rows(function, rows)
        self.look_at_closures(function, rows)
        self.named = []
        if not self.walk.narrow or any(rows.of[word.name] in self.walk.words for word in rows.words):
            total = self.look_at_values(function)
            if self.walk.words & set(rows.of.values()):
                self.sizes[name] = total
        for what, line in rattle.odd_calls(function, KNOWN | set(self.crates.methods)):
            self.fault(FOLLOWED, function.file, line, f"{what} in {function.path[-1]} is not followed")
        others = self.others(function, rows)
        self.look_at_words(function, rows, others)
        self.look_at_copies(function, rows)
        called = [c for call in rattle.calls_of(function.body) for c in self.called(call, function, rows, others)]
        called += [c for method in rattle.methods_of(function.body) for c in self.by_method(method, function, rows, others)]
        self.calls.setdefault(name, set()).update("::".join(c[0].path) for c in called)
        return called + self.called_unnamed()

    def called_unnamed(self):
        """The functions of traits that can be called though no call names them, of the types that a function named first: they are lent nothing."""
        found = [] if self.walk.narrow else [f for path in self.named for f in self.crates.given.get(path, ())]
        for function in found:
            for field in function.fields:
                if rattle.has_reference(field.type) and not (isinstance(field.type, Ref) and isinstance(field.type.to, Named)):
                    what = f"{function.path[-1]} of {function.path[-2]} takes `{field.name}`: no row that it was lent"
                    self.fault(LENT, function.file, field.line, what)
        return [(function, {}) for function in found]

    def circles(self):
        """The functions that can come back to themselves."""
        for start in self.reached:
            waiting, seen = list(self.calls.get(start, ())), set()
            while waiting:
                name = waiting.pop()
                if name not in seen:
                    seen.add(name)
                    waiting += self.calls.get(name, ())
            if start in seen:
                yield start

    # ---- values

    def look_at_values(self, function):
        """What it is given, gives and makes: arrays, declared types, constants, and how many words all its values have together."""
        file = self.crates.files[function.file]
        for declared in file.declared.values():
            self.look_at_declared(declared)
        for field in function.fields:
            if not takes_any(field.type, function):
                self.look_at_type(field.type, file, function.path[-1], field.name, field.line)
        if function.result is not None:
            self.look_at_type(function.result, file, function.path[-1], "what is returned", function.line)
            if rattle.has_reference(function.result):
                self.fault(LENT, function.file, function.line, f"what is returned of {function.path[-1]} may be a row")
        values = Values(self.crates, function)
        self.look_at_names(function, values)
        self.look_at_arrays(function, values)
        given = [self.crates.words(f.type, file) or 0 for f in function.fields]
        total = sum(given) + sum(FIELDS if n is None else n for n in values.locals)
        if total > TOGETHER:
            self.fault(SMALL, function.file, function.line, f"the values of {function.path[-1]} have {total} words together")
        return total

    def look_at_chains(self):
        """The values of functions with a frame's words, along the calls from one to the next."""
        deepest = {}

        def below(name):
            if name not in deepest:
                deepest[name] = self.sizes.get(name, 0) + max(map(below, self.calls.get(name, ())), default=0)
            return deepest[name]

        for name in self.sizes:
            if below(name) >= LARGEST:
                what = f"the values of {name} and of what it calls with a frame's words have {below(name)} words together"
                self.fault(SMALL, self.reached[name].file, self.reached[name].line, what)

    def look_at_names(self, function, values):
        """The declared types and the constants that a body names. Any other name has to be a local or a call."""
        body, file = function.body, values.file
        ours = {*values.names, *rattle.bound_names(body), *rattle.WIDTHS, "true", "false"}
        ours |= {word for word in WORDS_OF_STD if self.crates.is_std((word,), file)}
        for path, at, end in rattle.paths_of(body):
            line, follows = body[at].line, rattle.behind(body, end).text
            declared = self.crates.type_of(path, file)
            constant = self.crates.constants.get(self.crates.resolved(path, file))
            if declared:
                self.look_at_type(Named(declared.path), file, function.path[-1], "a local", line)
            elif constant and path[0] not in values.names:
                self.look_at_type(constant.type, file, function.path[-1], f"the constant {constant.name}", line)
            elif not (follows in ("(", ":") or path[0] in ours and len(path) == 1 or path[0] in rattle.WIDTHS or rattle.is_test(body, at)):
                self.fault(FOLLOWED, function.file, line, f"{function.path[-1]} names {'::'.join(path)}, which is not found")

    def look_at_type(self, kind, file, where, name, line):
        if is_row(kind) and kind.to.of == Named(("u32",)):
            return
        if isinstance(kind, Ref):
            kind = kind.to
        if rattle.has_reference(kind):
            self.fault(LENT, file.path, line, f"{name} of {where}, {rattle.shown(kind)}, may hold a row")
        words = self.crates.words(kind, file)
        if isinstance(kind, Array):
            self.note(file.path, line, where, name, rattle.shown(kind), words)
            if not isinstance(kind.of, Named) or kind.of.path[-1] not in rattle.WIDTHS:
                self.fault(SMALL, file.path, line, f"{name} of {where} is an array of {rattle.shown(kind.of)}")
        if words is None or words > FIELDS:
            size = "cannot be counted" if words is None else f"has {words} words"
            self.fault(SMALL, file.path, line, f"{name} of {where}, {rattle.shown(kind)}, {size}")
        for inner in parts_of(kind):
            self.look_at_type(inner, file, where, name, line)
        if isinstance(kind, (Named, Applied)):
            self.look_at_fields(self.crates.type_of(kind.path, file))

    def look_at_declared(self, declared):
        """No type that is named holds a row, and none in a file with code that is followed."""
        if any(rattle.has_reference(field.type) for group in declared.groups for field in group):
            self.fault(FOLLOWED, declared.file, declared.line, f"the type {declared.path[-1]} may hold a row, and is not followed")

    def look_at_fields(self, declared):
        if declared is None or declared.path in self.types:
            return
        self.types.add(declared.path)
        self.named.append(declared.path)
        home = self.crates.files[declared.file]
        self.look_at_declared(declared)
        for field in (field for group in declared.groups for field in group):
            self.look_at_type(field.type, home, declared.path[-1], field.name, field.line)

    def look_at_arrays(self, function, values):
        """The arrays in a body, as expressions and as types of locals; a string is one too."""
        for token in function.body:
            if token.kind == "text" and '"' in token.text:
                self.fault(SMALL, function.file, token.line, f"{function.path[-1]} has the string {token.text}")
        for at, group in rattle.groups_of(function.body):
            if len(group) > 3 or group[1].text not in rattle.WIDTHS:  # no type of a slice
                self.look_at_array(function, values, at, group)

    def look_at_array(self, function, values, at, group):
        repeated = rattle.split(group[1:-1], ";")
        elements = [repeated[0]] if len(repeated) == 2 else rattle.split(group[1:-1])
        length = rattle.written(repeated[1]) if len(repeated) == 2 else len(elements)
        if len(repeated) == 2 and rattle.written(repeated[0]) in rattle.WIDTHS:
            words = self.crates.words(rattle.type_of(group), values.file)
        else:
            words = values.of_array(group)
            asked = self.words_by_place(function.body, at, at + len(group), values) if len(repeated) == 2 else None
            words = asked if asked and asked == self.crates.length(repeated[1], values.file) else words
            for element in elements:
                if (values.of(element) or 3) > 2:
                    what = f"an array of {function.path[-1]} has `{rattle.written(element)}` in a place"
                    self.fault(SMALL, function.file, group[0].line, what)
        self.note(function.file, group[0].line, function.path[-1], self.bound(function.body, at), f"{length} places", words)

    def words_by_place(self, body, at, end, values):
        """The words of an array by where it stands, as its numbers have the width that is asked there: beside `==`, in a field, or as an argument.
        None where nothing is asked."""
        back, ahead = rattle.before(body, at).text, rattle.behind(body, end).text
        if back in EQUALS:
            return values.of(body[rattle.start_of(body, at - 1) : at - 1])
        if back == ":" and rattle.before(body, at - 2).text in ("{", ","):
            return self.crates.field_words(body[at - 2].text)
        opening = rattle.opening_of(body, at)
        if back not in ("(", ",") or ahead not in (")", ",") or body[opening].text != "(" or not rattle.is_name(rattle.before(body, opening)):
            return None
        called = next((c for c in rattle.calls_of(body) if c.at == opening), None)
        callee = called and self.crates.functions.get(self.crates.resolved(called.path, values.file))
        place = len([i for i in rattle.top(body[opening + 1 : at]) if body[opening + 1 + i].text == ","])
        if callee is None or len(callee.fields) <= place:
            return None
        return self.crates.words(callee.fields[place].type, self.crates.files[callee.file])

    def bound(self, body, at):
        """The name that an array is bound to: the first of its statement."""
        start = at
        while start and body[start - 1].text not in (";", "{", "}"):
            start -= 1
        names = [t.text for t in body[start:at] if rattle.is_name(t)]
        return names[0] if names else "what is returned"

    def note(self, path, line, where, name, size, words):
        """An array, to be printed; wrong where it has room for more than a clock or a set."""
        self.arrays[(path, line, where, name)] = size
        if words is None or words > PLACES:
            self.fault(SMALL, path, line, f"{name} of {where}, {size}, has room for a frame's words")

    # ---- rows

    def look_at_names_of_rows(self, function, rows):
        """A row is named only to be lent on, read, measured or copied; a program's `main`, which is lent none, makes each once."""
        made = set()
        for name, line in rows.odd:
            at = next(i for i, t in enumerate(function.body) if t.line == line and t.text == name)
            lent = any(isinstance(field.type, Ref) for field in function.fields)
            if not lent and rattle.before(function.body, at).text == "mut" and name not in made:
                made.add(name)
                continue
            what = f"{function.path[-1]} names the row `{name}` otherwise than to lend, read, measure or copy it"
            self.fault(LENT, function.file, line, what)

    def look_at_closures(self, function, rows):
        """A closure goes straight to what calls it, and takes no row in."""
        body, file = function.body, self.crates.files[function.file]
        for closure in rattle.closures_of(body):
            opening = rattle.opening_of(body, closure.at)
            start = rattle.start_of(body, opening) if opening is not None else 0
            taker = rattle.written(body[start:opening]) if opening is not None and body[opening].text == "(" else ""
            method = body[opening - 1].text if taker and rattle.before(body, opening - 1).text == "." else None
            filled = taker == " :: ".join(FILLED) and self.crates.is_std(FILLED, file)
            if not filled and method not in TAKING - set(self.crates.methods):
                self.fault(FOLLOWED, function.file, body[closure.at].line, f"a closure in {function.path[-1]} is not followed")
            for path, at, _ in rattle.paths_of(body):
                if closure.at <= at < closure.end and path[0] in rows.of:
                    self.fault(LENT, function.file, body[at].line, f"a closure in {function.path[-1]} takes in the row `{path[0]}`")

    def look_at_copies(self, function, rows):
        """Words are copied from a row, or from an array, to a row; those of a frame only to where they may go."""
        values = Values(self.crates, function)
        for method in rattle.methods_of(function.body):
            if method.name != COPY or len(method.arguments) != 1:
                continue
            to, source, where = rows.of.get(base_of(method.receiver)), rows.of.get(base_of(method.arguments[0])), function.path[-1]
            if source is not None and to is None:
                what = f"{where} copies words of `{source}` to `{rattle.written(method.receiver)}`: no row that it was lent"
                self.fault(LENT, function.file, method.line, what)
            elif source in self.walk.words and to not in self.walk.into:
                self.fault(STRAIGHT, function.file, method.line, f"{where} copies words of `{source}` to `{to}`")
            elif source is None and to is not None and not self.walk.narrow and not 0 < (values.of(method.arguments[0]) or 0) <= PLACES:
                what = f"{where} copies `{rattle.written(method.arguments[0])}`: no row that it was lent"
                self.fault(LENT, function.file, method.line, what)

    def others(self, function, rows):
        """The rows that it can write to and that a frame's words may not go to, where it has a row of such words."""
        if not self.walk.words & set(rows.of.values()):
            return set()
        fields = [f for f in function.fields if isinstance(f.type, Ref)]
        mutable = {rows.of.get(f.name, f"its own {f.name}") for f in fields if f.type.mutable} if fields else set(rows.of.values())
        return mutable - self.walk.into

    def look_at_words(self, function, rows, others):
        """A function with a frame's words and another row to write to does not read them."""
        bound = rattle.bound_names(function.body)
        for word in rows.words:
            row, length = rows.of[word.name], self.walk.lengths.get("::".join(function.path))
            if word.parts and self.walk.narrow and row in self.walk.words:  # what has them is followed only by their name
                self.fault(LENT, function.file, word.line, f"{function.path[-1]} has parts of `{row}` by another name")
            once = [w.text for w in rows.words if w.name == word.name] == [length]
            if row in self.walk.words and others and not (once and not bound & set(length.split())):
                what = f"{function.path[-1]} has words of `{row}` at hand, and {quoted(others)} to put them into"
                self.fault(STRAIGHT, function.file, word.line, what)

    def called(self, call, function, rows, others):
        """The functions that a call by a path can be of, each with the rows that it is lent, where they are to be followed."""
        file = self.crates.files[function.file]
        lent = {rows.of[base] for a in call.arguments if (base := base_of(a)) in rows.of}
        path = self.crates.resolved(call.path, file)
        if self.is_made(call.path, file):
            for row in lent:
                self.fault(LENT, function.file, call.line, f"{function.path[-1]} puts the row `{row}` into {'::'.join(call.path)}")
            return []
        if self.walk.narrow and not lent or not lent and self.is_numeric(call.path, file):
            return []
        found = [f for f in self.crates.functions_of(call.path, file) if len(f.fields) == len(call.arguments)]
        if not found:
            self.not_found(call, path, function)
        return [c for callee in found for c in self.call_of(call, callee, callee.fields, function, rows, others)]

    def by_method(self, method, function, rows, others):
        """The same of a call of a method, by its name alone: each of ours that has it."""
        lent = {rows.of[base] for a in method.arguments if (base := base_of(a)) in rows.of}
        if self.walk.narrow and not lent:
            return []
        call = rattle.Call((method.name,), method.arguments, method.line, None)
        ours = self.crates.methods.get(method.name, ())
        ours = [f for f in ours if f.fields and f.fields[0].name == "self" and len(f.fields) == len(method.arguments) + 1]
        if not ours and method.name not in KNOWN and method.name in self.crates.methods:
            self.not_found(call, (method.name,), function)
        return [c for callee in ours for c in self.call_of(call, callee, callee.fields[1:], function, rows, others)]

    def call_of(self, call, callee, fields, function, rows, others):
        """A function that is called, with the rows that it is lent, where the walk goes on."""
        lent = {rows.of[base] for a in call.arguments if (base := base_of(a)) in rows.of}
        if callee.generic and (lent or not all(takes_any(f.type, callee) or is_plain(f.type, callee) for f in callee.fields)):
            self.fault(FOLLOWED, function.file, call.line, f"{function.path[-1]} calls {callee.path[-1]}, which takes values of any type")
        tells = callee.result is not None or any(isinstance(f.type, Ref) and f.type.mutable and not is_row(f.type) for f in callee.fields)
        if others and lent & self.walk.words and tells and "::".join(callee.path) not in self.walk.tellers:
            what = f"is told by {callee.path[-1]}, which has a frame's words, and has {quoted(others)} to put them into"
            self.fault(STRAIGHT, function.file, call.line, f"{function.path[-1]} {what}")
        inner = self.lent_on(call, callee, fields, function, rows)
        wanted = self.walk.ends.get("::".join(callee.path))
        if wanted is not None and inner != wanted:
            self.fault(LENT, function.file, call.line, f"{function.path[-1]} lends {callee.path[-1]} other rows than {wanted}")
        return [(callee, inner)] if wanted is None else []

    def is_made(self, path, file):
        """Does what looks like a call make a value, of a type of ours or of Option and Result?"""
        if self.crates.resolved(path, file) in self.crates.functions:
            return False
        return bool(self.crates.type_of(path, file)) or len(path) == 1 and path[0] in MADE_OF and self.crates.is_std(path, file)

    def is_numeric(self, path, file):
        """A call into the language's own library, which takes and gives single numbers, or fills an array by a closure."""
        if path == FILLED and self.crates.is_std(path, file):
            return True
        ours = (*file.module[:1], path[0]) in self.crates.modules or path[0] in file.imports
        return not ours and (len(path) == 2 and path[0] in rattle.WIDTHS or len(path) == 3 and path[:2] == ("std", "num"))

    def not_found(self, call, path, function):
        self.fault(FOLLOWED, function.file, call.line, f"{function.path[-1]} calls {'::'.join(call.path)}, which is not found so")
        if path[:-1] in self.crates.unread:
            self.fault(FOLLOWED, *self.crates.unread[path[:-1]])

    def lent_on(self, call, callee, fields, function, rows):
        """The rows that a call lends, by the names that the function has for them."""
        inner = {}
        for field, argument in zip(fields, call.arguments):
            base = base_of(argument)
            if not isinstance(field.type, Ref) or isinstance(field.type.to, Named) or base not in rows.of and is_answer(field.type):
                continue
            if base in rows.of:
                inner[field.name] = rows.of[base]
            elif not self.walk.narrow or field.type.mutable and getattr(field.type.to, "of", None) in (None, Named(("u32",))):
                what = f"{function.path[-1]} lends `{rattle.written(argument)}` to {callee.path[-1]}: no row that it was lent"
                self.fault(LENT, function.file, call.line, what)
        return inner


# ---- types


def parts_of(kind):
    """The types of what a value of a type is put together of."""
    if isinstance(kind, Tuple):
        return kind.parts
    if isinstance(kind, Applied):
        try:
            return rattle.arguments_of(kind)
        except rattle.Unread:
            return ()
    return ()


def is_answer(kind):
    """`&Option<..>` or `&Result<..>` that holds no reference."""
    answer = isinstance(kind, Ref) and not kind.mutable and isinstance(kind.to, Applied) and kind.to.path in (("Option",), ("Result",))
    return answer and not rattle.has_reference(kind.to)


def takes_any(kind, function):
    """Such an answer of any type: a value that the caller has, and that was looked at there."""
    return is_answer(kind) and any(token.text in function.generic for token in kind.to.arguments)


def is_plain(kind, function):
    """Has a type nothing to do with what the function is given by type?"""
    if isinstance(kind, (Ref, Slice, Array)):
        return is_plain(kind.to if isinstance(kind, Ref) else kind.of, function)
    return isinstance(kind, Named) and kind.path[0] not in function.generic
