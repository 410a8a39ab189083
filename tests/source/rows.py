"""The rows of words that a function is lent, and how it names them."""

import collections

import rattle
from rattle import Ref, Slice

# A single word of a row, or a reading of words of it: the row's name, the line, the text of it with what follows it, and whether it gives
# parts of the row.
Word = collections.namedtuple("Word", "name line text parts", defaults=[False])

# Methods that tell how long a row is.
MEASURES = frozenset("is_empty len".split())
# Methods that read a word of a row, all words one by one, and parts of it. What they give, if more than a word, is used up where it stands: by
# a `for`, or by one of these.
ONE, READS, PARTS = frozenset("contains first last".split()), frozenset(["iter"]), frozenset("chunks_exact first_chunk".split())
BETWEEN = frozenset("copied enumerate filter map rev skip take zip".split())
USES = frozenset("all any count find fold for_each max min position sum unwrap unwrap_or".split())
# Methods that write to a row: words of another row or of an array, and one number to each place.
COPY, FILL = "copy_from_slice", "fill"
BESIDE = "zip"
EQUALS = ("==", "!=")


def is_row(kind):
    return isinstance(kind, Ref) and isinstance(kind.to, Slice)


def base_of(tokens):
    """The name that an argument lends, whole or a part of it: `r`, `&r[a..]`, `&mut *r`; None for any other form."""
    while tokens and tokens[0].text in ("&", "mut", "*"):
        tokens = tokens[1:]
    if not tokens or not rattle.is_name(tokens[0]):
        return None
    part = rattle.behind(tokens, 1).text == "[" and rattle.end_of(tokens, 1) == len(tokens) and has_range(tokens[2:-1])
    return tokens[0].text if part or len(tokens) == 1 else None


def has_range(tokens):
    return any(tokens[at].text in ("..", "..=") for at in rattle.top(tokens))


class Rows:
    """The rows that a function has, each with the row of the walk that it is or is a part of; single words of them, and where one is named
    otherwise than to be measured, indexed, or lent."""

    def __init__(self, function, lent, methods):
        self.body, self.of, self.methods = function.body, dict(lent), methods
        self.words, self.odd, self.bindings = [], [], set()
        for at, token in enumerate(self.body):
            if token.text == "let":
                self.bind(at)
        for path, at, end in rattle.paths_of(self.body):
            field = rattle.behind(self.body, end).text == ":" and rattle.before(self.body, at).text in ("{", ",")
            if path[0] in self.of and len(path) == 1 and at not in self.bindings and not field:
                self.use(path[0], at)

    def bind(self, at):
        """`let part = &mut row[..];` makes a row, where the name is new."""
        let = rattle.let_at(self.body, at)
        if let.name and let.value and let.value[0].text == "&" and base_of(let.value) in self.of and len(let.value) > 2:
            if let.name in self.of:
                self.odd.append((let.name, self.body[let.at].line))
            self.of[let.name] = self.of[base_of(let.value)]
            self.bindings |= {let.at, next(i for i in range(let.at + 1, len(self.body)) if self.body[i].text == base_of(let.value))}

    def use(self, name, at):
        body, ahead = self.body, rattle.behind(self.body, at + 1).text
        end = rattle.end_of(body, at + 1) if ahead == "[" else at + 1
        start = at
        while rattle.before(body, start).text in ("&", "mut", "*"):
            start -= 1
        follows, method = rattle.behind(body, end).text, self.method_at(end)
        if ahead == "[" and not has_range(body[at + 2 : end - 1]):
            read = start == at and (follows not in ("[", ".", "(") or method in rattle.NUMBERS)
        elif follows == ".":
            if method in MEASURES or method in (COPY, FILL) and start == at:
                return
            read = method in ONE or method in READS | PARTS and self.is_used_up(start, end)
        elif self.is_argument(start, end):
            return
        else:
            looped = rattle.before(body, start).text == "in" and follows == "{"
            read = looped or rattle.before(body, start).text in EQUALS or follows in EQUALS or self.takes(start, end) == BESIDE
        if read:
            self.words.append(Word(name, body[at].line, rattle.written(body[at : end + 2]), method in PARTS))
        else:
            self.odd.append((name, body[at].line))

    def method_at(self, at):
        """The method that is called at a place, None for none."""
        named = rattle.behind(self.body, at).text == "." and rattle.behind(self.body, at + 2).text == "("
        return self.body[at + 1].text if named else None

    def is_used_up(self, start, at):
        """Is what a reading gives used up by the methods behind it, or by a `for` or another reading that goes beside it?"""
        method = self.method_at(at)
        while method in READS | PARTS | BETWEEN:
            at = rattle.end_of(self.body, at + 2)
            method = self.method_at(at)
        if method is not None:
            return method in USES
        ahead, back = rattle.behind(self.body, at).text, rattle.before(self.body, start).text
        if ahead == ";" and back == "=":
            return self.is_used_by_name(start - 2)
        return back == "in" and ahead == "{" or self.takes(start, at) == BESIDE or ahead in EQUALS

    def is_used_by_name(self, at):
        """Is what a reading gives bound to a name that is new, and used up wherever the name stands?"""
        name = self.body[at].text
        if rattle.before(self.body, at).text not in ("let", "mut") or name in self.of:
            return False
        places = [place for path, place, _ in rattle.paths_of(self.body) if path == (name,) and place != at]
        return all(place > at and self.is_used_up(place, place + 1) for place in places)

    def takes(self, start, end):
        """The method that takes what stands there as an argument, the whole of it; None for none."""
        opening = rattle.opening_of(self.body, start)
        if opening is None or self.body[opening].text != "(" or rattle.before(self.body, opening - 1).text != ".":
            return None
        alone = rattle.before(self.body, start).text in ("(", ",") and rattle.behind(self.body, end).text in (")", ",")
        return self.body[opening - 1].text if alone else None

    def is_argument(self, start, end):
        """Is what stands there an argument of a call, the whole of it? Of the methods those of ours, and the one that copies words."""
        opening = rattle.opening_of(self.body, start)
        called = opening is not None and self.body[opening].text == "(" and rattle.is_name(rattle.before(self.body, opening))
        alone = rattle.before(self.body, start).text in ("(", ",") and rattle.behind(self.body, end).text in (")", ",")
        method = called and rattle.before(self.body, opening - 1).text == "."
        return called and alone and (not method or self.body[opening - 1].text in {*self.methods, COPY})
