"""Edits of the source that hide a row for a frame's words, and some that hide none: what tests/source/forwarding.py tries itself on."""

import collections

from follower import FOLLOWED, LENT, SMALL, STRAIGHT

MADE = "a hearing is made only by what is followed"

# The rule that has to tell it, None where nothing is to be told; the edits, each (file, old text, new text), with no old text for a new
# file; and the file and text at whose line it is to be told.
Trial = collections.namedtuple("Trial", "name rule edits at", defaults=[None])

HOST = "crates/host/src/offices.rt"
EXPORTS = "crates/host_c/src/offices.rt"
RECEIVE = "crates/hearing/src/receive.rt"
FORWARD = "crates/hearing/src/forward.rt"
HEARING = "crates/hearing/src/lib.rt"
SET = "crates/causal/src/set.rt"
PLAY = "crates/player/src/play.rt"
FEED = "crates/ring_program/src/feed.rt"
MAIN = "crates/ring_program/src/main.rt"
UNREAD = "crates/host_c/src/hear.rt"  # not there

# Lines of the source, in front of which or in place of which something is put.
TAKEN = "    taken(store, frame, &f, out)\n"
REVEALS = "// Reveals an id that is held.\n"
SENT_ON = "    crate::forward::put_onward(frame, out);\n"
WRITER = "pub fn put_onward(frame: &[u32], out: &mut [u32])\n"
COPY = "    causal::row::copy_words(frame, 0, &mut *out, 0, frame.len());\n"
CONSTANT = "const ONE_HOP: u32 = 0x1000;\n"
MODULES = "pub mod receive;\n"
EXPORT = "// 01: hear a frame.\n"
SUBSET = "    is_empty(without(a, b))\n"
SUBSET_FIRST = "// Is every member of a one of b?\n"
PLAY_FIRST = "// The frames that a call left"
DELIVERED = "    let frames = count_frames(out, words);\n"
HEARS = "    hearing::receive::receive(&mut stores[a..b], &lines[from..end], out)\n"
PUSHED = "    let after = deliver(board, next, words, lines, out);\n"
RECEIVED = "            receive_line(board, office as usize, stores, lines, out)\n"
FEED_FIRST = "// The bytes from `from` on"
PLAYED = "        let reply = play(&mut *stage, line, &mut *stores, &mut *lines, &mut *out);\n"
ENDED = "    if let Err(failure) = outcome.ending {\n"

SCRATCH = "    let mut scratch = [0u32; 267];\n"
TWO_ROWS = "(frame: &[u32], out: &mut [u32])"
KEEP = "fn keep(row: &mut [u32], out: &[u32]) {\n    row[0] = out[0];\n}\n\n"
KEEP_BYTE = "fn keep(row: &mut [u8], out: &[u32]) {\n    row[0] = out[0] as u8;\n}\n\n"
EXPORTED = "    hearing::receive::receive(store, frame, out);\n"
WORD_AT = "pub fn word_at(row: &[u32], i: usize) -> u32 {\n    row[i]\n}\n\n"
SAID = "fn said(frame: &[u32]) -> Result<usize, Refusal> {\n    Ok(frame[0] as usize)\n}\n\n"
EIGHT_OF = "    let a{} = store::layout::set_at(frame, 0);\n"
OUT = "    let mut out = [0u32; 1751];\n"
NONE = "fn none() -> u32 {}\n\n"
TO_STORE = "    for j in 0..8 {\n        store[j] = words[j];\n    }\n"


def copied(row, to):
    return f"    {to}[..8].copy_from_slice(&{row}[..8]);\n"


def before(file, old, new):
    return (file, old, new + old)


def put(new):
    """In put_onward, where it copies."""
    return before(FORWARD, COPY, new)


def declared(new):
    """Beside put_onward."""
    return before(FORWARD, CONSTANT, new)


def taken(new):
    """In `taken`, which has frame, store and out."""
    return before(RECEIVE, SENT_ON, new)


def hidden(name, rule, *edits):
    """Told at the line where the first new text stands."""
    file, old, new = edits[0]
    return Trial(name, rule, list(edits), (file, new.replace(old, "").strip("\n").split("\n")[0]))


def many(form, count=34):
    return ", ".join(form.format(i) for i in range(count))


# As the request has it: in the call, one call deeper and further down, in a function of its own, lent.
ROWS = [
    hidden("a scratch array in the call", SMALL, before(RECEIVE, TAKEN, SCRATCH)),
    hidden("one call deeper", SMALL, taken(SCRATCH)),
    hidden("two calls deeper", SMALL, put(SCRATCH)),
    hidden("in a crate below", SMALL, before(SET, SUBSET, SCRATCH)),
    Trial(
        "in a function of its own",
        SMALL,
        [(FORWARD, COPY, "    through(frame, &mut *out);\n"), declared(f"fn through{TWO_ROWS} {{\n{SCRATCH}}}\n\n")],
        (FORWARD, SCRATCH),
    ),
    Trial(
        "a second row lent to the writer",
        LENT,
        [
            (EXPORTS, "frame: &[u32], out: &mut [u32]) -> WordsAnswer", "frame: &[u32], out: &mut [u32], more: &mut [u32]) -> WordsAnswer"),
            (EXPORTS, "receive(store, frame, out)\n", "receive(store, frame, out, more)\n"),
            (HOST, "frame: &[u32], out: &mut [u32]) -> WordsAnswer", "frame: &[u32], out: &mut [u32], more: &mut [u32]) -> WordsAnswer"),
            (HOST, "receive(store, frame, out).into()", "receive(store, frame, out, more).into()"),
            (RECEIVE, "frame: &[u32], out: &mut [u32]) -> Result", "frame: &[u32], out: &mut [u32], more: &mut [u32]) -> Result"),
            (RECEIVE, TAKEN, "    taken(store, frame, &f, out, more)\n"),
            (RECEIVE, "f: &Frame, out: &mut [u32]) -> Result", "f: &Frame, out: &mut [u32], more: &mut [u32]) -> Result"),
            (RECEIVE, SENT_ON, "    crate::forward::put_onward(frame, out, more);\n"),
            (FORWARD, WRITER, "pub fn put_onward(frame: &[u32], out: &mut [u32], more: &mut [u32])\n"),
        ],
        (EXPORTS, "more: &mut [u32]"),
    ),
    Trial(
        "a local lent to the writer",
        LENT,
        [
            (RECEIVE, SENT_ON, "    let mut some = [0u32; 8];\n    crate::forward::put_onward(frame, out, &mut some);\n"),
            (FORWARD, WRITER, "pub fn put_onward(frame: &[u32], out: &mut [u32], more: &mut [u32])\n"),
        ],
        (RECEIVE, "put_onward(frame, out, &mut some)"),
    ),
    Trial(
        "a local lent as an array",
        LENT,
        [declared("fn keep(row: &mut [u32; 8], frame: &[u32]) {\n    row[0] = frame[0];\n}\n\n"), put("    keep(&mut some, frame);\n")],
        (FORWARD, "keep(&mut some"),
    ),
]

# The store as a scratch row.
STORE = [
    Trial(
        "the store lent to the writer",
        STRAIGHT,
        [
            (RECEIVE, SENT_ON, "    crate::forward::put_onward(frame, out, &mut *store);\n"),
            (FORWARD, WRITER, "pub fn put_onward(frame: &[u32], out: &mut [u32], more: &mut [u32])\n"),
        ],
        (FORWARD, "out[0] = frame[0]"),
    ),
    hidden("the store lent to copy to", STRAIGHT, taken(copied("frame", "store"))),
    hidden("eight words at a time", STRAIGHT, taken("    let part = store::layout::set_at(frame, 0);\n")),
    hidden("a word at a time", STRAIGHT, taken("    let word = causal::set::word_at(frame, 0);\n"), before(SET, SUBSET_FIRST, WORD_AT)),
    hidden(
        "a word at a time, by a reference",
        STRAIGHT,
        taken("    first_of(frame, &mut word);\n"),
        before(RECEIVE, REVEALS, "fn first_of(frame: &[u32], word: &mut u32) {\n    *word = frame[0];\n}\n\n"),
    ),
    hidden(
        "words in a struct of a told name",
        STRAIGHT,
        taken("    let some = first_of(frame);\n"),
        before(RECEIVE, REVEALS, "struct Refusal {\n    a: u32,\n}\n\nfn first_of(frame: &[u32]) -> Refusal {}\n\n"),
        (RECEIVE, "use frame::refusal::Refusal;\n", ""),
    ),
    hidden("another name for the row", LENT, taken("    let words = frame;\n" + TO_STORE)),
    Trial("another name with a type", STRAIGHT, [taken("    let words: &[u32] = &frame[..];\n" + TO_STORE)], (RECEIVE, "words[j]")),
    hidden("another name by a match", LENT, taken("    let words = match code { 0 => frame, _ => frame };\n" + TO_STORE)),
    Trial(
        "another name set later",
        LENT,
        [taken("    let mut words = &store[..];\n    words = &frame[..];\n" + TO_STORE)],
        (RECEIVE, "words = &frame"),
    ),
    hidden("a word in an answer", STRAIGHT, taken("    let some = said(frame);\n"), before(RECEIVE, REVEALS, SAID)),
    hidden("a row in parentheses", LENT, taken("    store[0] = (frame)[0];\n")),
    hidden("a part indexed", LENT, taken("    store[0] = frame[..][0];\n")),
    hidden("a part in an index", STRAIGHT, taken("    store[0] = frame[causal::set::same(&out[..])];\n")),
    Trial(
        "a name bound twice",
        LENT,
        [taken("    let part = &mut store[..];\n" + copied("frame", "part") + "    let part = &mut out[..];\n")],
        (RECEIVE, "let part = &mut out"),
    ),
    hidden("a row's name in a block", LENT, taken("    if f.hops == 9 { let store = &mut out[..]; }\n")),
    hidden("a local of a row's name", LENT, put("    let out = [0u32; 8];\n")),
]

# Other forms of an array.
FORMS = [
    hidden("nine places", SMALL, put("    let some = [0u32; 9];\n")),
    hidden("nine places, listed", SMALL, put("    let some = [0u32, 1, 2, 3, 4, 5, 6, 7, 8];\n")),
    hidden("a reference to an array", SMALL, put("    let some = &mut [0u32; 9];\n")),
    hidden("numbers of any width", SMALL, put("    let some = [0; 8];\n")),
    hidden("bytes", SMALL, put("    let some = [0u8; 1072];\n")),
    hidden("wider numbers", SMALL, put("    let some = [0u64; 8];\n")),
    hidden("a byte string", SMALL, put('    let some = b"0123456789";\n')),
    hidden("a raw byte string", FOLLOWED, put('    let some = *br"0123456789";\n')),
    hidden("a type of a local", SMALL, put("    let some: [u32; 267] = zeros();\n")),
    hidden("places by a name", SMALL, put("    let some = [0u32; MOST];\n")),
    hidden("places by a constant", SMALL, put("    let some = [0u32; MOST];\n"), declared("const MOST: usize = 9;\n")),
    hidden("a constant row", SMALL, put("    let some = EMPTY;\n"), declared("const EMPTY: [u32; 267] = [0; 267];\n")),
    hidden(
        "a constant of another file",
        SMALL,
        put("    let some = crate::EMPTY;\n"),
        before(HEARING, MODULES, "pub const EMPTY: [u32; 267] = [0; 267];\n"),
    ),
    hidden("an array of arrays", SMALL, put("    let some = [[0u32; 8]; 8];\n")),
    Trial("an array of a local array", SMALL, [put("    let eight = [0u32; 8];\n    let some = [(eight); 8];\n")], (FORWARD, "let some")),
    hidden("an array of branches", SMALL, put("    let some = [if true { eight } else { eight }; 8];\n")),
    Trial(
        "an array of what a branch gave",
        SMALL,
        [put("    let eight = if frame.len() == 0 { [0u32; 8] } else { [0u32; 8] };\n    let some = [eight; 8];\n")],
        (FORWARD, "let some"),
    ),
    hidden("an array of what a call gives", SMALL, put("    let some = [frame::entry::mosts(8); 8];\n")),
    hidden("an array of fields", SMALL, taken("    let some = [(e).clock; 8];\n")),
    Trial("many small arrays", SMALL, [put("    let some = [0u32; 8];\n" * 34)], (FORWARD, WRITER)),
    Trial(
        "small arrays along the calls",
        SMALL,
        [
            declared("".join(f"fn pass{k}{TWO_ROWS} {{\n{EIGHT_OF * 11}    pass{k + 1}(frame, &mut *out);\n}}\n\n" for k in range(3))),
            declared(f"fn pass3{TWO_ROWS} {{}}\n\n"),
            put("    pass0(frame, &mut *out);\n"),
        ],
        (FORWARD, WRITER),
    ),
    hidden("many small parameters", SMALL, declared(f"fn keep({many('a{}: [u32; 8]')}) {{}}\n\n"), put(f"    keep({many('z')});\n")),
    Trial(
        "an array in a struct",
        SMALL,
        [declared("struct Row {\n    words: [u32; 267],\n}\n\nfn keep(row: Row) {}\n\n"), put("    keep(other);\n")],
        (FORWARD, "words: [u32; 267]"),
    ),
    hidden(
        "small arrays in a struct",
        SMALL,
        put(f"    let some = row {{ {many('a{}: z')} }};\n"),
        declared(f"struct row {{\n    {many('a{}: [u32; 8]')}\n}}\n\n"),
    ),
    hidden(
        "small arrays in an enum",
        SMALL,
        put(f"    let some = Row::All({many('z')});\n"),
        declared(f"enum Row {{\n    None,\n    All({many('[u32; 8]')}),\n}}\n\n"),
    ),
    hidden("a session", SMALL, put("    let s = frame::session::Session { offices: 0 };\n")),
]

# Calls in forms that could hide one.
CALLS = [
    hidden("a method", FOLLOWED, put("    out.clone_from_slice(frame);\n")),
    hidden("a macro", FOLLOWED, put("    let some = vec![0u32; 8];\n")),
    hidden("a call to nowhere", FOLLOWED, put("    other::row::copy(frame, &mut *out);\n")),
    hidden("a call in parentheses", FOLLOWED, put("    (through)(frame, &mut *out);\n")),
    hidden("a name brought in by a body", FOLLOWED, put("    use crate::receive::through;\n")),
    hidden("another name for a type", FOLLOWED, declared("type Row = [u32; 267];\n")),
    hidden("a struct that holds a row", FOLLOWED, declared("struct Held<'a> {\n    row: &'a [u32],\n}\n")),
    hidden("a module in a file", FOLLOWED, declared("mod causal {\n    pub fn through() {}\n}\n\n")),
    hidden("a module with a number's name", FOLLOWED, put("    crate::u32::through(frame, &mut *out);\n")),
    hidden("a constant that is not found", FOLLOWED, put("    let some = held::EMPTY;\n")),
    Trial("a call of itself", FOLLOWED, [put("    put_onward(frame, &mut *out);\n")], (FORWARD, WRITER)),
    Trial(
        "a function with a name like a type's",
        SMALL,
        [(FORWARD, COPY, "    Through(frame, &mut *out);\n"), declared(f"fn Through{TWO_ROWS} {{\n{SCRATCH}}}\n\n")],
        (FORWARD, SCRATCH),
    ),
    Trial(
        "a second root of a crate",
        FOLLOWED,
        [("crates/hearing/src/main.rt", "", "fn x() {}\n"), before(HEARING, MODULES, "fn x() {}\n")],
        ("crates/hearing/src/main.rt", "fn x"),
    ),
]

# Behind a hearing, in the player and the program: from `out` a frame goes to the waiting line.
BEHIND = [
    Trial(
        "the player keeps words of the out row in its stores",
        STRAIGHT,
        [before(PLAY, PLAY_FIRST, KEEP), before(PLAY, PUSHED, "    keep(&mut *stores, out);\n")],
        (PLAY, "row[0] = out[0]"),
    ),
    hidden(
        "the player is told the out row's words",
        STRAIGHT,
        before(PLAY, PUSHED, "    let word = causal::set::word_at(out, 0);\n"),
        before(SET, SUBSET_FIRST, WORD_AT),
    ),
    Trial(
        "the player reads all of the frame that it hears",
        STRAIGHT,
        [before(PLAY, HEARS, "    for slot in from..end {\n        stores[slot] = lines[slot] as usize;\n    }\n")],
        (PLAY, "stores[slot]"),
    ),
    Trial(
        "the player hears from its stores",
        LENT,
        [(PLAY, HEARS, HEARS.replace("&lines[from..end]", "&stores[from..end]"))],
        (PLAY, "&stores[from..end]"),
    ),
    Trial(
        "the player puts a frame together beside the line",
        SMALL,
        [
            before(PLAY, PLAY_FIRST, "fn through(lines: &mut [u32], out: &[u32]) {\n" + SCRATCH + "    lines[0] = out[0];\n}\n\n"),
            (PLAY, RECEIVED, "            through(lines, out);\n" + RECEIVED),
        ],
        (PLAY, SCRATCH),
    ),
    hidden("the player copies the out row", LENT, before(PLAY, DELIVERED, copied("out", "some"))),
    hidden("the player has a row of its own", SMALL, before(PLAY, DELIVERED, "    let mut some = [0u32; 1751];\n")),
    hidden("the player keeps the frame that it hears", STRAIGHT, before(PLAY, HEARS, copied("lines", "stores"))),
    hidden("the player reads the frame that it hears", STRAIGHT, before(PLAY, HEARS, "    stores[0] = lines[from];\n")),
    Trial(
        "the player hears into a row of its own",
        LENT,
        [(PLAY, RECEIVED, RECEIVED.replace("out)", "&mut some)"))],
        (PLAY, "lines, &mut some)"),
    ),
    Trial(
        "the program keeps words of the out row in its text",
        STRAIGHT,
        [before(FEED, FEED_FIRST, KEEP_BYTE), (FEED, PLAYED, PLAYED + "        keep(&mut *text, out);\n")],
        (FEED, "row[0] = out[0]"),
    ),
    Trial(
        "the program's text by the name of the line",
        STRAIGHT,
        [before(FEED, FEED_FIRST, KEEP_BYTE.replace("row", "lines")), (FEED, PLAYED, PLAYED + "        keep(&mut *text, out);\n")],
        (FEED, "lines[0] = out[0]"),
    ),
    Trial("the program has a second row of a name", LENT, [before(MAIN, ENDED, OUT)], (MAIN, OUT + ENDED)),
    hidden("the program has a word of the out row", STRAIGHT, before(FEED, PLAYED, "        let first = out[0];\n")),
    hidden("the program is told words of it", STRAIGHT, before(FEED, PLAYED, "    let eight = store::layout::set_at(out, 0);\n")),
    hidden("the program copies the out row", LENT, before(FEED, PLAYED, copied("out", "some"))),
    hidden("the program copies it at the end", LENT, before(MAIN, ENDED, copied("out", "some"))),
    Trial("the program hears into a row of its own", LENT, [(FEED, PLAYED, PLAYED.replace("&mut *out", "&mut some"))], (FEED, "&mut some")),
    Trial(
        "another export lends a row of its own",
        MADE,
        [before(EXPORTS, EXPORT, f"fn hear(store: &mut [u32], {TWO_ROWS[1:]} {{\n    burial_receive(store, frame, &mut some);\n}}\n\n")],
        (EXPORTS, "burial_receive(store, frame, &mut some)"),
    ),
    Trial("an export in a file that is not read", MADE, [(UNREAD, "", "type Word = u32;\n")], (UNREAD, "type")),
    Trial(
        "another export hears",
        MADE,
        [before(EXPORTS, EXPORT, f"fn hear(store: &mut [u32], {TWO_ROWS[1:]} {{\n{EXPORTED}}}\n\n")],
        (EXPORTS, EXPORTED + "}"),
    ),
]

# Nothing is told.
FINE = [
    Trial("nothing is edited", None, []),
    Trial("eight places", None, [put("    let eight = [0u32; 8];\n    let two = [frame[0], ONE_HOP];\n    let one = [!two[0]; 1];\n")]),
    Trial("eight places by a constant", None, [put("    let eight = [0u32; EIGHT];\n"), declared("const EIGHT: usize = 8;\n")]),
    Trial("counters", None, [put("    for j in 0..2 {\n        let two = [j, j + 1];\n    }\n")]),
    Trial(
        "fields that are named as a row",
        None,
        [put("    let put = Put { out: 1, frame: self::none() };\n"), declared("struct Put {\n    out: u32,\n    frame: u32,\n}\n\n" + NONE)],
    ),
    Trial("a comment", None, [put("    // let mut scratch = [0u32; 267];\n")]),
    Trial("a part by a name", None, [(FORWARD, COPY, "    let part = &mut out[..];\n" + copied("frame", "part"))]),
    Trial(
        "a function of single numbers",
        None,
        [put("    let ones = u32::count_ones(frame[0]);\n    bump(&mut ones);\n"), declared("fn bump(n: &mut u32) {}\n\n")],
    ),
    Trial("a row in a function that no hearing calls", None, [declared("fn other() {\n" + SCRATCH + "}\n\n")]),
    Trial("a form that is not read, in a file that no hearing needs", None, [("crates/script/src/odd.rt", "", "type Line = u32;\n")]),
]

TRIALS = [*ROWS, *STORE, *FORMS, *CALLS, *BEHIND, *FINE]

# A row in a value, and words by a method or an operator where an index was.
HOLDING = [
    hidden("a row in an Option", LENT, put("    let some = Some(frame);\n")),
    hidden("a row in a pair", LENT, put("    let some = (frame, 1);\n")),
    hidden("a row in a struct", LENT, put("    let some = Held { frame };\n"), declared("struct Held {\n    frame: u32,\n}\n\n")),
    hidden("a row in an argument's Option", LENT, declared("fn keep(row: Option<&[u32]>) {}\n\n"), put("    keep(None);\n")),
    hidden("a row that a function gives", LENT, declared("fn same(row: &[u32]) -> &[u32] {\n    &row[..]\n}\n\n"), put("    same(frame);\n")),
    hidden("a struct of a row in another file", FOLLOWED, before(RECEIVE, REVEALS, "struct Held<'a> {\n    row: Option<&'a mut [u32]>,\n}\n\n")),
    hidden("nine places in an Option", SMALL, declared("fn keep(some: Option<[u32; 9]>) {}\n\n"), put("    keep(None);\n")),
    hidden("a pair of two rows' words", SMALL, declared(f"fn keep(some: ({many('[u32; 8]', 4)})) {{}}\n\n"), put("    keep(some);\n")),
]
BY_PARTS = "        for part in out.chunks_exact(8) {\n            keep(part);\n        }\n"
READING = [
    hidden("words copied to a local array", LENT, put("    some.copy_from_slice(&frame[..8]);\n"), put("    let mut some = [0u32; 8];\n")),
    hidden("words copied to a field", LENT, taken("    held.words.copy_from_slice(&frame[..8]);\n")),
    hidden("a row copied from what is none", LENT, put("    out.copy_from_slice(held);\n")),
    hidden("words copied to the store", STRAIGHT, taken("    store[19..27].copy_from_slice(&frame[3..11]);\n")),
    hidden("words of the out row copied to the store", STRAIGHT, taken("    store[19..27].copy_from_slice(&out[3..11]);\n")),
    hidden("the store filled by a word", STRAIGHT, taken("    store.fill(frame[0]);\n")),
    hidden("a frame's words one by one", STRAIGHT, taken("    for word in frame {\n        store[0] = *word;\n    }\n")),
    hidden("beside the store's", STRAIGHT, taken("    let some = store.iter().zip(&frame[..8]).count();\n")),
    hidden("by an iterator", STRAIGHT, taken("    for word in frame.iter().rev() {\n        store[0] = *word;\n    }\n")),
    hidden("by eights", STRAIGHT, taken("    for part in frame.chunks_exact(8) {\n        store[0] = part[0];\n    }\n")),
    hidden("the first eight", STRAIGHT, taken("    let part: [u32; 8] = *frame.first_chunk().unwrap();\n")),
    hidden("asked by an equality", STRAIGHT, taken("    if store[..8] == frame[..8] {\n        store[0] = 1;\n    }\n")),
    hidden("an iterator that is kept", LENT, put("    let words = frame.iter();\n    let more = (words, 1);\n")),
    hidden("an iterator that is lent by a name", LENT, put("    let words = frame.iter();\n    keep(words);\n")),
    hidden("an iterator in a struct", LENT, put("    held.words = frame.iter();\n")),
    hidden("an iterator that is lent", LENT, put("    keep(frame.iter());\n"), declared("fn keep(words: u32) {}\n\n")),
    hidden("a vector of a row", FOLLOWED, put("    let some = frame.to_vec();\n")),
    hidden("a vector of an iterator", FOLLOWED, put("    let some = frame.iter().collect();\n")),
    hidden("a row's own method", LENT, put("    out.reverse();\n")),
    hidden("as many as a type says", FOLLOWED, put("    let some = frame.first_chunk::<267>();\n")),
    hidden("the program has parts of the out row", LENT, before(FEED, PLAYED, BY_PARTS)),
]

# Closures, and functions of types.
FROM = "impl From<Held> for u32 {{\n    fn from(held: Held) -> u32 {{\n{}        held.a\n    }}\n}}\n\n"
NEXT = "impl Iterator for Held {{\n    type Item = u32;\n\n    fn next(&mut self) -> Option<u32> {{\n{}        None\n    }}\n}}\n\n"
HELD = "struct Held {\n    a: u32,\n}\n\n"
METHOD = "impl Held {{\n    pub fn {}{{\n{}    }}\n}}\n\n"
CLOSURES = [
    hidden("a closure that takes a row in", LENT, put("    let some = (0..8).map(|i| frame[i]).sum();\n")),
    hidden("a closure with a row's name", LENT, put("    let some = (0..8).all(|frame| frame == 1);\n")),
    hidden("a closure that takes a row whole", LENT, put("    let some = (0..8).map(move |i| frame[i]).sum();\n")),
    hidden("a closure that is kept", FOLLOWED, put("    let twice = |i| 2 * i;\n")),
    hidden("a closure for a function of ours", FOLLOWED, put("    keep(|i| 2 * i);\n"), declared("fn keep<F: Fn(u32) -> u32>(f: F) {}\n\n")),
    hidden("a closure for any that is like one", FOLLOWED, put("    keep(|i| 2 * i);\n"), declared("fn keep(f: impl Fn(u32) -> u32) {}\n\n")),
    hidden("an array beside an equality", SMALL, put("    let some = frame[..] == [0; 267];\n")),
    hidden("an array in a closure", SMALL, put("    let some = (0..8).all(|i| [0u32; 267][i] == 0);\n")),
    hidden("an array that a closure fills", SMALL, put("    let some: [u32; 267] = std::array::from_fn(|i| i as u32);\n")),
    hidden("so many as a type says", FOLLOWED, put("    let some = std::array::from_fn::<u32, 267, _>(|i| i as u32);\n")),
    hidden("a function for a closure", FOLLOWED, put("    let some = (0..8).all(crate::receive::through);\n")),
]
METHODS = [
    Trial("a method that makes a row", SMALL, [declared(HELD + METHOD.format("put(&self) ", SCRATCH)), put("    held.put();\n")], (FORWARD, SCRATCH)),
    Trial(
        "a method of another file",
        SMALL,
        [before(SET, SUBSET_FIRST, HELD + METHOD.format("put(&self) ", SCRATCH)), put("    held.put();\n")],
        (SET, SCRATCH),
    ),
    Trial(
        "a function of a type",
        SMALL,
        [declared("enum Held {\n    None,\n}\n\n" + METHOD.format("put(out: &mut [u32]) ", SCRATCH)), put("    Held::put(&mut *out);\n")],
        (FORWARD, SCRATCH),
    ),
    Trial(
        "a method that keeps words",
        STRAIGHT,
        [
            before(RECEIVE, REVEALS, HELD + METHOD.format("put(&self, row: &mut [u32], frame: &[u32]) ", "        row[0] = frame[0];\n")),
            taken("    held.put(&mut *store, frame);\n"),
        ],
        (RECEIVE, "row[0] = frame[0]"),
    ),
    Trial(
        "a method that tells of words",
        STRAIGHT,
        [
            before(RECEIVE, REVEALS, HELD + METHOD.format("first(&self, frame: &[u32]) -> u32 ", "        frame[0]\n")),
            taken("    store[0] = held.first(frame);\n"),
        ],
        (RECEIVE, "store[0] = held"),
    ),
    Trial(
        "a method that is lent a local",
        LENT,
        [declared(HELD + METHOD.format("put(&self, row: &mut [u32]) ", "        row[0] = 1;\n")), put("    held.put(&mut some);\n")],
        (FORWARD, "held.put(&mut some)"),
    ),
    Trial(
        "a method of the program's",
        STRAIGHT,
        [
            before(FEED, FEED_FIRST, HELD + METHOD.format("put(&self, row: &mut [u8], out: &[u32]) ", "        row[0] = out[0] as u8;\n")),
            (FEED, PLAYED, PLAYED + "        held.put(&mut *text, out);\n"),
        ],
        (FEED, "row[0] = out[0]"),
    ),
    Trial(
        "a trait's function that no call names",
        SMALL,
        [declared(HELD + FROM.format(SCRATCH)), put("    let held = Held { a: 1 };\n    let some: u32 = held.into();\n")],
        (FORWARD, SCRATCH),
    ),
    Trial(
        "an iterator of ours that makes a row",
        SMALL,
        [
            declared(HELD + NEXT.format(SCRATCH)),
            put("    for some in (Held { a: 1 }) {}\n"),
        ],
        (FORWARD, SCRATCH),
    ),
    Trial(
        "a trait's function that is lent a row",
        LENT,
        [
            declared(HELD + "impl PartialEq<Held> for [u32] {\n    fn eq(&self, other: &Held) -> bool {\n        true\n    }\n}\n\n"),
            put("    let held = Held { a: 1 };\n"),
        ],
        (FORWARD, "fn eq(&self"),
    ),
    hidden("a trait of ours", FOLLOWED, declared("trait Keep {\n    fn keep(&self) {}\n}\n\n")),
    Trial(
        "a method that hears",
        MADE,
        [before(EXPORTS, EXPORT, HELD + METHOD.format(f"hear(&self, store: &mut [u32], {TWO_ROWS[1:]} ", EXPORTED))],
        (EXPORTS, EXPORTED + "    }"),
    ),
    Trial(
        "a trait's function that hears",
        MADE,
        [before(EXPORTS, EXPORT, HELD + FROM.format(EXPORTED))],
        (EXPORTS, EXPORTED + "        held.a"),
    ),
]

# Nothing is told.
TODAY = [
    Trial(
        "a row read where it stands",
        None,
        [
            put("    let Some(first) = frame.first() else {\n        return;\n    };\n"),
            put("    let most = frame[1..].iter().map(|w| w.count_ones()).fold(0u32, |a, b| a.max(b));\n"),
            put("    let pairs = frame.iter().zip(&frame[1..]);\n    let sum = pairs.fold(0u32, |sum, (&a, &b)| sum.max(a | b));\n"),
            put("    for (place, &word) in frame.iter().enumerate() {\n        out[place] = word;\n    }\n"),
        ],
    ),
    Trial("two parts of the store beside each other", None, [taken("    if store[3..11] == store[11..19] {\n        return Ok(0);\n    }\n")]),
    Trial("eight words put into the store", None, [taken("    store[3..11].copy_from_slice(&held);\n")]),
    Trial(
        "a match with a guard, and a struct taken apart",
        None,
        [
            declared("struct Put {\n    to: Option<usize>,\n    sum: u32,\n}\n\nfn none() -> Put {\n    Put { to: None, sum: 0 }\n}\n\n"),
            put("    let Put { to, sum } = none();\n    let at = match to {\n        Some(at) if at < 8 => at,\n        _ => 0,\n    };\n"),
        ],
    ),
    Trial(
        "a method, and a trait's function",
        None,
        [
            declared(HELD + METHOD.format("twice(&self) -> u32 ", "        2 * self.a\n") + FROM.format("")),
            put("    let held = Held { a: 1 };\n    let two = held.twice();\n    let one = u32::from(held);\n"),
        ],
    ),
]

# Forms that the language has of late: types and functions with parameters, functions as values, groups of names, attributes, handles.
ENTRIES = "use frame::entry::{Frame, id_of};\n"
NEWER = [
    hidden("a row lent as any type", FOLLOWED, put("    keep(&mut *out, frame);\n"), declared("fn keep<T>(row: &mut T, frame: &[u32]) {}\n\n")),
    Trial(
        "the program lends a row as any type",
        FOLLOWED,
        [(FEED, PLAYED, PLAYED + "        keep(&mut *out);\n"), before(FEED, FEED_FIRST, "fn keep<T>(row: &mut T) {}\n\n")],
        (FEED, "keep(&mut *out)"),
    ),
    hidden("a local vector", FOLLOWED, put("    let some: Vec<u32> = zeros();\n")),
    Trial(
        "a vector in a struct",
        SMALL,
        [declared("struct Row {\n    words: Vec<u32>,\n}\n\nfn keep(row: Row) {}\n\n"), put("    keep(other);\n")],
        (FORWARD, "words: Vec<u32>"),
    ),
    Trial(
        "the program lends a vector",
        LENT,
        [
            (FEED, PLAYED, PLAYED + "        keep(&mut some, out);\n"),
            before(FEED, FEED_FIRST, "fn keep(row: &mut Vec<u32>, out: &[u32]) {}\n\n"),
        ],
        (FEED, "keep(&mut some, out)"),
    ),
    Trial("a closure", FOLLOWED, [put("    let f = || frame[0];\n    let some = f();\n")], (FORWARD, "let some = f()")),
    hidden("a function as a value", FOLLOWED, put("    let some = store::layout::set_at;\n")),
    Trial(
        "another export names a hearing",
        MADE,
        [before(EXPORTS, EXPORT, "fn hear() {\n    let heard = hearing::receive::receive;\n}\n\n")],
        (EXPORTS, "let heard"),
    ),
    hidden("another name in a group", FOLLOWED, (RECEIVE, ENTRIES, "use frame::entry::{Frame, id_of as id};\n")),
    hidden("all names of a module", FOLLOWED, (RECEIVE, ENTRIES, "use frame::entry::*;\n")),
    hidden("an attribute that is not read", FOLLOWED, declared("#[cfg(other)]\n")),
    hidden("a handle's method on a row", FOLLOWED, put("    out.stdin();\n")),
    Trial("a group in a group", None, [(RECEIVE, ENTRIES, "use frame::{entry::{self, Frame, id_of}, word};\n")]),
    *HOLDING,
    *READING,
    *CLOSURES,
    *METHODS,
    *TODAY,
]
