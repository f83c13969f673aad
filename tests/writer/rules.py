"""The rules of tests/one-writer, over what text.py reads. The tables name what the text has, and whatever else is found is an error.

Which table a change of the job's code has to touch:
ITEMS: a file, a module, a function, a type or a constant. CALLS: a call, a `while` or a `match`. BODIES: anything in `store` or in `accepted`.
LISTS, INPUTS, TYPES, NUMBERS: what the functions hand on to each other. GIVEN: an argument with another name than its parameter.
READS, READS_LAST: a new way to read a list, an input, the extent or the count. STATEMENTS: one that has these in another form. LENT: how a crate beneath the
job lends a list. text.DERIVES: what a type derives. text.MEMORY: the type that holds the lists. Other changes touch none."""
import os
import re

import text

# The items of each file but for its imports.
ITEMS = {
    "crates/job/src/lib.rt": "pub mod call; mod size; mod writes; mod fill; mod pixel; mod store; "
    "pub struct Memory; enum Write; struct Extent; struct Part; pub struct Progress",
    "crates/job/src/call.rt": "fn memory_fault; fn fault; fn accepted; pub fn run",
    "crates/job/src/size.rt": "pub fn pixel_count; pub fn end_of",
    "crates/job/src/writes.rt": "const WRITES; pub fn writes",
    "crates/job/src/fill.rt": "pub fn fill",
    "crates/job/src/pixel.rt": "fn write_of; fn pixel; pub fn write_out",
    "crates/job/src/store.rt": "pub fn store",
    "crates/tray/src/lib.rt": "pub fn tray_from_name; pub fn tray_read_card; pub fn tray_compose; pub fn tray_narrow; "
    "pub fn tray_narrow_bytes; pub fn tray_job",
    "crates/tray_c/src/lib.rt": "extern fn tray_from_name; extern fn tray_read_card; extern fn tray_compose; extern fn tray_narrow; "
    "extern fn tray_narrow_bytes; extern fn tray_job",
}
# What each function of the job and of tray calls, with each `while`, each `match` and what is of NOWHERE, in the order of the text. A function that is not
# here has none. A pattern `Ok(x)` stands here as a call would.
CALLS = {
    "tray_job": "match job::call::run Ok u64::from Err .number",
    "run": "fault Ok accepted",
    "accepted": "end_of .min writes",
    "writes": "pixel_count while .min .min fill write_out",
    "write_out": "for .. pixel pixel",
    "pixel": "for .. write_of store",
    "store": "match",
    "fault": "check pixel_count end_of memory_fault Ok",
    "memory_fault": ".when .len || .len .when .len || .when",
    "end_of": "natural pixel_count",
    "pixel_count": "width_of height_of",
    "fill": ".div_ceil widen channels_of Layer::at plan width_of height_of source_of span",
    "tray_from_name": "match names::from_name Some .number",
    "tray_read_card": "match cards::read Ok Err .number",
    "tray_compose": "faults::number compose::single::compose",
    "tray_narrow": "faults::number narrowing::narrow",
    "tray_narrow_bytes": "faults::number narrowing::narrow_bytes",
}
# What no body has but where CALLS says so: items, other loops, closures, macros, parts of lists.
NOWHERE = "fn use mod const static type impl trait unsafe loop for move ref ghost requires ensures extern crate super self Self # | || && ! .. ..=".split()
# The whole body of the function that writes, and of the one that makes the extent and begins the count.
BODIES = {
    "store": """
        match write {
            Write::Work0 { at, word } => memory.work0[at] = word,
            Write::Work1 { at, word } => memory.work1[at] = word,
            Write::Checkpoint { position } => memory.checkpoint[0] = position,
        }
        *uses += 1;""",
    "accepted": """
        let end = end_of(inputs); let start = memory.checkpoint[0] as usize; let left = 5 * (end - start);
        let due = (allowance as usize).min(left); let mut uses = 0u64;
        let extent = Extent { inputs, start, due };
        writes(extent, memory, &mut uses);
        Progress { stores: uses, finished: memory.checkpoint[0] == end as u64, }""",
}
# What has the same name in every function; and the same type, but for the numbers of a call.
LISTS = {"work0": "[ u32 ]", "work1": "[ u32 ]", "checkpoint": "[ u64 ]", "memory": "Memory < '_ >"}
INPUTS = {"dst": "& [ u32 ]", "table": "& [ i64 ]", "args": "& [ u32 ]", "samples": "& [ u32 ]", "inputs": "JobInputs < '_ >"}
TYPES = INPUTS | {"extent": "Extent < '_ >", "uses": "& mut u64", "out": "& mut [ u32 ]"}
NUMBERS = ("job", "allowance")
# The arguments that have not their parameter's name, by function and parameter.
GIVEN = {
    "run memory": ("& mut memory",),
    "writes uses": ("& mut uses",),
    "fill out": ("& mut buf",),
    "pixel_count inputs": ("inputs", "extent . inputs"),
}
# How a body reads a list of the memory, an input, the extent and the count. The functions of other crates that write do so into the last argument; READS_LAST reads it.
LIST = r"(?:work0|work1|checkpoint) (?:\[|\. len \( \)) "
READS = re.compile(rf"memory \. (?={LIST})|(?<=memory \. ){LIST}|extent \. |inputs \. |(?<=extent \. )inputs |(?<=inputs \. )(?:(?:shape|count) |\w+ (?=, (?!\))))|(?<=\* )uses ")
READS_LAST = "check"
# Statements that have them in another form, each whole: where the inputs of a call come together; where its lists do, and are handed on; and where what is
# read of them is chosen.
STATEMENTS = {
    "tray_job": [
        "let inputs = JobInputs { shape , dst , count : layers , table , args , samples , } ; ",
        "let mut memory = job :: Memory { work0 , work1 , checkpoint , } ; "
        "match job :: call :: run ( inputs , job , allowance , & mut memory ) { ",
    ],
    "fill": ["let inputs = extent . inputs ; ", "let beneath = if ( part . k - 1 ) % 2 == 0 { & * memory . work0 } else { & * memory . work1 } ; "],
}
# What is lent to be changed beneath the job: `out`, in the last place but for `put`, and a list of the function's own.
LENT = ("out : & mut [ u32 ] )", "out : & mut [ u32 ] , )", "fn put ( out : & mut [ u32 ]", "& mut own", "& mut out [ at .. ]", "let mut")

# Each name of the three crates with the path that imports it. The crates `job` and `tray` are named by their paths, so nothing is imported as `job` or as
# `tray`; the job number has the first name too, and is a parameter alone.
PATHS = {"job": "nothing", "tray": "nothing"}
for file, names in ITEMS.items():
    module = file.split("/")[-1].replace("lib.rt", "").replace(".rt", "::")
    PATHS |= {name: f"crate::{module}{name}" for name in re.findall(r"(\w+)(?:;|$)", names)}


def tokens(*each):
    """An expression that finds these as whole tokens."""
    return re.compile(rf"(?<!\S)(?:{'|'.join(map(re.escape, each))})(?!\S)")


def around(line, start):
    """What stands about a place, for a message."""
    return text.show(" ".join(line[:start].split()[-3:] + line[start:].split()[:6]))


def leads_to_store(name):
    return name == "store" or any(leads_to_store(callee.split("::")[-1]) for callee in CALLS.get(name, "").split())


# Each rule goes over one function. `own` has the parameters' names of every function of the job and of tray. A fault is a place in the body and what is wrong.
def parameters(function, _):
    """What the functions hand on has its type. A list is lent to be changed on the way to `store` alone; of the rest the job lends the count and `out`."""
    for name, kind in function.parameters:
        due = ("& mut " if leads_to_store(function.name) else "& ") + LISTS[name] if name in LISTS else TYPES.get(name)
        fine = kind == due if due else "/tray/" in function.source.path or re.fullmatch(r"\w+|& \[ \w+ \]", kind)
        if not fine:
            yield 0, f"takes `{text.show(f'{name} : {kind}')}`"


def calls(function, _):
    """The calls, the loops and the matches are those that are listed, and nothing of NOWHERE is there."""
    found = [(call.start, call.callee) for call in text.calls(function)]
    found += [(match.start(), match[0]) for match in tokens("while", "match", *NOWHERE).finditer(function.body)]
    made, due = " ".join(word for _, word in sorted(found)), CALLS.get(function.name, "")
    if made != due:
        yield 0, f"has the calls `{made}`, and not `{due}`"


def hands_on(function, own):
    """An argument has its parameter's name, where either is a name that is the same in every function."""
    for call in text.calls(function):
        callee = call.callee.split("::")[-1]
        if len(own.get(callee, call.arguments)) != len(call.arguments):
            yield call.start, f"calls `{callee}` with {len(call.arguments)} arguments"
        for name, (argument, start) in zip(own.get(callee, []), call.arguments):
            known = {name, argument, argument.split(" . ")[-1]} & {*LISTS, *TYPES, *NUMBERS}
            if known and argument not in GIVEN.get(f"{callee} {name}", (name,)):
                yield start, f"hands on `{text.show(argument)}` as `{name}` of `{callee}`"


def body(function, _):
    """The whole body is the one that is known."""
    due = text.Source(function.name, BODIES[function.name]).text
    if function.body != due:
        start = os.path.commonprefix([function.body, due]).rfind(" ") + 1
        yield start, f"has another body than the one that is known: `{around(function.body, start)}`"


def assigns(function, own):
    """An assignment is a `let` of a new name, or sets what such a `let` has bound, or in crates/tray a number that the function answers by."""
    bound = [name for name, _ in function.parameters] + list(own)
    places = [f"* {name}" for name, kind in function.parameters if "/tray/" in function.source.path and kind in ("& mut u64", "& mut i64")]
    for place, statement, start in text.assignments(function):
        let = re.fullmatch(r"let (mut )?(\w+)", place)
        if let and let[2] in bound:
            yield start, f"binds `{let[2]}` again"
        if not let and place not in places:
            yield start, f"assigns to `{text.show(place)}`: `{text.show(statement)}`"
        bound += [let[2]] if let else []
        places += [let[2]] if let and let[1] else []


def has(function, own):
    """A list, an input, the extent and the count are handed on or read, and nothing else. Another crate is handed an input, and not in the last place. What a
    body itself lends to be changed it has bound."""
    known = {match.start() for match in READS.finditer(function.body)}
    for call in text.calls(function):
        inside = call.callee.split("::")[-1] in own
        arguments = call.arguments if inside or call.callee == READS_LAST else call.arguments[:-1]
        known.update(start for argument, start in arguments if argument in ([*LISTS, *TYPES] if inside else INPUTS))
    for statement in STATEMENTS.get(function.name, []):
        whole = re.search(r"(?<!\S)" + re.escape(statement), function.body)
        known.update(range(*whole.span()) if whole else [])
    for match in tokens(*LISTS, *INPUTS, "extent", "uses", "Extent", "JobInputs", "Memory").finditer(function.body):
        if match.start() not in known:
            yield match.start(), f"has `{match[0]}` in another form: `{around(function.body, match.start())}`"
    for match in re.finditer(r"(?<!\S)(?<!let )mut (\w*)", function.body):
        if f"let mut {match[1] or '?'} " not in function.body:
            yield match.start(), f"has `mut` in another form: `{around(function.body, match.start())}`"


def exports(function, handed):
    """The whole body of an exported function hands its parameters on to the function of tray that has its name and its parameters."""
    if function.parameters != handed.get(function.name):
        yield 0, f"has not the parameters of `tray::{function.name}`"
    due = text.Source(function.name, f"tray::{function.name}({', '.join(name for name, _ in function.parameters)})").text
    if function.body not in (due, due.removesuffix(") ") + ", ) "):
        start = os.path.commonprefix([function.body, due]).rfind(" ") + 1
        yield start, f"does not hand on its parameters alone, to `tray::{function.name}`: `{around(function.body, start)}`"


def items(source, found):
    """The items are those that are listed, each once. What is imported under a name of the three crates is what has that name there."""
    due = ITEMS.get(source.path, "").split("; ")
    for item, start in found:
        if item in due:
            due.remove(item)
        elif not item.startswith("use ") or PATHS.get(item.split(":")[-1], item[4:]) != item[4:]:
            yield f"{source.at(start)}: an item that is not known: `{item}`"
    yield from (f"{source.path}: has no `{item}`" for item in due if item)


def beneath(source):
    """A crate beneath the job is lent nothing to change but `out`."""
    left = tokens(*LENT, *(each.strip() for each in text.DERIVES)).sub(lambda match: " " * len(match[0]), source.text)
    for match in tokens("mut", "unsafe", "static", "extern", "#").finditer(left):
        yield f"{source.at(match.start())}: beneath the job: `{around(source.text, match.start())}`"


def faults(files):
    """What is wrong with the crates, given as paths with their texts; and how many assignments to an element there are."""
    upper = [path for path in files if re.match("crates/(?:job|tray|tray_c)/", path)]
    wrong, functions = [f"{path}: a file that is not {'known' if path in files else 'there'}" for path in {*ITEMS} ^ {*upper}], []
    try:
        for source in (text.Source(path, raw) for path, raw in files.items()):
            found, more = text.items(source) if source.path in upper else ([], [])
            wrong += items(source, found) if source.path in upper else beneath(source)
            functions += more
        exported = [function for function in functions if "/tray_c/" in function.source.path]
        inside = [function for function in functions if function not in exported]
        own = {function.name: [name for name, _ in function.parameters] for function in inside}
        handed = {function.name: function.parameters for function in inside if "/tray/" in function.source.path}
        asked = [(rule, function, own) for function in inside for rule in (parameters, calls, hands_on)]
        asked += [(rule, function, own) for function in inside for rule in ((body,) if function.name in BODIES else (assigns, has))]
        asked += [(exports, function, handed) for function in exported]
        for rule, function, known in asked:
            wrong += [f"{function.source.at(function.start + start)}: `{function.name}` {what}" for start, what in rule(function, known)]
    except text.Unread as end:
        wrong.append(str(end))
    return wrong, sum(place.endswith("]") for function in functions for place, _, _ in text.assignments(function))
