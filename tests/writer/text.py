"""How tests/one-writer reads a source of Rattle: as one line, its tokens with one space between them, without comments and without what a contract says. A rule
is then an expression over tokens, wherever the lines are broken. What is not known here is not passed over but ends the reading."""
import bisect
import re
from collections import namedtuple

# No text may be a comment here and code to the compiler. Strings and block comments are not read, for the sources have none, nor is a quote but before the name
# of a lifetime. What the proof checker reads, a contract, an import for contracts and what an impl says for contracts, is read in one form alone, and without
# what would move its end: to it `//` is a name, `--` begins a comment. A clause has no braces inside, so that its first `}` ends it; what an impl says may have
# one pair. What an attribute `tactic` says, the proof checker reads too; it is passed over, in one form alone.
TOKEN = re.compile(
    r"(?P<gap>//[^\n]*|[ \n]+|#!?\[tactic\([\w:(), \n]*\)\])"
    r"|(?P<ghost>ghost use [^\s;{}]+(?:\{[^;{}\n]*\}| as \w+);|ghost \w+ = \{\s[^{};]*(?:\{[^{}]*\}[^{};]*)?\s\};"
    r"|(?:requires|ensures)(?: \w+)? \{\s[^{}]*\s\})"
    r"|(?P<token>(?!(?:ghost|requires|ensures)\b)\w+|\"C\"|'[a-z_]\b(?!')|<<=|>>=|\.\.=|[-+*/%&|^=!<>]=|=>|->|::|\.\.|&&|\|\||<<|>>|/(?!\*)|[-+*%&|^!<>=.,:;?(){}\[\]#])",
    re.A,
)
DERIVES = tuple(f"# [ derive ( {names} ) ] " for names in ("Clone , Copy", "Clone , Copy , Debug , PartialEq , Eq", "Drop"))
# The one type that holds what is lent to be changed, whole.
MEMORY = "pub struct Memory < 'a > { pub work0 : & 'a mut [ u32 ] , pub work1 : & 'a mut [ u32 ] , pub checkpoint : & 'a mut [ u64 ] , } "
MOVES_THE_END = re.compile(r"//|--|[\"«⟦]")
# An item, up to the brace that opens its block; of an import what it names, where braces are; of a function what stands before it, its name and its parameters.
# No result is a reference. A type may be copied, compared, printed and let go.
ITEM = re.compile(
    r"ghost |use (?:\w+ :: )+(?:\w+|\{ (?P<several>(?![^}]*\bself\b)\w+(?: , \w+)+) (?:, )?\}) ; |(?:pub )?mod \w+ ; |const \w+ : usize = (?:\w+ \* )?\w+ ; "
    rf"|(?:{'|'.join(map(re.escape, DERIVES))})?(?P<type>(?:pub )?(?:enum|struct) \w+ )(?:< 'a > )?(?=\{{)"
    r"|(?P<before># \[ unsafe \( no_mangle \) \] pub extern \"C\" |pub |)fn (?P<name>\w+) \( (?P<parameters>[^()]*)\) "
    r"(?:-> (?:\w+|Result < (?:\w+|\( \)) , \w+ >) )?(?:requires )*(?:ensures )*(?=\{)"
)
CALL = re.compile(r"(?<!\S)(?!(?:if|while|return|match) \()((?:\. )?\w+(?: :: \w+)*) \( ")

Function = namedtuple("Function", "source name parameters body start")
Call = namedtuple("Call", "callee arguments start")


class Unread(Exception):
    """The reading has ended, for what follows could be anything."""


class Source:
    def __init__(self, path, raw):
        self.path, self.starts, self.lines = path, [], []
        at, line, words, length = 0, 1, [], 0
        while at < len(raw):
            match = TOKEN.match(raw, at)
            odd = not match or not match[0].replace("\n", " ").isprintable()
            if odd or match.lastgroup == "ghost" and MOVES_THE_END.search(match[0]):
                raise Unread(f"{path}:{line}: not read from here on: {raw[at : at + 30]!r}")
            if match.lastgroup != "gap":
                words.append(match[0].split()[0] if match.lastgroup == "ghost" else match[0])
                self.starts.append(length)
                self.lines.append(line)
                length += len(words[-1]) + 1
            line += match[0].count("\n")
            at = match.end()
        self.text = "".join(word + " " for word in words)

    def at(self, start):
        return f"{self.path}:{self.lines[bisect.bisect_right(self.starts, start) - 1]}"


def show(text):
    """Tokens as a person writes them, for a message."""
    text = re.sub(r"(?<=[\w\])]) (?=[\[(])", "", text.strip())
    text = re.sub(r"\b(mut|if|while|return|match)(?=[\[(])", r"\1 ", text)
    text = re.sub(r"(?<=[\[(.&!]) | (?=[\]),;.:!](?!=))|(?<=::) ", "", text)
    return re.sub(r"(^|[(;={] ?)\* ", r"\1*", text)


def closing(text, start):
    """Where the bracket that opens at `start` is closed."""
    opened = []
    for sign in re.compile(r"[][(){}]").finditer(text, start):
        if sign[0] in "([{":
            opened.append(")]}"["([{".index(sign[0])])
        elif opened.pop() != sign[0]:
            break
        if not opened:
            return sign.start()
    raise Unread(f"brackets that do not match: {show(text[start : start + 60])}")


def items(source):
    """The items of a source with their places, and its functions."""
    found, functions, at = [], [], 0
    while at < len(source.text):
        head, start, body = ITEM.match(source.text, at), at, ""
        if not head:
            raise Unread(f"{source.at(at)}: not an item that is known: {show(source.text[at : at + 60])}")
        at = head.end()
        if source.text.startswith("{", at):
            body = source.text[at + 2 : closing(source.text, at)]
            at += len("{ " + body + "} ")
        if head["name"]:
            given = head["parameters"]
            each = [re.fullmatch(r"(\w+) : (.+)", part) for part in given.strip(" ,").split(" , ")] if given else []
            if not all(each):
                raise Unread(f"{source.at(start)}: parameters that are not known: {show(given)}")
            functions.append(Function(source, head["name"], [part.groups() for part in each], body, head.end() + 2))
            found.append((f"{'extern ' if head['before'].startswith('#') else head['before']}fn {head['name']}", start))
        elif head["several"]:
            path = show(head[0].partition("{")[0])
            found += [(path + name, start) for name in head["several"].split(" , ")]
        elif head[0] != "ghost ":
            found.append((show(head["type"] or head[0]).rstrip(" ;").partition(": ")[0], start))
            plain = re.fullmatch(r"(?:[\w :,{}]|< 'a > )*", body) and head["type"] != "pub struct Memory "
            if not plain and not source.text.startswith(MEMORY, head.start("type")):
                raise Unread(f"{source.at(start)}: a type that is not known: {show(body)}")
    return found, functions


def calls(function):
    """The calls in a body, in the order of the text; each argument with its place in the body."""
    for match in CALL.finditer(function.body):
        start, depth, arguments = match.end(), 0, []
        for word in re.finditer(r"\S+ ", function.body[match.end() : closing(function.body, match.end() - 2)] + ", "):
            depth += (word[0][0] in "([{") - (word[0][0] in ")]}")
            if word[0] == ", " and depth == 0:
                arguments.append((function.body[start : match.end() + word.start()].strip(), start))
                start = match.end() + word.end()
        yield Call(match[1].replace(" ", ""), [argument for argument in arguments if argument[0]], match.start())


def assignments(function):
    """The assignments of a body: the place that is assigned to, back to where the statement begins; the statement; and where it stands."""
    for sign in re.finditer(r"(?<= )(?:[-+*/%&|^]|<<|>>)?= ", function.body):
        start, depth = sign.start(), 0
        for word in reversed(list(re.finditer(r"(\S+) ", function.body[: sign.start()]))):
            if depth == 0 and (word[1] in (";", "{", "=>") or word[1] == "}" and start != sign.start()):
                break
            depth += (word[1] in ")]}") - (word[1] in "([{")
            if depth < 0:
                break
            start = word.start()
        end = sign.end() + re.search(r"[;}] |$", function.body[sign.end() :]).start()
        yield function.body[start : sign.start()].strip(), function.body[start:end] + ";", start
