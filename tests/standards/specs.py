"""What the tests read from the specs of crates/standards: constructors of data types, equations, lists of steps, rows. Run in the repository's folder."""
import re
import sys

SPECS = "crates/standards/specs/"


def fail(message):
    sys.exit(f"{sys.argv[0]}: {message}")


def read(name):
    """The file's lines, without comments."""
    with open(SPECS + name, encoding="utf-8") as file:
        return [re.sub(r"--.*", "", line).rstrip() for line in file]


def constructors(name, of):
    """The constructors of the data type `of`, which stand in one line."""
    lines = read(name)
    starts = [i for i, line in enumerate(lines) if line.startswith(f"pub data {of} ")]
    if len(starts) != 1:
        fail(f"{name} has {len(starts)} definitions of {of}")
    names, colon, of_type = lines[starts[0] + 1].partition(" : ")
    if not colon or of_type.strip() != of:
        fail(f"{name}: the constructors of {of} do not stand in one line")
    return names.split()


def equations(name, function):
    """What stands on the right of `function x =`, by x. A list without an argument has the x ''."""
    found = {}
    for line in read(name):
        match = re.fullmatch(rf"{function}(?: (\w+))? = (.*)", line)
        if match:
            x = match[1] or ""
            if x in found:
                fail(f"{name}: {function} has two lines for {x}")
            found[x] = match[2]
    return found


def listed(name, steps, text):
    """The steps of a list: steps before ∷, and named lists and [] elsewhere. ∷ and ++ both append, however they are grouped."""
    tokens = re.findall(r"\w+|∷|\+\+|\[\]|[()]|\S", text)
    result = []
    for token, after in zip(tokens, tokens[1:] + [""]):
        if after == "∷":
            if token not in steps:
                fail(f"{name}: {token} is not a step, in: {text}")
            result.append(token)
        elif re.fullmatch(r"\w+", token):
            named = equations(name, token)
            if list(named) != [""]:
                fail(f"{name}: {token} is not a list of steps, in: {text}")
            result += listed(name, steps, named[""])
        elif token not in ("∷", "++", "[]", "(", ")"):
            fail(f"{name}: {token} is not understood, in: {text}")
    return result


def table(name, steps, operators):
    """The steps of each operator."""
    lines = equations(name, "steps")
    for operator in lines:
        if operator not in operators:
            fail(f"{name}: steps has a line for {operator}, which the document does not define")
    for operator in operators:
        if operator not in lines:
            fail(f"{name}: steps has no line for {operator}")
    lists = {operator: listed(name, steps, lines[operator]) for operator in operators}
    for operator, steps_of_it in lists.items():
        if len(set(steps_of_it)) != len(steps_of_it):
            fail(f"{name}: {operator} has a step twice")
    return lists


def compositors(function, operators):
    """The compositor's name of each operator."""
    names = {x: text.removeprefix("O.") for x, text in equations("Operators.antt", function).items()}
    for operator in operators:
        if operator not in names:
            fail(f"Operators.antt: {function} has no line for {operator}")
    return names


WORD = r"(?:0x[0-9a-f_]+|0)"
ROW = re.compile(rf"(fractions|blends) (\w+) (\w+) (\w+)((?: {WORD}){{6}})|non_separable (\w+)((?: {WORD}){{2}})")
OVER = re.compile(r"over (\w+) \(λ m\. (.*?)\)")


def words(text):
    """The words of a row, as eight digits each."""
    return tuple(word.replace("0x", "").replace("_", "").zfill(8) for word in text.split())


def rows(lists):
    """The rows of the named lists of Rows.antt, in their order: step, operator, value, words. One row for several modes is `over` them."""
    text = "\n".join(read("Rows.antt"))
    found = []
    for name in lists:
        equation = re.search(rf"^{name} =(.*?)^(?:abbrev|unfoldable|pub|\Z)", text, re.M | re.S)
        if not equation:
            fail(f"Rows.antt has no list {name}")
        found += list_rows(equation[1])
    return found


def list_rows(text):
    found = []
    for over in OVER.finditer(text):
        modes = listed_modes(over[1])
        found += [row(ROW.fullmatch(over[2].replace(" m ", f" {mode} "))) for mode in modes]
    return found or [row(match) for match in ROW.finditer(text)]


def listed_modes(name):
    return [mode for mode in re.findall(r"\w+", equations("Rows.antt", name)[""]) if mode]


def row(match):
    if match[1]:
        return (match[2], match[4], match[3], *words(match[5]))
    return ("", match[6], "red", *words(match[7]))


def row_lists():
    """The lists that `rows` puts together."""
    text = "\n".join(read("Rows.antt"))
    return re.findall(r"\w+", re.search(r"^rows =(.*?)^(?:abbrev|unfoldable|pub|\Z)", text, re.M | re.S)[1])
