"""What the library's interface is said to be: functions, constants and sentences as they stand in the texts that declare them
(the header, the Rust wrapper, the Rattle sources and the pages)."""

import ast
import operator
import re

PREFIX = "RECOVERY_LINE_"
# The crates of the constants' parts, each after those whose constants it uses, and last the crate of the exported functions.
RATTLE = ["book", "matrix", "message", "machine", "words", "recovery_line", "recovery_line_c"]
RUST_TYPES = {"uint8_t": "u8", "uint32_t": "u32", "uint64_t": "u64", "size_t": "usize", "recovery_line_counter": "Counter"}


class Unreadable(Exception):
    """A declaration in a form that this script does not know."""


# Functions: a list of (name, parameters, result); a parameter is (name, type), with types as Rust writes C's.


def blank_comments(text):
    """C comments become spaces, so that what stands around them keeps its place."""
    return re.sub(r"/\*.*?\*/", lambda m: re.sub(r"\S", " ", m.group()), text, flags=re.S)


def without_line_comments(text):
    return re.sub(r"//[^\n]*", "", text)


def listed(parameters):
    """The parameters between two brackets, a trailing comma aside."""
    return [" ".join(p.split()) for p in parameters.split(",") if p.strip()]


def c_parameter(text):
    known = re.fullmatch(r"(const )?(\w+) ?(\*?) ?(\w+)", text)
    if not known or known[2] not in RUST_TYPES or (known[1] and not known[3]):
        raise Unreadable(f"header: parameter `{text}`")
    pointer = ("*const " if known[1] else "*mut ") if known[3] else ""
    return (known[4], pointer + RUST_TYPES[known[2]])


def header_functions(text):
    """What is declared; what is defined there too, as a static inline function, is no part of the archive."""
    found = []
    for m in re.finditer(r"(\w+)\s+(recovery_line_\w+)\s*\(([^)]*)\)\s*;", blank_comments(text)):
        if m[1] not in RUST_TYPES:
            raise Unreadable(f"header: result `{m[1]}` of {m[2]}")
        parameters = [] if m[3] == "void" else listed(m[3])
        found.append((m[2], [c_parameter(p) for p in parameters], RUST_TYPES[m[1]]))
    return found


def lent_parameter(text):
    """As Rust and Rattle lend it: a slice crosses as a pointer and the number of its elements, a reference to a number as a
    pointer."""
    name, kind = (part.strip() for part in text.split(":", 1))
    known = re.fullmatch(r"(?:(&)\s*(?:'\w+ )?(mut )?)?(\[?)\s*(u8|u32|u64|Counter)\s*(\]?)", kind)
    if not known or bool(known[3]) != bool(known[5]) or (known[3] and not known[1]):
        raise Unreadable(f"parameter `{text}`")
    if not known[1]:
        return [(name, known[4])]
    pointer = (name, ("*mut " if known[2] else "*const ") + known[4])
    return [pointer, (name + "_len", "usize")] if known[3] else [pointer]


def rust_functions(sys, interface):
    """Those that sys.rs declares by itself, then those of interface.rs, whose result the macro in sys.rs declares."""
    sys = without_line_comments(sys)
    plain = re.findall(r"pub fn (\w+)\(\) -> (\w+);", sys)
    result = "".join(re.findall(r"pub fn \$symbol\(.*\) -> (\w+);", sys))
    found = [(name, [], gives) for name, gives in plain]
    for m in re.finditer(r"\bfn \w+ = (\w+)\(([^)]*)\);", without_line_comments(interface)):
        found.append((m[1], [one for p in listed(m[2]) for one in lent_parameter(p)], result))
    return found


def rattle_functions(text):
    found = []
    exported = r'#\[unsafe\(no_mangle\)\]\s*pub extern "C" fn (\w+)\s*\(([^)]*)\)\s*(?:->\s*(\w+))?'
    for m in re.finditer(exported, without_line_comments(text)):
        parameters = [one for p in listed(m[2]) for one in lent_parameter(p)]
        found.append((m[1], parameters, m[3]))
    return found


def entry_types(texts):
    """The type of a table's entry, as each place names it."""
    return {
        "header": RUST_TYPES.get("".join(re.findall(r"typedef (\w+) recovery_line_counter;", texts["header"]))),
        "sys.rs": "".join(re.findall(r"pub type Counter = (\w+);", texts["sys"])),
        "Rattle": "".join(re.findall(r"pub type Counter = (\w+);", texts["book"])),
    }


# Constants: a list of (name, value); the value of a macro or function of n is the list of its values for n from 1 to 16.

OPERATORS = {ast.Add: operator.add, ast.Sub: operator.sub, ast.Mult: operator.mul, ast.FloorDiv: operator.floordiv}


def value(expression, known, n=None):
    """The value of a sum or product of numbers, names in `known`, `n`, and functions of n in `known`."""

    def of(node):
        if isinstance(node, ast.Constant) and isinstance(node.value, int):
            return node.value
        if isinstance(node, ast.BinOp) and type(node.op) in OPERATORS:
            return OPERATORS[type(node.op)](of(node.left), of(node.right))
        if isinstance(node, ast.Name) and node.id == "n" and n is not None:
            return n
        if isinstance(node, ast.Name) and isinstance(known.get(node.id), int):
            return known[node.id]
        if isinstance(node, ast.Call) and isinstance(known.get(node.func.id), list) and len(node.args) == 1:
            return known[node.func.id][of(node.args[0]) - 1]
        raise Unreadable(f"constant expression `{expression}`")

    try:
        return of(ast.parse(expression.strip(), mode="eval").body)
    except SyntaxError:
        raise Unreadable(f"constant expression `{expression}`") from None


def constants(pattern, text, before=()):
    """What `pattern` finds as (name, whether it takes n, expression), in order; it may use what stands `before`."""
    known = dict(before)
    for name, takes_n, expression in re.findall(pattern, text):
        expression = re.sub(r"\b(\d+)[uU]?[lL]*\b", r"\1", expression.replace("_usize", ""))
        if name in known:
            raise Unreadable(f"constant {name} stands twice")
        every = [value(expression, known, n) for n in range(1, 17)] if takes_n else value(expression, known)
        known[name] = every
    return list(known.items())[len(before) :]


def header_constants(text):
    """All but what stands before a declaration, which has no value."""
    text = re.sub(rf"#define {PREFIX}NODISCARD\b[^\n]*", "", blank_comments(text))
    return constants(rf"#define ({PREFIX}\w+?)(\(n\))? +(\S[^\n]*)", text.replace("\\\n", ""))


def sys_constants(text):
    text = without_line_comments(text)
    plain = r"pub const (\w+)()\s*:\s*\w+\s*=\s*([^;]+);"
    of_n = r"pub const fn (\w+)(\(n: usize\)) -> usize \{\s*([^}]*?)\s*\}"
    found = constants(plain, text)
    return found, constants(of_n, text, found)


def rattle_constants(texts):
    """The constants of the crates in RATTLE: a crate uses its own by their names, those of another as `crate::NAME`."""
    known, found = {}, {}
    for crate in RATTLE:
        text, own = without_line_comments(texts[crate]), {}
        for name, expression in re.findall(r"pub const (\w+)\s*:\s*\w+\s*=\s*([^;]+);", text):
            plain = re.sub(r" as \w+", "", " ".join(expression.split())).replace("::", "__")
            own[name] = value(plain, {**known, **own})
        known.update({f"{crate}__{name}": number for name, number in own.items()})
        found.update(own)
    return found


def spec_version(text):
    """The version that the contract of `recovery_line_version` names."""
    return [int(number) for number in re.findall(r"^version = (\d+)$", text, flags=re.M)]


def format_rows(text):
    """The numbers that a table of docs/FORMAT.md gives for constants, in rows as | `NAME` | 4 | .. |."""
    return [(name, int(number)) for name, number in re.findall(rf"^\| `({PREFIX}\w+)` \| (\d+) \|", text, flags=re.M)]


# Sentences: a dictionary from a question's number, or None for any other number, to what is said of it.

LITERAL = r'"(?:[^"\\]|\\.)*"'


def joined(literals):
    """Adjacent string literals as one text."""
    try:
        return "".join(ast.literal_eval(one) for one in re.findall(LITERAL, literals, flags=re.S))
    except (SyntaxError, ValueError):
        raise Unreadable(f"sentence {literals}") from None


def numbered(found, header, where):
    """Pairs of a number, a constant's name or neither, and literals, as a dictionary."""
    names = {**dict(header_constants(header)), "default": None, "_": None}
    sentences = {}
    for key, literals in found:
        number = int(key) if key.isdigit() else names.get(key, key)
        if number in sentences:
            raise Unreadable(f"{where}: {key} stands twice")
        sentences[number] = joined(literals)
    return sentences


def header_sentences(text):
    lines = re.findall(rf"(?:case )?(\w+): return ((?:{LITERAL}\s*)+);", text, flags=re.S)
    return numbered(lines, text, "header")


def rust_sentences(text, header):
    """A backslash at a line's end takes the spaces of the next line away."""
    arms = re.findall(rf"(?:sys::)?(\w+) => (?:\{{\s*)?({LITERAL})", text, flags=re.S)
    return numbered([(key, re.sub(r"\\\n\s*", "", literal)) for key, literal in arms], header, "refusal.rs")


def page_sentences(text):
    section = "".join(re.findall(r"^## Questions$(.*?)(?=^## |\Z)", text, flags=re.M | re.S))
    return {int(number): sentence for number, sentence in re.findall(r"^\| (\d+) \| (.*) \|$", section, flags=re.M)}
