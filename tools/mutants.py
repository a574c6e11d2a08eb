"""Reads Rattle sources and makes their mutants: versions with one small change of the code.

Only code is changed, never a comment, a contract or a ghost item. The sources are read no deeper than the changes
need: brackets, declarations, and the types of parameters and of locals where they are easy to tell. A change that
comes out as no valid Rattle does no harm, since the front end refuses it.
"""

import hashlib
import re
from collections import Counter
from dataclasses import dataclass, field
from pathlib import Path

# In the order in which a sample takes them.
KINDS = {
    "variant": "another variant of the enum",
    "comparison": "another comparison: with or without the equal case, or the other direction",
    "constant": "a number by one",
    "field": "another field of the same type, as another timer",
    "branch": "a branch negated: its test, its two blocks, or the two values of a choice; a `!` left out",
    "swap": "two fields of a struct or two arguments of a call exchanged",
    "truth": "true for false, or false for true",
    "named": "another named constant of the same type",
    "parameter": "another parameter of the same type",
    "callee": "another function of the same type",
    "operator": "another operator, of arithmetic or between tests, as or for and",
    "dropped": "a statement left out",
    "fixed": "a fixed value for an argument, for a field of a struct or for the test of a branch",
    "part": "a part of a slice for the slice: no byte of it, or all but the first",
    "result": "a fixed value for what a function gives, or that number and one, or the contrary of that truth value",
}
COMPARISONS = {"<": ["<=", ">"], "<=": ["<", ">="], ">": [">=", "<"], ">=": [">", "<="], "==": ["!="], "!=": ["=="]}
CONTRARY = {"<": ">=", "<=": ">", ">": "<=", ">=": "<", "==": "!=", "!=": "=="}
OPERATORS = {"+": "-", "-": "+", "*": "+", "/": "%", "%": "/", "<<": ">>", ">>": "<<", "&": "|", "|": "&", "^": "|"}
OPERATORS |= {"+=": "-=", "-=": "+="}
NUMBERS = ("u8", "u16", "u32", "u64", "usize")
SLICE = re.compile(r"(?:mut)?\[[^;]*\]")
NO_EXPRESSION = ("let", "return", "if", "while", "loop", "for", "match", "break", "continue")

TOKEN = re.compile(
    r"""(?P<space>\s+|//[^\n]*)
      | (?P<number>(?:0x[0-9A-Fa-f_]+|[0-9][0-9_]*)(?:[iu](?:8|16|32|64|size))?|b'(?:\\.|[^\\])')
      | (?P<string>b?"(?:\\.|[^"\\])*")
      | (?P<name>'?[A-Za-z_][A-Za-z0-9_]*)
      | (?P<sign>\.\.=|\.\.|::|->|=>|<<|>>|&&|\|\||[-+*/%&|<>=!]=|.)""",
    re.VERBOSE | re.DOTALL,
)


# ---- reading


@dataclass
class Token:
    kind: str
    text: str
    start: int

    @property
    def end(self):
        return self.start + len(self.text)


class Code(list):
    """Tokens in a row, with the partner of each bracket, and the place of the bracket around each token."""

    def __init__(self, tokens):
        super().__init__(tokens)
        self.partner, self.around, opened = {}, [], []
        for i, token in enumerate(self):
            if token.text in (")", "]", "}") and opened:
                self.partner[i], self.partner[opened[-1]] = opened[-1], i
                opened.pop()
            self.around.append(opened[-1] if opened else None)
            if token.text in ("(", "[", "{"):
                opened.append(i)

    def text(self, i):
        return self[i].text if i is not None and 0 <= i < len(self) else ""

    def find(self, i, *texts):
        """The first place from i on with one of the texts, not inside brackets that open on the way."""
        while i < len(self) and self[i].text not in texts:
            i = max(i, self.partner.get(i, i)) + 1
        return i

    def parts(self, opening):
        """What stands between the commas inside a bracket, each as (first, behind)."""
        parts, i, end = [], opening + 1, self.partner[opening]
        while i < end:
            comma = min(self.find(i, ","), end)
            parts.append((i, comma))
            i = comma + 1
        return parts

    def type_text(self, first, behind):
        """The text of a type, without the signs of references and lifetimes."""
        return "".join(t.text for t in self[first:behind] if t.text != "&" and t.text[0] != "'")


def code_of(text):
    """The tokens of a file without comments, contracts and ghost items."""
    tokens = [Token(m.lastgroup, m.group(), m.start()) for m in TOKEN.finditer(text) if m.lastgroup != "space"]
    code, kept, i = Code(tokens), [], 0
    while i < len(code):
        # a clause may have a star and a name
        clause = next((k for k in range(i + 1, i + 4) if code.text(k) == "{"), None)
        if code[i].text in ("requires", "ensures") and clause:
            i = code.partner[clause] + 1
        elif code[i].text == "ghost":
            # an item ends with a semicolon, a field of a struct with a comma or with the struct
            end = code.partner.get(code.around[i]) if code.around[i] is not None else len(code)
            i = min(code.find(i, ";", ","), end - 1) + 1
        else:
            kept.append(code[i])
            i += 1
    return Code(kept)


@dataclass(eq=False)
class Item:
    """A function or a constant: its path, as ['pdu', 'filter', 'decide'], and its code from `first` up to `behind`."""

    path: list
    file: Path
    code: Code = field(repr=False)
    first: int
    behind: int
    public: bool
    parameters: list  # (name, type)
    result: str
    is_function: bool

    @property
    def name(self):
        return "::".join(self.path[1:])

    @property
    def type(self):
        return [type_ for _, type_ in self.parameters], self.result


class Sources:
    """What the crates declare. Each table has (path, what is declared) in the order of the text."""

    def __init__(self, folder, crates):
        self.texts, self.functions, self.constants, self.structs, self.enums = {}, [], [], [], []
        self.named = {}  # the names in the code of a crate, with how often each stands there
        for crate in crates:
            self.named[crate] = Counter()
            for file in sorted((folder / crate / "src").glob("*.rt")):
                self.texts[file] = file.read_text()
                code = code_of(self.texts[file])
                self.named[crate].update(token.text for token in code if token.kind == "name")
                path = [crate] if file.stem in ("lib", "main") else [crate, file.stem]
                self.read_items(file, code, 0, len(code), path)

    def read_items(self, file, code, i, behind, path):
        public = False
        while i < behind:
            word, name = code[i].text, code.text(i + 1)
            if word == "fn":
                i = self.read_function(file, code, i, path + [name], public)
            elif word == "const":
                equal = code.find(i, "=")
                end = code.find(equal, ";")
                type_ = code.type_text(i + 3, equal)
                item = Item(path + [name], file, code, equal + 1, end, public, [], type_, False)
                self.constants.append((item.path, item))
                i = end
            elif word == "impl":
                # the type stands before the block, behind the trait where there is one
                # and before its own parameters, such as `<'a>`
                block = code.find(i, "{")
                named, depth = block - 1, 0
                while depth or code.text(named) == ">":
                    depth += (code.text(named) == ">") - (code.text(named) == "<")
                    named -= 1
                self.read_items(file, code, block + 1, code.partner[block], path + [code.text(named)])
                i = code.partner[block]
            elif word in ("struct", "enum"):
                i = self.read_type(code, i, path + [name])
            elif word == "mod" and code.text(i + 2) == "{":
                i = code.partner[i + 2]  # tests, which are no part of the product
            elif word in ("use", "mod", "type"):
                i = code.find(i, ";")
            else:
                # what stands before an item: `pub`, `extern "C"`, an attribute
                public = public or word == "pub"
                i = code.partner.get(i, i) + 1
                continue
            public = False
            i += 1

    def read_function(self, file, code, i, path, public):
        opening = code.find(i, "(")
        body = code.find(opening, "{")
        parameters = []
        for first, behind in code.parts(opening):
            colon = code.find(first, ":")
            if colon < behind:  # not `self`
                parameters.append((code[colon - 1].text, code.type_text(colon + 1, behind)))
        result = code.type_text(code.partner[opening] + 2, body)
        end = code.partner[body]
        self.functions.append((path, Item(path, file, code, body, end + 1, public, parameters, result, True)))
        return end

    def read_type(self, code, i, path):
        opening = code.find(i, "{", "(")
        members = []
        for first, behind in code.parts(opening):
            members.append((first + 1 if code[first].text == "pub" else first, behind))
        if code[i].text == "enum":
            # a number behind `=` is no type
            carried = [(code[f].text, "" if code.text(f + 1) == "=" else code.type_text(f + 1, b)) for f, b in members]
            self.enums.append((path, carried))
        elif code[opening].text == "{":
            self.structs.append((path, [(code[f].text, code.type_text(f + 2, b)) for f, b in members]))
        else:
            self.structs.append((path, [(str(k), code.type_text(f, b)) for k, (f, b) in enumerate(members)]))
        return code.partner[opening]

    @staticmethod
    def look_up(table, words, crate):
        """What a path such as ['filter', 'keeps'] stands for in a crate; None where that is not clear."""
        found = [(path, what) for path, what in table if path[-len(words) :] == words]
        found = [entry for entry in found if entry[0][0] == crate] or found
        return found[0][1] if len(found) == 1 else None

    def items(self, crate):
        """The functions of a crate, and its constants that it uses itself: others are changed where they are used."""
        constants = [(path, item) for path, item in self.constants if self.named[path[0]][path[-1]] > 1]
        return [item for path, item in constants + self.functions if path[0] == crate]


# ---- mutants


@dataclass(eq=False)
class Mutant:
    """The item's text with `new` from `start` up to `end`."""

    item: Item = field(repr=False)
    kind: str
    start: int
    end: int
    new: str
    name: str = ""

    @property
    def crate(self):
        return self.item.path[0]

    @property
    def file(self):
        return self.item.file

    def apply(self, text):
        return text[: self.start] + self.new + text[self.end :]

    def shown(self, text):
        """The number of the first line that is changed, and the changed lines before and after."""
        start = text.rfind("\n", 0, self.start) + 1
        end = text.find("\n", self.end)
        new = text[start : self.start] + self.new + text[self.end : end]
        old, new = (re.sub(r"\s+", " ", lines).strip() for lines in (text[start:end], new))
        return text.count("\n", 0, start) + 1, old, new


def mutants_of(sources, item):
    """The mutants of an item in the order of the text, each named crate/item/kind/number."""
    mutants, numbers = Finder(sources, item).find(), dict.fromkeys(KINDS, 0)
    for mutant in mutants:
        numbers[mutant.kind] += 1
        mutant.name = f"{mutant.crate}/{item.name}/{mutant.kind}/{numbers[mutant.kind]}"
    return mutants


def sampled(mutants):
    """The mutants of an item in the order in which a sample takes them: one of each kind in turn."""
    of_kind = [[m for m in mutants if m.kind == kind] for kind in KINDS]
    for some in of_kind:
        some.sort(key=lambda m: hashlib.sha256(m.name.encode()).digest())
    turns = max(map(len, of_kind))
    return [some[turn] for turn in range(turns) for some in of_kind if turn < len(some)]


class Finder:
    """Finds the mutants of one item."""

    def __init__(self, sources, item):
        self.sources, self.item, self.code, self.crate = sources, item, item.code, item.path[0]
        self.text = sources.texts[item.file]
        self.types = dict(item.parameters)
        self.found = {}  # by the change, since two kinds may make the same one

    def find(self):
        for i in range(self.item.first, self.item.behind):
            if self.code[i].kind == "number" and self.code.text(i - 1) != ".":  # no field of a tuple
                self.number(i, i + 1, self.code[i].text)
            elif self.code[i].kind == "name":
                self.name(i)
            else:
                self.sign(i)
        if self.item.is_function:
            self.result()
        return sorted(self.found.values(), key=lambda m: (m.start, m.end))

    def add(self, kind, first, behind, new):
        """Puts `new` for the tokens from first up to behind."""
        start, end = self.code[first].start, self.code[behind - 1].end
        if new != self.text[start:end]:
            self.found.setdefault((start, end, new), Mutant(self.item, kind, start, end, new))

    def source(self, first, behind):
        return self.text[self.code[first].start : self.code[behind - 1].end]

    def exchange(self, kind, one, other):
        """Exchanges two stretches of tokens, of which `one` comes first."""
        if one[0] < one[1] and other[0] < other[1]:
            between = self.text[self.code[one[1] - 1].end : self.code[other[0]].start]
            self.add(kind, one[0], other[1], self.source(*other) + between + self.source(*one))

    def exchange_alike(self, parts, types):
        """Exchanges each argument or field with the next one of the same type."""
        for k in range(len(parts)):
            other = next((n for n in range(k + 1, min(len(parts), len(types))) if types[n] == types[k]), None)
            if other is not None:
                self.exchange("swap", parts[k], parts[other])

    def fixed_values(self, type_):
        """Two values of a type, where it has some that can be written without knowing more of it."""
        if type_ in NUMBERS:
            return ["0", "1"]
        if type_ == "bool":
            return ["false", "true"]
        enum = self.look_up(self.sources.enums, [type_]) if type_ and type_.isidentifier() else None
        plain = [name for name, carried in enum or [] if not carried]
        return [f"{type_}::{name}" for name in dict.fromkeys(plain[:1] + plain[-1:])]

    def constant_at(self, first, behind):
        """The number of the constant that these tokens name; None for all else."""
        named = self.look_up(self.sources.constants, self.path_at(behind - 1)) if self.code[first].kind == "name" else None
        value = named.code[named.first : named.behind] if named else []
        return value[0].text if len(value) == 1 else None

    def fix(self, parts, types, before=""):
        """Puts fixed values, or parts of a slice, for each argument or field; `before` names a field that has no colon."""
        for (first, behind), type_ in zip(parts, types):
            for value in self.fixed_values(type_) if first < behind else []:
                if value != self.constant_at(first, behind):
                    self.add("fixed", first, behind, before + value)
            local = self.types.get(self.code[first].text) if behind == first + 1 else None
            if local and type_ and SLICE.fullmatch(local) and SLICE.fullmatch(type_):
                sign = "&mut " if type_.startswith("mut") else "&"
                for part in "[..0]", "[1..]":
                    self.add("part", first, behind, before + sign + self.code[first].text + part)

    def put_next(self, kind, i, members):
        """Puts the next of the members with the same type, in a circle, for the name at i. Gives the type."""
        place = next((k for k, (name, _) in enumerate(members) if name == self.code[i].text), None)
        if place is None:
            return None
        type_ = members[place][1]
        partner = next((name for name, t in members[place + 1 :] + members[:place] if t == type_), None)
        if partner is not None:
            self.add(kind, i, i + 1, partner)
        return type_

    def put_beside(self, kind, i, table, named):
        """Puts another function or constant that is declared beside the named one, and has its type."""
        may_be_private = named.path[0] == self.crate
        beside = [o for path, o in table if path[:-1] == named.path[:-1] and (o.public or may_be_private)]
        self.put_next(kind, i, [(o.path[-1], o.type) for o in beside if o is not self.item])

    def look_up(self, table, words):
        return self.sources.look_up(table, words, self.crate)

    def path_at(self, i):
        """The path that ends with the name at i."""
        words = [self.code[i].text]
        while self.code.text(i - 1) == "::":
            i -= 2
            words.insert(0, self.code[i].text)
        return words

    # ---- what stands at a place

    def number(self, first, behind, text):
        """Puts the two neighbours of a number for the tokens that stand for it."""
        if text[0] == "b":
            value = ord(text[2:-1].encode().decode("unicode_escape"))
            near = [chr(value + 1), chr(value - 1)]
            changed = [f"b'{c}'" if c.isalnum() else str(ord(c)) for c in near]
        else:
            digits = re.match(r"0x[0-9A-Fa-f_]+|[0-9_]+", text).group()
            is_hex = digits.startswith("0x")
            value, layout = int(digits, 16 if is_hex else 10), f"0x%0{len(digits) - 2}X" if is_hex else "%d"
            changed = [layout % near + text[len(digits) :] for near in (value + 1, value - 1) if near >= 0]
        for new in changed:
            self.add("constant", first, behind, new)

    def sign(self, i):
        code, text = self.code, self.code[i].text
        if text in COMPARISONS and "'" not in code.text(i - 1) + code.text(i + 1):  # no lifetime in it
            for new in COMPARISONS[text]:
                self.add("comparison", i, i + 1, new)
        between_operands = code[i - 1].kind in ("name", "number") or code.text(i - 1) in (")", "]")
        if text in OPERATORS and between_operands and code.text(i - 1) not in NO_EXPRESSION:
            self.add("operator", i, i + 1, OPERATORS[text])
        elif text == "!":
            self.add("branch", i, i + 1, "")

    def name(self, i):
        code, text = self.code, self.code[i].text
        before, after = code.text(i - 1), code.text(i + 1)
        if text in ("true", "false"):
            self.add("truth", i, i + 1, "false" if text == "true" else "true")
        elif text == "let":
            self.note_type(i)
        elif text == "if":
            self.branch(i)
        elif text in self.types and before != "." and after not in (":", "::"):
            self.put_next("parameter", i, self.item.parameters)
            self.fields(i)
        elif after != "::" and (after in ("(", "{") or before == "::" or text.isupper()):
            self.path(i)
        if before in ("{", "}", ";") and code.text(code.around[i]) == "{" and text not in NO_EXPRESSION:
            self.statement(i)

    def branch(self, i):
        code = self.code
        block = code.find(i, "{")
        end = code.partner[block]
        tests = [k for k in range(i + 1, block) if code[k].text in CONTRARY and code.around[k] == code.around[i]]
        if code.text(end + 1) == "else" and code.text(end + 2) == "{":
            self.exchange("branch", (block + 1, end), (end + 3, code.partner[end + 2]))
        elif len(tests) == 1:
            self.add("branch", tests[0], tests[0] + 1, CONTRARY[code[tests[0]].text])
        else:
            self.add("branch", i + 1, block, f"!({self.source(i + 1, block)})")
        self.fix([(i + 1, block)], ["bool"])

    def fields(self, i):
        """The fields named behind a local, as in `c.times.wait`."""
        type_ = self.types[self.code[i].text]
        while type_ and self.code.text(i + 1) == "." and self.code.text(i + 3) != "(":
            i += 2
            type_ = self.put_next("field", i, self.look_up(self.sources.structs, [type_]) or [])

    def path(self, i):
        """The last name of a path: a variant, a struct that is made, a function that is called, or a constant."""
        code, sources, words, after = self.code, self.sources, self.path_at(i), self.code.text(i + 1)
        enum = self.look_up(sources.enums, words[:-1]) if len(words) > 1 else None
        struct = self.look_up(sources.structs, words)
        function = self.look_up(sources.functions, words)
        constant = self.look_up(sources.constants, words)
        if enum:
            behind = code.partner[i + 1] + 1 if after == "(" else i + 1
            if code.text(behind) not in ("=>", "|"):  # no pattern
                self.put_next("variant", i, enum)
        elif struct and after == "{":
            values = [(f + 2, b, code[f].text) for f, b in code.parts(i + 1) if code.text(f + 1) == ":"]
            parts, types = [value[:2] for value in values], [dict(struct).get(value[2]) for value in values]
            self.exchange_alike(parts, types)
            self.fix(parts, types)
            for first, behind in code.parts(i + 1):
                if behind == first + 1:
                    name = code[first].text
                    self.fix([(first, behind)], [dict(struct).get(name)], f"{name}: ")
        elif struct and after == "(":
            self.exchange_alike(code.parts(i + 1), [type_ for _, type_ in struct])
        elif function and after == "(":
            self.call(i, function)
        elif constant:
            self.put_beside("named", i, sources.constants, constant)
            value = constant.code[constant.first : constant.behind]
            if constant.path[0] != self.crate and [token.kind for token in value] == ["number"]:
                self.number(i - 2 * (len(words) - 1), i + 1, value[0].text)

    def call(self, i, function):
        arguments, leaf = self.code.parts(i + 1), function.path[1] if function.path[0] == "choice" else ""
        if leaf.startswith("pick"):
            self.exchange("branch", arguments[1], arguments[2])
        else:
            types = [type_ for _, type_ in function.parameters]
            self.exchange_alike(arguments, types)
            self.fix(arguments, types)
            self.put_beside("callee", i, self.sources.functions, function)

    def statement(self, i):
        """An assignment or a call that is a statement."""
        end = self.code.find(i, ";")
        if end < self.item.behind and self.code.around[end] == self.code.around[i]:
            self.add("dropped", i, end + 1, "")

    def result(self):
        """What a function gives: the last expression of its body."""
        code, body, end = self.code, self.item.first, self.item.behind - 1
        first = i = body + 1
        while i < end:
            i = code.find(i, ";", "{")
            if i < end and code[i].text == "{":  # of a statement that ends with its block, or of the last expression
                i = code.partner[i]
                if code.text(i + 1) == "else" or code[first].text not in ("while", "loop", "if", "match"):
                    i += 1
                    continue
            if i + 1 < end:
                first = i + 1
            i += 1
        type_ = self.item.result
        for value in self.fixed_values(type_):
            self.add("result", first, end, value)
        if type_ in NUMBERS:
            self.add("result", first, end, f"{self.source(first, end)} + 1")
        elif type_ == "bool":
            self.add("result", first, end, f"!({self.source(first, end)})")

    # ---- the types of locals

    def note_type(self, i):
        """Notes the type of the local that a `let` makes, where it is easy to tell."""
        name = i + 2 if self.code.text(i + 1) == "mut" else i + 1
        self.types.pop(self.code.text(name), None)
        if self.code.text(name + 1) == "=":
            type_ = self.type_of(name + 2, self.code.find(name, ";"))
            if type_:
                self.types[self.code[name].text] = type_

    def type_of(self, first, behind):
        """The type of a call, of a struct that is made, or of a local and its fields; None for all else."""
        code, i = self.code, first
        while code.text(i + 1) == "::":
            i += 2
        if code.partner.get(i + 1) == behind - 1:
            function = self.look_up(self.sources.functions, self.path_at(i)) if code.text(i + 1) == "(" else None
            return function.result if function else code[i].text
        type_ = self.types.get(code[first].text)
        while type_ and i + 1 < behind:
            i += 2
            type_ = dict(self.look_up(self.sources.structs, [type_]) or []).get(code.text(i))
        return type_
