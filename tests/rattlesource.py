"""The functions of Rattle sources, and which of them a piece of code calls.

A source is a folder of crates, or a dictionary from path to text. Contracts,
comments and ghost lines are no code and are left out.
"""

import re
from dataclasses import dataclass, field
from pathlib import Path

TOKEN = re.compile(
    r"""(?P<blank>\s+|//[^\n]*)
    |(?P<text>b?"(?:\\.|[^"\\])*"|b'(?:\\.|[^'\\])')
    |(?P<word>[^\W\d]\w*)
    |(?P<number>\d\w*)
    |(?P<sign>::|->|=>|<<=|>>=|==|!=|<=|>=|&&|\|\||<<|>>|\.\.=|\.\.|[-+*/%^&|]=|.)""",
    re.VERBOSE | re.DOTALL,
)
CLOSING = {"(": ")", "[": "]", "{": "}"}
# how many brackets a token opens, of types too
DEPTH = {**dict.fromkeys("([{<", 1), **dict.fromkeys(")]}>", -1), ">>": -2}
# words that may stand before "(" and call nothing
NO_CALL = {"if", "match", "while", "loop", "for", "in", "return", "let", "mut", "as", "else"}


@dataclass(frozen=True)
class Token:
    kind: str
    text: str
    line: int


@dataclass(frozen=True)
class Function:
    path: tuple  # crate, modules, type if it is a method, name
    is_method: bool  # stands in an impl or a trait
    file: str
    line: int
    body: tuple  # the tokens between its braces
    bounds: dict = field(compare=False)  # of each type parameter the traits that it is bound by, as they are named

    def __str__(self):
        return "::".join(self.path)


@dataclass(frozen=True)
class Call:
    name: str  # as it is written
    line: int
    callees: tuple  # none where the source has no such function; of a method, also by a type parameter, each method of its name


class Unreadable(Exception):
    pass


def tokens_of(text):
    tokens, line = [], 1
    for found in TOKEN.finditer(text):
        if found.lastgroup != "blank":
            tokens.append(Token(found.lastgroup, found.group(), line))
        line += found.group().count("\n")
    return tokens


def matching(tokens, at):
    """The place of the bracket that closes the one at `at`."""
    opening, closing, depth = tokens[at].text, CLOSING[tokens[at].text], 0
    for place in range(at, len(tokens)):
        depth += (tokens[place].text == opening) - (tokens[place].text == closing)
        if depth == 0:
            return place
    raise Unreadable(f"line {tokens[at].line}: {opening} is not closed")


def next_text(tokens, at, text):
    while tokens[at].text != text:
        at += 1
    return at


def ghost_end(tokens, at):
    """The place of the last token of a ghost item: a `use` line has its `;`, another its braces, or else a comma."""
    if tokens[at + 1].text == "use":
        return next_text(tokens, at, ";")
    while tokens[at].text not in ("{", ",", ";"):
        at += 1
    return matching(tokens, at) if tokens[at].text == "{" else at


def without_arguments(tokens):
    """The tokens without the type and const arguments of calls, as in f::<8>(a)."""
    kept, at = [], 0
    while at < len(tokens):
        if tokens[at].text == "::" and at + 1 < len(tokens) and tokens[at + 1].text == "<":
            at += 2
            while tokens[at].text != ">":
                if tokens[at].kind not in ("word", "number") and tokens[at].text != ",":
                    raise Unreadable(f"line {tokens[at].line}: {tokens[at].text} among the arguments of a call's type")
                at += 1
        else:
            kept.append(tokens[at])
        at += 1
    return tuple(kept)


def split(tokens, sign):
    """The parts of tokens between the signs that stand in no brackets."""
    parts, depth = [[]], 0
    for token in tokens:
        depth += DEPTH.get(token.text, 0)
        if token.text == sign and depth == 0:
            parts.append([])
        else:
            parts[-1].append(token)
    return parts


def named(tokens):
    """The names of a path, without its arguments."""
    texts = [token.text for token in tokens]
    return tuple(text for text in texts[: texts.index("<") if "<" in texts else None] if text != "::")


def parameters(tokens, at):
    """Of each type parameter of what may have some at `at` the traits that it is bound by; and the place after them."""
    if tokens[at].text != "<":
        return {}, at
    end, depth = at + 1, 1
    while depth > 0:
        depth += DEPTH.get(tokens[end].text, 0)
        end += 1
    parts = [part for part in split(tokens[at + 1 : end - 1], ",") if part and part[0].kind == "word" and part[0].text != "const"]
    return {part[0].text: tuple(named(bound) for bound in split(part[2:], "+")) for part in parts}, end


@dataclass(frozen=True)
class Owner:
    """What functions stand in: an impl, also of a trait, by its type, or a trait itself."""

    name: str
    bounds: dict
    is_trait: bool

    @staticmethod
    def at(tokens, at):
        """Of the impl or trait that begins at `at`."""
        end = next_text(tokens, at, "{")
        if tokens[at].text == "trait":
            name = tokens[at + 1].text
            return Owner(name, {**parameters(tokens, at + 2)[0], "Self": ((name,),)}, True)
        bounds, start = parameters(tokens, at + 1)
        texts = [token.text for token in tokens[start:end]]
        if "for" in texts:
            start += texts.index("for") + 1
        return Owner(named(tokens[start:end])[-1], bounds, False)


class Source:
    def __init__(self, files):
        self.functions = {}  # by path
        self.methods = {}  # by name
        self.modules = {}  # by path: what its `use` lines name
        self.types = set()
        self.traits = {}  # by path: the names of its functions
        for file, text in sorted(files.items()):
            _, crate, _, *modules = Path(file).with_suffix("").parts
            if modules in (["lib"], ["main"]):
                modules = []
            self._read_module((crate, *modules), file, tokens_of(text))

    @staticmethod
    def of_folder(root):
        return Source({str(p.relative_to(root)): p.read_text() for p in sorted(Path(root).glob("crates/*/src/**/*.rt"))})

    def _read_module(self, module, file, tokens):
        uses = self.modules.setdefault(module, {})
        owner, owner_ends, at = None, -1, 0
        while at < len(tokens):
            text = tokens[at].text
            if at >= owner_ends:
                owner = None
            if text == "ghost":
                at = ghost_end(tokens, at)
            elif text == "use":
                end = next_text(tokens, at, ";")
                uses.update(used_names(tokens[at + 1 : end]))
                at = end
            elif text in ("struct", "enum"):
                self.types.add((*module, tokens[at + 1].text))
                at += 1
            elif text in ("impl", "trait"):
                owner = Owner.at(tokens, at)
                if owner.is_trait:
                    self.traits[(*module, owner.name)] = set()
                at = next_text(tokens, at, "{")
                owner_ends = matching(tokens, at)
            elif text == "fn":
                at = self._read_function(module, owner, file, tokens, at)
            at += 1

    def _read_function(self, module, owner, file, tokens, at):
        """Returns the place of the last token of the function that starts at `at`."""
        name, line = tokens[at + 1].text, tokens[at].line
        bounds, at = parameters(tokens, at + 2)
        if owner:
            bounds = {**owner.bounds, **bounds}
            if owner.is_trait:
                self.traits[(*module, owner.name)].add(name)
        at = matching(tokens, next_text(tokens, at, "(")) + 1
        while tokens[at].text != "{":
            if tokens[at].text == ";":
                return at
            if tokens[at].text in ("requires", "ensures"):
                at = next_text(tokens, at, "{")
            if tokens[at].text in CLOSING:
                at = matching(tokens, at)
            at += 1
        end = matching(tokens, at)
        path = (*module, owner.name, name) if owner else (*module, name)
        function = Function(path, owner is not None, file, line, without_arguments(tokens[at + 1 : end]), bounds)
        if path in self.functions:
            raise Unreadable(f"{file}:{line}: {function} stands twice")
        self.functions[path] = function
        if owner:
            self.methods.setdefault(name, []).append(function)
        return end

    # ---- what a name means

    def _absolute(self, module, owner, names):
        """The whole path of names that stand in a module."""
        head, rest = names[0], names[1:]
        uses = self.modules.get(module, {})
        if head == "Self":
            return (*module, owner, *rest)
        if head == "crate":
            return (module[0], *rest)
        if head == "self":
            return (*module, *rest)
        if head == "super":
            return (*module[:-1], *rest)
        if head in uses and uses[head] != names[:1]:
            return (*self._absolute(module, owner, uses[head]), *rest)
        here = (*module, head)
        if here in self.functions or here in self.types or here in self.traits or here in self.modules:
            return (*here, *rest)
        return names

    def _functions(self, module, owner, names):
        path = self._absolute(module, owner, names)
        for _ in range(8):  # each turn goes through one `pub use`
            if path in self.functions:
                return [self.functions[path]]
            for cut in range(1, len(path)):
                if path[cut] in self.modules.get(path[:cut], {}) and path[: cut + 1] not in self.modules:
                    path = (*self._absolute(path[:cut], None, path[cut : cut + 1]), *path[cut + 1 :])
                    break
        return []

    def _by_parameter(self, module, names, bounds):
        """What names that begin with a type parameter call: each method of the name, where a trait of the source has it."""
        traits = [self._absolute(module, None, bound) for bound in bounds]
        if len(names) == 2 and any(names[1] in self.traits.get(trait, ()) for trait in traits):
            return self.methods.get(names[1], [])
        return []

    def calls(self, function, tokens):
        """The calls in tokens of a function's body."""
        module = function.path[:-2] if function.is_method else function.path[:-1]
        owner = function.path[-2] if function.is_method else None
        for at, token in enumerate(tokens[:-1]):
            after = tokens[at + 1].text
            if token.kind != "word" or after not in ("(", "!") or token.text in NO_CALL:
                continue
            start, names = at, (token.text,)
            while start >= 2 and tokens[start - 1].text == "::":
                start -= 2
                names = (tokens[start].text, *names)
            if after == "!":
                callees = []
            elif start >= 1 and tokens[start - 1].text == ".":
                callees = self.methods.get(token.text, [])
            elif names[0] in function.bounds:
                callees = self._by_parameter(module, names, function.bounds[names[0]])
            else:
                callees = self._functions(module, owner, names)
            yield Call("::".join(names), token.line, tuple(callees))


def used_names(tokens):
    """What a `use` line names: the last word of each path, and the path."""
    texts = [token.text for token in tokens]
    if "{" in texts:
        head = [text for text in texts[: texts.index("{")] if text != "::"]
        lists = " ".join(texts[texts.index("{") + 1 : texts.index("}")]).split(",")
        paths = [(*head, *(word for word in part.split() if word != "::")) for part in lists if part.split()]
    else:
        paths = [tuple(text for text in texts if text != "::")]
    return {path[-1]: path[:-2] if "as" in path else path for path in paths}
