"""Walks from functions of Rattle sources through all that they call, and rejects
every branch: an if, a match, a loop, a comparison, && or ||, a function that calls
itself, anything else that is not arithmetic, and a call that cannot be followed.
"""

from rattlesource import matching, next_text
from rejecting import Rejected

FORBIDDEN = {
    "if": "an if",
    "match": "a match",
    "while": "a loop",
    "loop": "a loop",
    "for": "a loop",
    "==": "a comparison",
    "!=": "a comparison",
    "<": "a comparison",
    ">": "a comparison",
    "<=": "a comparison",
    ">=": "a comparison",
    "&&": "an &&",
    "||": "an ||",
}
KEYWORDS = {"else", "return", "break", "continue", "true", "false", "bool", "in", "move", "unsafe", "fn", "impl"}
SIGNS = set("+-*/%^&|=.,;:()[]{}") | {"::", "<<", ">>", ".."} | {sign + "=" for sign in "+-*/%^&|"}


def reject_branches(function, tokens):
    for token in tokens:
        where = f"{function.file}:{token.line}: {function}"
        if token.text in FORBIDDEN:
            raise Rejected(f"{where} has {FORBIDDEN[token.text]}: {token.text}")
        if token.kind == "text" or token.text in KEYWORDS or (token.kind == "sign" and token.text not in SIGNS):
            raise Rejected(f"{where} is not arithmetic: {token.text}")


def loop_body(function):
    """The body of the one loop of a function."""
    loops = [at for at, token in enumerate(function.body) if token.text in ("while", "for", "loop")]
    if len(loops) != 1:
        raise Rejected(f"{function.file}:{function.line}: {function} has {len(loops)} loops and not one")
    start = next_text(function.body, loops[0], "{")
    return function.body[start + 1 : matching(function.body, start)]


class Walk:
    def __init__(self, source):
        self.source = source
        self.looked_at = []

    def named(self, name):
        path = tuple(name.split("::"))
        if path not in self.source.functions:
            raise Rejected(f"{name} is not in the source")
        return self.source.functions[path]

    def look_at(self, function, above=()):
        """Looks at a function and at all that it calls."""
        if function in above:
            raise Rejected(f"{function.file}:{function.line}: {function} calls itself, which is a loop")
        if function not in self.looked_at:
            self.look_at_part(function, function.body, above)

    def look_at_part(self, function, tokens, above=(), known=()):
        """Looks at a part of a function's body and at all that it calls, but for the functions that are known."""
        self.looked_at.append(function)
        reject_branches(function, tokens)
        for call in self.source.calls(function, tokens):
            if not call.callees:
                raise Rejected(f"{function.file}:{call.line}: {function} calls {call.name}, which is not in the source")
            for callee in call.callees:
                if str(callee) not in known:
                    self.look_at(callee, (*above, function))

    def reject_forgotten(self, places, callers):
        """Rejects a function that calls one of the places', was not looked at and is not among the callers; and a caller that is none."""
        found = set()
        for function in self.source.functions.values():
            for call in self.source.calls(function, function.body):
                for callee in call.callees:
                    if callee in self.looked_at and any(callee.path[: len(place)] == place for place in places):
                        found.add(str(function))
                        if function not in self.looked_at and str(function) not in callers:
                            raise Rejected(f"{function.file}:{call.line}: {function} calls {callee} and is not looked at")
        for name in callers:
            if name not in found:
                raise Rejected(f"{name} is among the callers and calls no function of the field")


def looked_at(source, places, roots, loops, callers):
    """All functions that a walk from the roots, and from the bodies of the loops, looks at. A loop's body may have another of the loops in it."""
    walk = Walk(source)
    for name in roots:
        walk.look_at(walk.named(name))
    for name in loops:
        function = walk.named(name)
        walk.look_at_part(function, loop_body(function), known=loops)
    walk.reject_forgotten(places, callers)
    return walk.looked_at
