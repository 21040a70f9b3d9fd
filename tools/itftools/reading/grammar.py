"""The grammar of models as docs/model-language.md has it, and what it lets stand behind the front of a text.

The grammar can be read with one token ahead: at each place the next token alone says which part begins.
So the tokens that could stand behind a front are those that are asked for when the front ends.
"""
from itftools.reading.model import TOKEN

KEYWORDS = frozenset("""TRANSFER DOMAIN MODEL TOPIC TABLE OPTIONAL END NO IDENT COORD2 COORD3 DIM1 DIM2 RADIANS GRADS
DEGREES TEXT DATE HALIGNMENT VALIGNMENT POLYLINE SURFACE AREA WITH STRAIGHTS ARCS VERTEX BASE WITHOUT OVERLAPS LINEATTR
FORMAT FREE FIX CODE FONT BLANK UNDEFINED CONTINUE DEFAULT TID I16 I32 ANY VIEW DERIVATIVES""".split())
# `[ x ]` is x or nothing, `{ x }` any number of x, `( x | y )` one of them; a mark behind ' is itself.
# name, n, hex and explanation are tokens; `own_name` opens a part, `its_name` ends it.
RULES = {
    "transfer": "TRANSFER name ; [ domains ] model format code",
    "domains": "DOMAIN { name = type [ explanation ] ; }",
    "model": "MODEL own_name [ domains ] { topic } END its_name .",
    "topic": "[ OPTIONAL ] TOPIC own_name = { ( domains | table ) } END its_name .",
    "table": "[ OPTIONAL ] TABLE own_name = { attribute } idents END its_name ;",
    "attribute": "name : [ OPTIONAL ] ( type | -> name ) [ explanation ] ;",
    "idents": "( NO IDENT | IDENT list ; { list ; } )",
    "list": "name { , name }",
    "type": "( name | COORD2 n n n n | COORD3 n n n n n n | DIM1 n n | DIM2 n n | RADIANS n n | GRADS n n"
            " | DEGREES n n | '[ n .. n '] | TEXT * n | DATE | HALIGNMENT | VALIGNMENT | enumeration"
            " | POLYLINE line | SURFACE line [ own ] | AREA line [ own ] )",
    "own": "LINEATTR = { attribute } [ idents ] END",
    "enumeration": "'( name [ enumeration ] { , name [ enumeration ] } ')",
    "line": "WITH '( form { , form } ') VERTEX name [ BASE explanation ] [ WITHOUT OVERLAPS > n ]",
    "form": "( STRAIGHTS | ARCS )",
    "format": "FORMAT FREE ;",
    "code": "CODE [ FONT = explanation ; ] BLANK = value , UNDEFINED = value , CONTINUE = value ;"
            " TID = ( I16 | I32 | ANY | explanation ) ; END .",
    "value": "( DEFAULT | n | hex )",
}
CLOSING = {"[": "]", "{": "}", "(": ")"}


class Sequence:
    def __init__(self, parts):
        self.parts = parts


class Choice:
    def __init__(self, parts):
        self.parts = parts


class Optional:
    """A part that may be left out; `repeats` where it may come again."""

    def __init__(self, part, repeats):
        self.part, self.repeats = part, repeats


def parsed(words, until=None):
    """The parts of a rule up to a closing word, which is taken off; strings are tokens or names of rules."""
    choices, parts = [], []
    while words:
        word = words.pop(0)
        if word == until:
            break
        if word == "|":
            choices.append(Sequence(parts))
            parts = []
        elif word in CLOSING:
            inner = parsed(words, CLOSING[word])
            parts.append(inner if word == "(" else Optional(inner, word == "{"))
        else:
            parts.append(word[1:] if word.startswith("'") else word)
    return Choice(choices + [Sequence(parts)]) if choices else Sequence(parts)


GRAMMAR = {name: parsed(text.split(" ")) for name, text in RULES.items()}


def first(part):
    """The tokens with which a part may begin, and None among them where it may be empty."""
    if isinstance(part, str):
        return first(GRAMMAR[part]) if part in GRAMMAR else {part}
    if isinstance(part, Choice):
        return set().union(*map(first, part.parts))
    if isinstance(part, Optional):
        return first(part.part) | {None}
    found = {None}
    for one in part.parts:
        found |= first(one)
        if None not in first(one):
            return found - {None}
    return found


class FrontEnds(Exception):
    """A token is asked for, and there is none that fits."""


class Front:
    """The front of a model: `expected` are the tokens that could stand behind it, `opened` the names of the
    parts that are open there."""

    def __init__(self, text):
        self.tokens, self.place = list(tokens_of(text)), 0
        self.expected, self.opened = set(), []
        try:
            self.walk("transfer")
        except FrontEnds:
            pass

    def is_whole(self):
        """Whether all tokens of the front were taken."""
        return self.place == len(self.tokens)

    def kind(self):
        return self.tokens[self.place][0] if self.place < len(self.tokens) else None

    def begins(self, part):
        """Whether a part begins here; what it may begin with is expected."""
        self.expected |= first(part) - {None}
        return self.kind() in {"name" if token in ("own_name", "its_name") else token for token in first(part)}

    def walk(self, part):
        if isinstance(part, str):
            self.rule(part)
        elif isinstance(part, Choice):
            found = [one for one in part.parts if self.begins(one)]
            if not found:
                raise FrontEnds
            self.walk(found[0])
        elif isinstance(part, Optional):
            while self.begins(part.part):
                self.walk(part.part)
                if not part.repeats:
                    break
        else:
            for one in part.parts:
                self.walk(one)

    def rule(self, name):
        if name in GRAMMAR:
            self.walk(GRAMMAR[name])
            return
        if not self.begins(name):
            raise FrontEnds
        if name == "own_name":
            self.opened.append(self.tokens[self.place][1])
        elif name == "its_name":
            self.opened.pop()
        self.place += 1
        self.expected = set()


def tokens_of(text):
    """The tokens of a text: what the grammar calls them, and their words. It ends where none begins."""
    place = 0
    while place < len(text):
        token = TOKEN.match(text, place)
        if token is None:
            return
        kind, word = token.lastgroup, token.group()
        if kind == "word":
            yield word if word in KEYWORDS else "name", word
        elif kind == "number":
            yield "n", word
        elif kind != "blank":
            yield word if kind == "mark" else kind, word
        place = token.end()
