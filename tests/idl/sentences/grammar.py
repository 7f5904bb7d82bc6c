"""The grammar of IDL (ISO/IEC 19500-1, without what isn't served) as data: sentences of it made at random, and whether
tokens are one, by trying all ways. A token is its text and whether the next one touches it.
"""
import random
import re

# a word in quotes is a token, a name a rule; `*`, `+` and `?` stand behind what is repeated or left out
RULES = """
spec: item*
item: PRAGMA | definition ';'
definition: type_dcl | const | except | interface | module
module: 'module' ID '{' item* '}'
interface: 'interface' ID | 'interface' ID bases? '{' exported* '}'
bases: ':' name more_name*
more_name: ',' name
exported: PRAGMA | export ';'
export: type_dcl | const | except | attr | op
type_dcl: 'typedef' type declarator more_declarator* | struct | union | enum | 'struct' ID | 'union' ID
type: simple | struct | union | enum
simple: ptype | 'sequence' '<' simple limit? '>'
limit: ',' bound
ptype: integer | 'char' | 'boolean' | 'octet' | 'Object' | string | name
string: 'string' | 'string' '<' bound '>'
integer: 'unsigned' whole | whole
whole: 'short' | 'long' | 'long' 'long'
declarator: ID size*
size: '[' expr ']'
more_declarator: ',' declarator
member: type declarator more_declarator* ';'
struct: 'struct' ID '{' member+ '}'
union: 'union' ID 'switch' '(' switched ')' '{' case+ '}'
switched: integer | 'char' | 'boolean' | enum | name
case: label+ type declarator ';'
label: 'case' expr ':' | 'default' ':'
enum: 'enum' ID '{' ID more_id* '}'
more_id: ',' ID
except: 'exception' ID '{' member* '}'
const: 'const' ctype ID '=' expr
ctype: integer | 'char' | 'boolean' | 'octet' | string | name
attr: 'readonly' 'attribute' ptype ID raises | 'readonly' 'attribute' ptype ID more_id* | attribute
attribute: 'attribute' ptype ID getraises? setraises? | 'attribute' ptype ID more_id*
getraises: 'getraises' list
setraises: 'setraises' list
op: 'oneway' signature | signature
signature: result ID '(' params? ')' raises?
result: 'void' | ptype
params: param more_param*
more_param: ',' param
param: direction ptype ID
direction: 'in' | 'out' | 'inout'
raises: 'raises' list
list: '(' name more_name* ')'
name: '::' ID more_scoped* | ID more_scoped*
more_scoped: '::' ID
expr: xor more_or*
more_or: '|' xor
xor: and more_xor*
more_xor: '^' and
and: shift more_and*
more_and: '&' shift
shift: sum more_shift*
more_shift: '<<' sum | RIGHT '>' sum
sum: prod more_sum*
more_sum: '+' prod | '-' prod
prod: unary more_prod*
more_prod: '*' unary | '/' unary | '%' unary
unary: '+' primary | '-' primary | primary
primary: name | NUMBER | CHAR | TEXT+ | 'TRUE' | 'FALSE' | '(' expr ')'
"""

# within `< >` a right shift stands in parentheses
WITHIN = """
bound: bound_xor more_bound_or*
more_bound_or: '|' bound_xor
bound_xor: bound_and more_bound_xor*
more_bound_xor: '^' bound_and
bound_and: bound_shift more_bound_and*
more_bound_and: '&' bound_shift
bound_shift: sum more_bound_shift*
more_bound_shift: '<<' sum
"""

LEFT_OUT = """abstract any component consumes context custom double emits eventtype factory finder fixed float home import
local multiple native primarykey private provides public publishes supports truncatable typeid typeprefix uses ValueBase
valuetype wchar wstring""".split()

WORDS = {"ID": ["a", "b1", "_long", "Name_2"], "NUMBER": ["0", "17", "0x1F"], "CHAR": ["'x'", r"'\n'"]}
WORDS |= {"TEXT": ['"t"', r'"\x41"'], "PRAGMA": ['#pragma prefix "p"', '#pragma ID a "i"']}


def read(text):
    rules = {}
    for line in text.strip().splitlines():
        name, _, body = line.partition(": ")
        rules[name] = [[part for part in way.split(" ") if part] for way in re.split(r" \| ", body)]
    return rules


GRAMMAR = read(RULES) | read(WITHIN)
KEYWORDS = sorted({p.strip("'") for ways in GRAMMAR.values() for way in ways for p in way if p[:1] == "'" and p[1].isalpha()})
MARKS = sorted({p.strip("'") for ways in GRAMMAR.values() for way in ways for p in way if p[:1] == "'" and not p[1].isalpha()})


def kind_of(text):
    """The kind of a token of this text that isn't a keyword or a mark."""
    if text.startswith("#"):
        return "PRAGMA"
    if text[0] in "'\"":
        return "CHAR" if text[0] == "'" else "TEXT"
    return "NUMBER" if text[0].isdigit() else "ID"


# ---- sentences ----


def made(rng, symbol, depth, out):
    """Puts a sentence of a rule behind the tokens."""
    if symbol[0] == "'":
        out.append((symbol[1:-1], False))
    elif symbol == "RIGHT":
        out.append((">", True))
    elif symbol in WORDS:
        out.append((rng.choice(WORDS[symbol]), False))
    elif symbol[-1] in "*+?":
        most = 1 if symbol[-1] == "?" else 2
        for _ in range(rng.randint(1 if symbol[-1] == "+" else 0, most if depth < 14 else 1 if symbol[-1] == "+" else 0)):
            made(rng, symbol[:-1], depth + 1, out)
    else:
        ways = GRAMMAR[symbol]
        # deep inside the shortest way is taken, so that it ends
        way = rng.choice(ways) if depth < 14 else min(ways, key=cost)
        for part in way:
            made(rng, part, depth + 1, out)


COSTS = {}


def cost(way):
    return sum(cost_of(part) for part in way if part[-1] not in "*?")


def cost_of(symbol):
    """How few tokens a rule has."""
    name = symbol.rstrip("*+?") if symbol[0] != "'" else symbol
    if name not in GRAMMAR:
        return 1
    if name not in COSTS:
        COSTS[name] = 1000
        COSTS[name] = min(cost(way) for way in GRAMMAR[name])
    return COSTS[name]


def sentence(seed):
    rng, out = random.Random(seed), []
    for _ in range(rng.randint(0, 3)):
        made(rng, "item", 0, out)
    return out


def changed(seed, tokens):
    """The tokens with one left out, doubled, exchanged, put in, or all behind one left out."""
    rng, tokens = random.Random(seed), list(tokens)
    at = rng.randrange(len(tokens)) if tokens else 0
    other = rng.choice(KEYWORDS + MARKS + LEFT_OUT[:4] + ["a", "17", "'x'", '"t"']), False
    how = rng.randrange(5) if tokens else 3
    if how == 0:
        del tokens[at]
    elif how == 1:
        tokens.insert(at, tokens[at])
    elif how == 2:
        tokens[at] = other
    elif how == 3:
        tokens.insert(at, other)
    else:
        del tokens[at:]
    return tokens


def text_of(tokens):
    """A source of these tokens: a directive has a line of its own."""
    parts = []
    for text, touches in tokens:
        parts.append(f"\n{text}\n" if text.startswith("#") else text if touches else f"{text} ")
    return "".join(parts)


# ---- whether tokens are a sentence ----


class Reading:
    """All places where a rule can end that begins at a place."""

    def __init__(self, tokens):
        self.tokens = tokens
        self.known = {}

    def ends(self, symbol, at):
        key = symbol, at
        if key not in self.known:
            self.known[key] = self.found(symbol, at)
        return self.known[key]

    def found(self, symbol, at):
        if symbol[0] != "'" and symbol[-1] in "*+?":
            return self.repeated(symbol[:-1], symbol[-1], at)
        if symbol in GRAMMAR:
            return {end for way in GRAMMAR[symbol] for end in self.way(way, at)}
        return {at + 1} if at < len(self.tokens) and self.fits(symbol, at) else set()

    def fits(self, symbol, at):
        text, touches = self.tokens[at]
        if symbol[0] == "'":
            return text == symbol[1:-1]
        if symbol == "RIGHT":
            return text == ">" and touches
        return text not in KEYWORDS and text not in MARKS and text not in LEFT_OUT and kind_of(text) == symbol

    def way(self, way, at):
        ends = {at}
        for part in way:
            ends = {end for start in ends for end in self.ends(part, start)}
        return ends

    def repeated(self, symbol, how, at):
        ends, new = {at}, {at}
        while new:
            new = {end for start in new for end in self.ends(symbol, start)} - ends
            if how == "?":
                return ends | new
            ends |= new
        if how == "+":
            return {end for start in self.ends(symbol, at) for end in self.repeated(symbol, "*", start)}
        return ends


def is_sentence(tokens):
    return len(tokens) in Reading(tokens).ends("spec", 0)
