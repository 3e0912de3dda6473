#!/usr/bin/env python3
"""Prints, for each front of a text and each word behind it, what the grammar says of that word: a row a front.

It goes over all sentences at once and knows nothing of the parser: a state is the set of all stacks of phrases that may
still follow. `.` says that some text goes on so; a digit is the reason of the fault at the word:
1 unexpected, 3 range, 4 alignment, 5 float, 6 no instruction, 7 depth, 8 name.
Here at most two instructions are nested. The rows stand in `crates/wc_rows/data/words.rows`; this script made them.
"""

import re
import sys

LIMIT = 2
SIMPLE = "unreachable nop return drop select memory.size memory.grow".split()
SIMPLE += "i32.wrap_i64 i64.extend_i32_s i32.add i32.extend8_s".split()
INDEXED = "br br_if call local.get local.set local.tee global.get global.set".split()
ACCESS = "i32.load i64.load32_u i32.store i64.store16".split()
NATURAL = re.compile(r"(0x[0-9a-fA-F]+(_[0-9a-fA-F]+)*|[0-9]+(_[0-9]+)*)$")


def natural(text):
    if not NATURAL.match(text):
        return None
    digits = text.replace("_", "")
    return int(digits, 16) if digits.startswith("0x") else int(digits)


def is_u32(text):
    return natural(text) is not None and natural(text) < 2**32


def literal(text):
    """The sign and the number of an integer literal."""
    if text[:1] in "+-" and text[:1]:
        n = natural(text[1:])
        return None if n is None else (text[0], n)
    n = natural(text)
    return None if n is None else ("", n)


def fits(bits, text):
    l = literal(text)
    if l is None:
        return False
    sign, n = l
    return n < 2**bits if sign == "" else n < 2 ** (bits - 1) if sign == "+" else n <= 2 ** (bits - 1)


def is_utf8(string):
    data = b""
    body = string[1:-1]
    i = 0
    while i < len(body):
        if body[i] == "\\":
            data += bytes([int(body[i + 1 : i + 3], 16)])
            i += 3
        else:
            data += body[i].encode()
            i += 1
    try:
        data.decode("utf-8")
        return True
    except UnicodeDecodeError:
        return False


def after(prefix, text):
    return text[len(prefix) :] if text.startswith(prefix) else None


def is_word(t):
    return t not in "()" and t[0] != '"' and not (t[0] == "$" and len(t) > 1)


# ---- what a token of the grammar is

TERMINALS = {
    "id": lambda t: t[0] == "$" and len(t) > 1,
    "u32": lambda t: is_u32(t),
    "lit32": lambda t: fits(32, t),
    "lit64": lambda t: fits(64, t),
    "name": lambda t: t[0] == '"' and is_utf8(t),
    "string": lambda t: t[0] == '"',
    "valtype": lambda t: t in ("i32", "i64"),
    "offset=": lambda t: is_u32(after("offset=", t) or ""),
    "align=": lambda t: (natural(after("align=", t) or "") or 3) in [2**k for k in range(32)],
    "simple": lambda t: t in SIMPLE,
    "indexed": lambda t: t in INDEXED,
    "access": lambda t: t in ACCESS,
    "mark": lambda t: False,
}


def stands(terminal, token):
    if terminal in TERMINALS:
        return TERMINALS[terminal](token)
    return terminal == token


def seq(*parts):
    return ("seq",) + tuple(parts)


def alt(*parts):
    return ("alt",) + tuple(parts)


def many(part):
    return ("many", part)


def opt(part):
    return alt(seq(), part)


INDEX = alt("u32", "id")
PARAM = alt(seq("(", "param", "id", "valtype", ")"), seq("(", "param", many("valtype"), ")"))
RESULT = seq("(", "result", many("valtype"), ")")
LOCAL = alt(seq("(", "local", "id", "valtype", ")"), seq("(", "local", many("valtype"), ")"))
FUNCTYPE = seq("(", "func", many(PARAM), many(RESULT), ")")
TYPEUSE = seq(opt(seq("(", "type", INDEX, ")")), many(PARAM), many(RESULT))
LIMITS = seq("u32", opt("u32"))
TABLETYPE = seq(LIMITS, "funcref")
ELEMS = seq("funcref", "(", "elem", many(INDEX), ")")
GLOBALTYPE = alt("valtype", seq("(", "mut", "valtype", ")"))
EXPORT = seq("(", "export", "name", ")")
IMPORT = seq("(", "import", "name", "name", ")")
KIND = alt("func", "table", "memory", "global")
DESC = alt(
    seq("func", opt("id"), TYPEUSE),
    seq("table", opt("id"), TABLETYPE),
    seq("memory", opt("id"), LIMITS),
    seq("global", opt("id"), GLOBALTYPE),
)
PLAIN = alt(
    "simple",
    seq("indexed", INDEX),
    seq("br_table", INDEX, many(INDEX)),
    seq("call_indirect", TYPEUSE),
    seq("access", opt("offset="), opt("align=")),
    seq("i32.const", "lit32"),
    seq("i64.const", "lit64"),
)
HEAD = seq(opt("id"), TYPEUSE)


def instrs(d):
    return many(("instr", d))


def instr(d):
    blocks = []
    if d > 0:
        inside = instrs(d - 1)
        blocks = [
            seq(alt("block", "loop"), HEAD, inside, "end", opt("id")),
            seq("if", HEAD, inside, opt(seq("else", opt("id"), inside)), "end", opt("id")),
        ]
    return alt(PLAIN, ("folded", d), "mark", *blocks)


def folded(d):
    if d == 0:
        return seq("(", "mark")
    inside = instrs(d - 1)
    operands = many(("folded", d - 1))
    return alt(
        seq("(", "mark"),
        seq("(", PLAIN, operands, ")"),
        seq("(", alt("block", "loop"), HEAD, inside, ")"),
        seq("(", "if", HEAD, operands, "(", "then", inside, ")", opt(seq("(", "else", inside, ")")), ")"),
    )


def field(d):
    offset = alt(seq("(", "offset", instrs(d), ")"), ("folded", d))
    begin = seq(opt("id"), many(EXPORT))
    return alt(
        seq("(", "type", opt("id"), FUNCTYPE, ")"),
        seq("(", "import", "name", "name", "(", DESC, ")", ")"),
        seq("(", "func", begin, alt(seq(IMPORT, TYPEUSE), seq(TYPEUSE, many(LOCAL), instrs(d))), ")"),
        seq("(", "table", begin, alt(seq(IMPORT, TABLETYPE), TABLETYPE, ELEMS), ")"),
        seq("(", "memory", begin, alt(seq(IMPORT, LIMITS), LIMITS, seq("(", "data", many("string"), ")")), ")"),
        seq("(", "global", begin, alt(seq(IMPORT, GLOBALTYPE), seq(GLOBALTYPE, instrs(d))), ")"),
        seq("(", "export", "name", "(", KIND, INDEX, ")", ")"),
        seq("(", "start", INDEX, ")"),
        seq("(", "elem", opt(INDEX), offset, opt("func"), many(INDEX), ")"),
        seq("(", "data", opt(INDEX), offset, many("string"), ")"),
    )


RULES = {"instr": instr, "folded": folded, "field": field}


def text(d):
    return alt(seq("(", "module", opt("id"), many(("field", d)), ")"), many(("field", d)))


def openings(stack, seen=None):
    """All pairs of a terminal that may come next and the stack behind it; None with no terminal at the end."""
    found = set()
    todo = [stack]
    seen = set()
    while todo:
        s = todo.pop()
        if s in seen:
            continue
        seen.add(s)
        if not s:
            found.add((None, ()))
            continue
        top, rest = s[0], s[1:]
        if isinstance(top, str):
            found.add((top, rest))
        elif top[0] == "seq":
            todo.append(top[1:] + rest)
        elif top[0] == "alt":
            todo.extend((part,) + rest for part in top[1:])
        elif top[0] == "many":
            todo.append(rest)
            todo.append((top[1], top) + rest)
        else:
            todo.append((RULES[top[0]](top[1]),) + rest)
    return found


def all_openings(states):
    return set().union(*(openings(s) for s in states)) if states else set()


def advance(states, token):
    return {rest for terminal, rest in all_openings(states) if terminal is not None and stands(terminal, token)}


FLOAT_NAME = re.compile(r"(f32|f64)\.|i(32|64)\.trunc_f(32|64)_[su]$|i32\.reinterpret_f32$|i64\.reinterpret_f64$")
NAMES = SIMPLE + INDEXED + ACCESS + "br_table call_indirect i32.const i64.const block loop if".split()


def reason(states, token):
    """The reason why a token that may not stand is refused; of several the lowest number."""
    may = {terminal for terminal, rest in all_openings(states)}
    fits_some = set()
    if natural(token) is not None and may & {"u32", "lit32", "lit64"}:
        fits_some.add(3)
    if literal(token) is not None and may & {"lit32", "lit64"}:
        fits_some.add(3)
    for part in ("offset=", "align="):
        rest = after(part, token)
        if rest is not None and part in may:
            n = natural(rest)
            if n is None:
                return 1
            if n >= 2**32:
                fits_some.add(3)
            elif part == "align=":
                fits_some.add(4)
    if token in ("f32", "f64") and "valtype" in may:
        fits_some.add(5)
    if "mark" in may and is_word(token):
        if FLOAT_NAME.match(token):
            fits_some.add(5)
        elif token in NAMES:
            fits_some.add(7)
        else:
            fits_some.add(6)
    if token[0] == '"' and not is_utf8(token) and "name" in may:
        fits_some.add(8)
    return min(fits_some) if fits_some else 1


def fault(tokens, limit=LIMIT):
    """The number of the first token that no text allows, with the reason; None for a text."""
    states = {(text(limit),)}
    for i, token in enumerate(tokens):
        following = advance(states, token)
        if not following:
            return (i, reason(states, token))
        states = following
    if (None, ()) in all_openings(states):
        return None
    return (len(tokens), 2)


WORDS = [
    "(", ")", "$a", "0", "4294967296", "18446744073709551616",
    "-1", "-4294967296", "+0x8000_0000", "-99999999999999999999",
    '"a"', '"\\ff"', "offset=0", "offset=4294967296", "offset=x", "align=4", "align=3", "align=4294967296", "align=-1",
    "nop", "br", "br_table", "call_indirect", "i32.load", "i32.const", "i64.const",
    "block", "if", "then", "else", "end",
    "module", "type", "import", "func", "table", "memory", "global", "export", "start", "elem", "data",
    "offset", "local", "param", "result", "mut", "funcref", "i32", "f32", "f64.add", "get_local", "$",
]

FRONTS = """

(
( module
( module $a
( module )
( module ( func )
( func )
( func ) (
( module (
( type
( type $a
( type (
( type ( func
( type ( func ( param
( type ( func ( param $x
( type ( func ( param $x i32
( type ( func ( param i32
( type ( func ( param i32 ) (
( type ( func ( result i32
( type ( func ( result i32 ) (
( type ( func )
( import
( import "a"
( import "a" "b"
( import "a" "b" (
( import "a" "b" ( func
( import "a" "b" ( func $a
( import "a" "b" ( func (
( import "a" "b" ( func ( type 0 )
( import "a" "b" ( table
( import "a" "b" ( table $a
( import "a" "b" ( table 0
( import "a" "b" ( table 0 0
( import "a" "b" ( table 0 0 funcref
( import "a" "b" ( memory
( import "a" "b" ( memory 0
( import "a" "b" ( memory 0 0
( import "a" "b" ( global
( import "a" "b" ( global (
( import "a" "b" ( global ( mut
( import "a" "b" ( global ( mut i32
( import "a" "b" ( global i32
( import "a" "b" ( func )
( func
( func $a
( func (
( func ( export
( func ( export "a"
( func ( export "a" )
( func ( export "a" ) (
( func ( import
( func ( import "a"
( func ( import "a" "b"
( func ( import "a" "b" )
( func ( import "a" "b" ) (
( func ( type
( func ( type 0
( func ( type 0 )
( func ( type 0 ) (
( func ( param
( func ( param $x i32 )
( func ( param ) (
( func ( result ) (
( func ( local
( func ( local $x
( func ( local $x i32
( func ( local i32
( func ( local i32 )
( func ( local i32 ) (
( func nop
( func nop (
( func br
( func br_table
( func br_table 0
( func call_indirect
( func call_indirect (
( func call_indirect ( param i32 ) (
( func call_indirect ( result i32 ) (
( func i32.load
( func i32.load offset=0
( func i32.load align=4
( func i32.const
( func i32.const 0
( func i64.const
( func block
( func block $a
( func block (
( func block ( type 0 )
( func block nop
( func block end
( func block end $a
( func if
( func if nop else
( func if nop else nop
( func if nop else $a
( func block block
( func block block (
( func block block nop
( func ( nop
( func ( nop (
( func ( nop ( nop
( func ( nop ( nop (
( func ( nop )
( func ( br
( func ( br_table 0
( func ( call_indirect
( func ( call_indirect (
( func ( i32.load
( func ( i32.load offset=0
( func ( block
( func ( block (
( func ( block $a ( result i32 ) (
( func ( block nop
( func ( block ( block
( func ( if
( func ( if (
( func ( if ( result i32 ) (
( func ( if ( nop )
( func ( if ( nop ) (
( func ( if ( then
( func ( if ( then (
( func ( if ( then )
( func ( if ( then ) (
( func ( if ( then ) ( else
( func ( if ( then ) ( else )
( func ( if ( then ) )
( table
( table $a
( table (
( table ( export "a" )
( table ( export "a" ) (
( table ( import "a" "b" )
( table 0
( table 0 0
( table 0 funcref
( table funcref
( table funcref (
( table funcref ( elem
( table funcref ( elem 0
( table funcref ( elem )
( memory
( memory (
( memory ( import "a" "b" )
( memory 0
( memory 0 0
( memory ( data
( memory ( data "a"
( memory ( data )
( global
( global $a
( global (
( global ( mut
( global ( mut i32 )
( global ( import "a" "b" )
( global ( import "a" "b" ) (
( global ( import "a" "b" ) i32
( global i32
( global i32 (
( export
( export "a"
( export "a" (
( export "a" ( func
( export "a" ( func 0
( export "a" ( func 0 )
( start
( start 0
( elem
( elem (
( elem 0
( elem 0 (
( elem ( nop
( elem ( nop )
( elem ( offset
( elem ( offset nop
( elem ( offset (
( elem ( offset )
( elem ( offset ) func
( elem ( offset ) 0
( data
( data (
( data 0
( data ( offset
( data ( offset block block
( data ( nop )
( data ( offset )
( data ( offset ) "a"
""".split("\n")[1:-1]


def main():
    if sys.argv[1:] == ["words"]:
        print("\n".join(WORDS))
        return
    for front in FRONTS:
        tokens = front.split()
        states = {(text(LIMIT),)}
        for token in tokens:
            states = advance(states, token)
            assert states, front
        row = "".join("." if advance(states, w) else str(reason(states, w)) for w in WORDS)
        print(f"{front} => words {row}")


if __name__ == "__main__":
    main()
