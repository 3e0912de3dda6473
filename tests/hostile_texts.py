"""Hostile texts, up to 10 MB each: for the script `hostile` beside this file.

A shape is what it is, the status that `binary` answers, and its bytes.
"""

from itertools import count, islice, product

FUNC = b"(func)"


def func(body):
    return b"(func " + body + b")"


def named(number, length=6):
    return b"$%0*d" % (length, number)


def prefixed(number):
    """Identifiers that differ in their last characters alone."""
    return b"$" + b"n" * 60 + b"%05d" % number


def signatures():
    """Distinct lists of parameters and results, the shortest first."""
    for words in count():
        for types in product([b"i32", b"i64"], repeat=words):
            for cut in range(words + 1):
                yield b"(param %s)(result %s)" % (b" ".join(types[:cut]), b" ".join(types[cut:]))


def inline_types(number):
    return b"".join(b"(func %s)" % it for it in islice(signatures(), number))


def functions_named(names):
    return b"".join(b"(func %s)" % it for it in names)


def calls(names):
    """Each function calls another one."""
    return b"".join(b"(func %s call %s)" % it for it in zip(names, reversed(names)))


def exports(numbers):
    return FUNC + b"".join(b'(export "%06d"(func 0))' % it for it in numbers)


def segment(functions):
    return b"(elem (i32.const 0)" + functions + b")"


def named_locals(number):
    names = [named(it) for it in range(number)]
    declared = b"".join(b"(local %s i64)" % it for it in names)
    return func(declared + b"".join(b"local.get %s drop " % it for it in names))


def nest(depth, inside=b""):
    return b"block " * depth + inside + b" end" * depth


def named_nest(inside):
    """Blocks in one another, as deep as may be, whose labels all differ."""
    return b"".join(b"block %s " % named(it, 5) for it in range(DEEPEST)) + inside + b" end" * DEEPEST


def table(label, labels):
    return b"br_table" + (b" " + label) * labels + b" "


DEEPEST = 20_000
SEGMENT = b"(data (i32.const 0))"
TABLE = b"(table 1 funcref)"

SHAPES = [
    ("1,600,000 functions", 0, lambda: FUNC * 1_600_000),
    ("1,000,000 functions", 0, lambda: FUNC * 1_000_000),
    ("1,000,000 functions, and one parenthesis", 1, lambda: FUNC * 1_000_000 + b"("),
    ("1,000,000 functions, and an unknown name", 1, lambda: FUNC * 1_000_000 + b"(start $f)"),
    ("700,000 types", 0, lambda: b"(type (func))" * 700_000),
    ("200,000 distinct inline types", 0, lambda: inline_types(200_000)),
    ("130,000 distinct inline types", 0, lambda: inline_types(130_000)),
    ("400,000 imports", 0, lambda: b'(import "" "" (func))' * 400_000),
    ("350,000 globals", 0, lambda: b"(global i32(i32.const 0))" * 350_000),
    ("350,000 exports", 0, lambda: exports(range(350_000))),
    ("one export twice, at the end", 1, lambda: exports([*range(350_000), 0])),
    ("450,000 data segments", 0, lambda: b"(memory 1)" + SEGMENT * 450_000),
    ("450,000 element segments", 0, lambda: TABLE + b"(elem (i32.const 0))" * 450_000),
    ("an element segment of 4,000,000 functions", 0, lambda: TABLE + FUNC + segment(b" 0" * 4_000_000)),
    ("identifiers of one beginning", 0, lambda: functions_named([prefixed(it) for it in range(100_000)])),
    ("calls of identifiers of one beginning", 0, lambda: calls([prefixed(it) for it in range(50_000)])),
    ("one identifier of 4,500,000 characters", 0, lambda: b"(func $%s call $%s)" % (2 * (b"n" * 4_500_000,))),
    ("one identifier twice, at the end", 1, lambda: functions_named([named(it) for it in range(600_000)] + [named(0)])),
    ("2,250,000 locals", 0, lambda: func(b"(local" + b" i32" * 50_000 + b")") * 45),
    ("50,001 locals", 1, lambda: func(b"(local" + b" i32" * 50_001 + b")")),
    ("50,000 locals with names, used", 0, lambda: named_locals(50_000) * 3),
    ("1,300,000 empty parameter lists", 0, lambda: func(b"(param)" * 1_300_000)),
    ("500,000 labels of one name, side by side", 0, lambda: func(b"block $l br $l end " * 500_000)),
    ("labels of one name, nested", 0, lambda: func(b"block $l br $l " * DEEPEST + b"end " * DEEPEST) * 25),
    ("tables of 10,000 labels, 20,000 deep, by name", 0, lambda: func(named_nest(table(b"$00000", 10_000) * 130))),
    ("tables of 10,000 labels, 20,000 deep, by number", 0, lambda: func(nest(DEEPEST, table(b"19999", 10_000) * 160))),
    ("nested 20,000 deep", 0, lambda: func(nest(DEEPEST)) * 45),
    ("nested 20,001 deep", 1, lambda: func(nest(DEEPEST + 1))),
    ("folded blocks 20,000 deep", 0, lambda: func(b"(block" * DEEPEST + b")" * DEEPEST) * 70),
    ("folded operands 20,000 deep", 0, lambda: func(b"(i32.eqz" * DEEPEST + b")" * DEEPEST) * 55),
    ("folded operands 20,001 deep", 1, lambda: func(b"(i32.eqz" * (DEEPEST + 1) + b")" * (DEEPEST + 1))),
    ("2,500,000 instructions", 0, lambda: func(b"nop " * 2_500_000)),
    ("2,000,000 folded instructions", 0, lambda: func(b"(nop)" * 2_000_000)),
    ("calls by inline types", 0, lambda: TABLE + func(b"call_indirect(param i64)" * 400_000)),
    ("strings of escapes", 0, lambda: b'(memory(data"' + b"\\00" * 3_300_000 + b'"))'),
    ("strings of long escapes", 0, lambda: b'(memory(data"' + b"\\u{00010ffff}" * 700_000 + b'"))'),
    ("4,000,000 empty strings", 0, lambda: b"(memory(data" + b'""' * 4_000_000 + b"))"),
    ("a string that isn't closed", 1, lambda: b'(memory(data"' + b"d" * 10_000_000),
    ("comments 1,000,000 deep", 0, lambda: b"(;" * 1_000_000 + b";)" * 1_000_000),
    ("comments 5,000,000 deep that aren't closed", 1, lambda: b"(;" * 5_000_000),
    ("line comments", 0, lambda: b";;\n" * 3_300_000),
    ("blanks, and bytes that are no characters", 1, lambda: b" " * 10_000_000 + b"\xff"),
    ("(module 1,000,000 times", 1, lambda: b"(module" * 1_000_000),
    ("opening parentheses", 1, lambda: b"(" * 10_000_000),
    ("closing parentheses", 1, lambda: b")" * 10_000_000),
    ("a word of 10,000,000 characters", 1, lambda: b"a" * 10_000_000),
    ("words of one character", 1, lambda: b"a " * 5_000_000),
    ("a number of 10,000,000 digits", 0, lambda: func(b"i32.const " + b"0" * 10_000_000)),
    ("a number of 10,000,000 digits out of range", 1, lambda: func(b"i32.const " + b"9" * 10_000_000)),
]


def repeated(field, front):
    """As many of the field as 9,500,000 bytes hold, each with its own number where it has room for one."""
    times = 9_500_000 // len(field)
    if b"%06d" in field:
        return front + b"".join(field % it for it in range(times))
    return front + field * times


# What stands in front of all, and the field.
SMALL = [
    (b"", b"(func nop)"),
    (b"", b"(func i64.const 1)"),
    (b"", b"(func(param i32))"),
    (b"", b"(func(param $p i32))"),
    (b"", b"(func(local i32))"),
    (b"", b"(func(local $p i32)(local $q i64))"),
    (b"", b"(func(param $p i32)(local $q i32))"),
    (b"(type(func(param i32)))", b"(func(type 0)(param $p i32))"),
    (b"(type $t(func))", b"(func(type $t))"),
    (b"", b"(func $%06d)"),
    (b"", b"(func $%06d(local i32))"),
    (b"", b'(func(export"%06d"))'),
    (b"", b'(func(export"\\61%06d"))'),
    (b"", b'(func(import""""))'),
    (b"", b"(func call 0)"),
    (FUNC, b"(func br_table 0)"),
    (b"(func $f)", b"(func call $f)"),
    (b"(func $f)", b"(func call $f br_table 0)"),
    (b"(func $f)", b"(func block $l call $f end)"),
    (b"", b"(func block end)"),
    (b"", b"(func block $l end)"),
    (b"", b"(func block block end end)"),
    (b"", b"(func block(result i32)end)"),
    (b"", b"(func block(param i32)end)"),
    (b"", b"(func(local i32)block end)"),
    (b"", b"(func if else end)"),
    (TABLE, b"(func call_indirect)"),
    (TABLE, b"(func(call_indirect))"),
    (TABLE + b"(type(func))", b"(func call_indirect(type 0))"),
    (b"", b'(import""""(func))'),
    (b"", b'(import""""(func $%06d))'),
    (b"", b'(import""""(func(param $p i32)))'),
    (b"", b'(import"\\61""\\61"(func))'),
    (b"", b'(import""""(global i32))'),
    (b"", b"(type(func(param $p i32)))"),
    (b"", b"(type $%06d(func))"),
    (FUNC, b'(export"%06d"(func 0))'),
    (b"(func $f)", b'(export"%06d"(func $f))'),
    (b"", b"(global i32 i32.const 0)"),
    (b"", b"(global $%06d i32 i32.const 0)"),
    (b"", b'(global(import"""")i32)'),
    (b'(global $g(import"""")i32)', b"(global i32 global.get $g)"),
]

# The same of fields of which a module has one, or one of this name.
REFUSED = [
    (b"", b"(memory 0)"),
    (b"", b'(memory(data"a"))'),
    (b"", b'(memory(import"" "")0)'),
    (b"", b"(table 0 funcref)"),
    (b"", b'(table(import"""")0 funcref)'),
    (FUNC, b"(table funcref(elem 0))"),
    (FUNC, b"(start 0)"),
    (b"", b'(func(export ""))'),
]

SHAPES += [
    ("fields " + field.decode(), status, lambda front=front, field=field: repeated(field, front))
    for status, fields in ((0, SMALL), (1, REFUSED))
    for front, field in fields
]
SHAPES += [
    ("3,000,000 elements by name", 0, lambda: TABLE + b"(func $f)" + segment(b" $f" * 3_000_000)),
    ("900,000 named blocks", 0, lambda: func(b"(block $l)" * 900_000)),
    ("800,000 inline exports of one name", 1, lambda: b"(func" + b'(export "")' * 800_000 + b")"),
    ("500,000 named parameters", 0,
     lambda: b"(func" + b"".join(b"(param $%06d i32)" % it for it in range(500_000)) + b")"),
]
