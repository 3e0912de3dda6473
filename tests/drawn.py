"""Draws modules, and spells them in bytes in odd ways: for the scripts beside this file.

A module is a dictionary of lists, as the Core Specification has it (1.0, chapter 2). An instruction is a tuple: its
opcode, and then its immediates; a block has its type and its instructions, an `if` two lists of them. Modules keep the
rules on modules, but they aren't typed.
"""

I32, I64 = 0x7F, 0x7E
TYPES = [I32, I64]
SIMPLE = [0x00, 0x01, 0x0F, 0x1A, 0x1B, *range(0x45, 0x5B), *range(0x67, 0x8B), 0xA7, 0xAC, 0xAD, *range(0xC0, 0xC5)]
NATURAL = {
    0x28: 2,
    0x29: 3,
    0x2C: 0,
    0x2D: 0,
    0x2E: 1,
    0x2F: 1,
    0x30: 0,
    0x31: 0,
    0x32: 1,
    0x33: 1,
    0x34: 2,
    0x35: 2,
    0x36: 2,
    0x37: 3,
    0x3A: 0,
    0x3B: 1,
    0x3C: 0,
    0x3D: 1,
    0x3E: 2,
}
ZERO_BYTE = [0x3F, 0x40]
BR, BR_IF, BR_TABLE, CALL, CALL_INDIRECT = 0x0C, 0x0D, 0x0E, 0x10, 0x11
LOCAL, GLOBAL_GET, GLOBAL_SET, I32_CONST, I64_CONST = [0x20, 0x21, 0x22], 0x23, 0x24, 0x41, 0x42
BLOCK, LOOP, IF, ELSE, END = 0x02, 0x03, 0x04, 0x05, 0x0B
PREAMBLE = b"\0asm\1\0\0\0"
NAMES = ["", "a", "b", "memory", "π", "a\0b", '"', "\\", "n" * 130, "🦀", "\x7f", "é" * 70]


class Draw:
    """A drawn module. `random` is a generator of the library `random`."""

    def __init__(self, random):
        self.random = random
        self.module = self.drawn()

    def some(self, draw, most):
        return [draw() for _ in range(self.random.choice([0, 0, 1, 1, 2, self.random.randint(0, most)]))]

    def number(self, most):
        return self.random.choice([0, 1, most, self.random.randint(0, most), min(most, self.random.randint(0, 300))])

    def type(self):
        return self.random.choice(TYPES)

    def func_type(self):
        return self.some(self.type, 5), self.some(self.type, 3)

    def limits(self, most):
        least = self.number(most)
        return least, self.random.choice([None, least, self.random.randint(least, most)])

    def global_type(self):
        return self.type(), self.random.random() < 0.5

    def description(self):
        kind = self.random.choice([0, 3, 3]) if self.types else 3
        return (0, self.random.randrange(len(self.types))) if kind == 0 else (3, self.global_type())

    def drawn(self):
        self.types = self.some(self.func_type, 6)
        imports = [(self.name(), self.name(), it) for it in self.some(self.description, 5)]
        for kind, most in [(1, 2**32 - 1), (2, 65536)]:
            if self.random.random() < 0.2:
                imports.insert(
                    self.random.randint(0, len(imports)), (self.name(), self.name(), (kind, self.limits(most)))
                )
        taken = [it[2] for it in imports]
        tables = (
            []
            if 1 in [it[0] for it in taken]
            else [self.limits(2**32 - 1) for _ in range(self.random.randint(0, 1))]
        )
        mems = [] if 2 in [it[0] for it in taken] else [self.limits(65536) for _ in range(self.random.randint(0, 1))]
        self.imported_globals = [it[1] for it in taken if it[0] == 3]
        self.globals = list(self.imported_globals)
        globals_ = [(it, self.constant(it[0], self.imported_globals)) for it in self.some(self.global_type, 5)]
        self.globals += [it[0] for it in globals_]
        uses = self.some(lambda: self.random.randrange(len(self.types)), 6) if self.types else []
        self.func_types = [it[1] for it in taken if it[0] == 0] + uses
        self.counts = [
            len(self.func_types),
            len(tables) + sum(it[0] == 1 for it in taken),
            len(mems) + sum(it[0] == 2 for it in taken),
            len(self.globals),
        ]
        return {
            "types": self.types,
            "imports": imports,
            "funcs": [self.func(it) for it in uses],
            "tables": tables,
            "mems": mems,
            "globals": globals_,
            "exports": self.exports(),
            "start": self.start(),
            "elems": self.some(self.elem, 3) if self.counts[1] else [],
            "datas": self.some(self.data, 3) if self.counts[2] else [],
        }

    def name(self):
        return self.random.choice(NAMES)

    def constant(self, type_, globals_):
        known = [n for n, it in enumerate(globals_) if it == (type_, False)]
        if known and self.random.random() < 0.4:
            return [(GLOBAL_GET, self.random.choice(known))]
        return [self.const(type_)]

    def const(self, type_):
        bits = 32 if type_ == I32 else 64
        edges = [0, 1, -1, 63, 64, -64, -65, 127, 128, 2 ** (bits - 1) - 1, -(2 ** (bits - 1))]
        return (
            I32_CONST if bits == 32 else I64_CONST,
            self.random.choice([*edges, self.random.randint(-(2 ** (bits - 1)), 2 ** (bits - 1) - 1)]),
        )

    def func(self, index):
        groups = [
            (self.random.choice([1, 1, 2, 3, 200]), self.type()) for _ in range(self.random.choice([0, 0, 1, 2, 4]))
        ]
        locals_ = [it for count, it in groups for _ in range(count)]
        return index, locals_, self.code(len(self.types[index][0]) + len(locals_), 0)

    def code(self, locals_, depth):
        return [
            self.instruction(locals_, depth) for _ in range(self.random.choice([0, 1, 2, self.random.randint(0, 12)]))
        ]

    def instruction(self, locals_, depth):
        if depth < 5 and self.random.random() < 0.2:
            return self.block(locals_, depth)
        forms = [
            self.simple,
            lambda: self.const(self.type()),
            lambda: (self.random.choice([BR, BR_IF]), self.random.randint(0, depth)),
            lambda: (
                BR_TABLE,
                [self.random.randint(0, depth) for _ in range(self.random.randint(0, 4))],
                self.random.randint(0, depth),
            ),
        ]
        if locals_:
            forms.append(lambda: (self.random.choice(LOCAL), self.random.randrange(locals_)))
        if self.func_types:
            forms.append(lambda: (CALL, self.random.randrange(len(self.func_types))))
        if self.globals:
            forms.append(lambda: (GLOBAL_GET, self.random.randrange(len(self.globals))))
        settable = [n for n, it in enumerate(self.globals) if it[1]]
        if settable:
            forms.append(lambda: (GLOBAL_SET, self.random.choice(settable)))
        if self.counts[1] and self.types:
            forms.append(lambda: (CALL_INDIRECT, self.random.randrange(len(self.types))))
        if self.counts[2]:
            forms += [self.access, lambda: (self.random.choice(ZERO_BYTE),)]
        return self.random.choice(forms)()

    def simple(self):
        return (self.random.choice(SIMPLE),)

    def access(self):
        opcode = self.random.choice(list(NATURAL))
        return opcode, self.random.randint(0, NATURAL[opcode]), self.number(2**32 - 1)

    def block(self, locals_, depth):
        types = [None, I32, I64, *(self.random.randrange(len(self.types)) for _ in self.types[:1])]
        opcode, block_type = self.random.choice([BLOCK, LOOP, IF]), self.random.choice(types)
        bodies = [self.code(locals_, depth + 1) for _ in range(2 if opcode == IF else 1)]
        return (opcode, block_type, *bodies)

    def exports(self):
        kinds = [it for it in range(4) if self.counts[it]]
        names = self.random.sample(NAMES, self.random.choice([0, 1, 3])) if kinds else []
        drawn = [(it, self.random.choice(kinds)) for it in names]
        return [(name, kind, self.random.randrange(self.counts[kind])) for name, kind in drawn]

    def start(self):
        fitting = [n for n, it in enumerate(self.func_types) if self.types[it] == ([], [])]
        return self.random.choice(fitting) if fitting and self.random.random() < 0.5 else None

    def elem(self):
        funcs = self.some(lambda: self.random.randrange(self.counts[0]), 4) if self.counts[0] else []
        return 0, self.constant(I32, self.globals), funcs

    def data(self):
        return (
            0,
            self.constant(I32, self.globals),
            bytes(self.random.randrange(256) for _ in range(self.random.choice([0, 1, 5, 300]))),
        )


class Sized:
    """Content behind its size. The size is written when the bytes are made, so it is right after an edit too."""

    def __init__(self, content):
        self.content = content


class Spelling:
    """Spells a module as a tree of pieces of bytes, lists and sized content. Odd: with every liberty of the format."""

    def __init__(self, random, is_odd):
        self.random, self.is_odd = random, is_odd

    def likely(self, chance):
        return self.is_odd and self.random.random() < chance

    def unsigned(self, number, bits=32):
        out = bytearray()
        least = self.random.randint(1, -(-bits // 7)) if self.likely(0.1) else 1
        while number >= 128 or len(out) + 1 < least:
            out.append(128 | number & 127)
            number >>= 7
        return bytes([*out, number])

    def signed(self, number, bits):
        out = bytearray()
        least = self.random.randint(1, -(-bits // 7)) if self.likely(0.1) else 1
        while not -64 <= number < 64 or len(out) + 1 < least:
            out.append(128 | number & 127)
            number >>= 7
        return bytes([*out, number & 127])

    def vector(self, items):
        return [self.unsigned(len(items)), *items]

    def name(self, text):
        spelled = text.encode()
        return [self.unsigned(len(spelled)), spelled]

    def limits(self, limits):
        least, most = limits
        return [b"\0", self.unsigned(least)] if most is None else [b"\1", self.unsigned(least), self.unsigned(most)]

    def global_type(self, type_):
        return bytes([type_[0], type_[1]])

    def types(self, type_):
        return [b"\x60", *(self.vector([bytes([it]) for it in part]) for part in type_)]

    def imports(self, import_):
        module, name, (kind, what) = import_
        rest = [self.unsigned, lambda it: [b"\x70", self.limits(it)], self.limits, self.global_type][kind](what)
        return [self.name(module), self.name(name), bytes([kind]), rest]

    def expression(self, code):
        return [[self.instruction(it) for it in code], bytes([END])]

    def instruction(self, instruction):
        opcode, *rest = instruction
        head = bytes([opcode])
        if opcode in (BLOCK, LOOP, IF):
            return [
                head,
                self.block_type(rest[0]),
                [self.instruction(it) for it in rest[1]],
                self.otherwise(rest[2:]),
                bytes([END]),
            ]
        if opcode == BR_TABLE:
            return [head, self.vector([self.unsigned(it) for it in rest[0]]), self.unsigned(rest[1])]
        if opcode == CALL_INDIRECT:
            return [head, self.unsigned(rest[0]), b"\0"]
        if opcode in ZERO_BYTE:
            return [head, b"\0"]
        if opcode in (I32_CONST, I64_CONST):
            return [head, self.signed(rest[0], 32 if opcode == I32_CONST else 64)]
        return [head, *(self.unsigned(it) for it in rest)]

    def block_type(self, type_):
        if type_ is None:
            return b"\x40"
        return bytes([type_]) if type_ in TYPES else self.signed(type_, 33)

    def otherwise(self, parts):
        if not parts or not (parts[0] or self.likely(0.3)):
            return []
        return [bytes([ELSE]), [self.instruction(it) for it in parts[0]]]

    def codes(self, func):
        _, locals_, code = func
        return Sized(
            [
                self.vector([[self.unsigned(count), bytes([it])] for count, it in self.groups(locals_)]),
                self.expression(code),
            ]
        )

    def groups(self, locals_):
        groups = []
        for type_ in locals_:
            if groups and groups[-1][1] == type_ and not self.likely(0.2):
                groups[-1] = (groups[-1][0] + 1, type_)
            else:
                groups.append((1, type_))
            if self.likely(0.1):
                groups.append((0, self.random.choice(TYPES)))
        return groups

    def section(self, number, content):
        return [bytes([number]), Sized(content)]

    def custom(self):
        return self.section(
            0, [self.name(self.random.choice(NAMES)), self.random.randbytes(self.random.choice([0, 1, 20]))]
        )

    def module(self, module):
        def vector(number, items, spell):
            return (
                [self.section(number, self.vector([spell(it) for it in items]))] if items or self.likely(0.2) else []
            )

        start = module["start"]
        parts = [
            vector(1, module["types"], self.types),
            vector(2, module["imports"], self.imports),
            vector(3, module["funcs"], lambda it: self.unsigned(it[0])),
            vector(4, module["tables"], lambda it: [b"\x70", self.limits(it)]),
            vector(5, module["mems"], self.limits),
            vector(6, module["globals"], lambda it: [self.global_type(it[0]), self.expression(it[1])]),
            vector(7, module["exports"], lambda it: [self.name(it[0]), bytes([it[1]]), self.unsigned(it[2])]),
            [] if start is None else [self.section(8, [self.unsigned(start)])],
            vector(
                9,
                module["elems"],
                lambda it: [
                    self.unsigned(it[0]),
                    self.expression(it[1]),
                    self.vector([self.unsigned(n) for n in it[2]]),
                ],
            ),
            vector(10, module["funcs"], self.codes),
            vector(
                11,
                module["datas"],
                lambda it: [self.unsigned(it[0]), self.expression(it[1]), [self.unsigned(len(it[2])), it[2]]],
            ),
        ]
        return [PREAMBLE, *([part, [self.custom()] if self.likely(0.1) else []] for part in parts)]


def flat(tree, spelling):
    """The bytes of a tree."""
    if isinstance(tree, bytes):
        return tree
    if isinstance(tree, Sized):
        content = flat(tree.content, spelling)
        return spelling.unsigned(len(content)) + content
    return b"".join(flat(it, spelling) for it in tree)


def leaves(tree):
    """The places of the pieces of bytes in a tree: a list that holds each, and its index there."""
    stack, found = [tree], []
    while stack:
        at = stack.pop()
        if isinstance(at, Sized):
            stack.append(at.content)
        elif isinstance(at, list):
            found += [(at, n) for n, it in enumerate(at) if isinstance(it, bytes)]
            stack += [it for it in at if not isinstance(it, bytes)]
    return found
