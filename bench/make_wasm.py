#!/usr/bin/env python3
"""Makes a deterministic module of the binary format (WebAssembly Core Specification 1.0, chapter 5).

make_wasm.py KIND MEGABYTES FILE [--padded]

KIND is one of
    code    functions of a usual mix of instructions: a few locals, blocks, loops, ifs, loads, stores and calls
    fixed   the same, and a constant global stands before the one that they set
    between the same, and two are set, with a constant one between them
    mixed   functions of every opcode alike, constants of each length, indices of one byte and of two, and blocks of
            each type
    tiny    a great many functions of one or two instructions
    nested  functions of blocks, loops and ifs in one another, 20,000 deep
    names   imports, exports and custom sections with long names, some of them beyond ASCII
    many    imports and exports with a great many names of a usual length
    mangled the same with names as compilers of C++ and Rust write them: 20 to 120 bytes, many with one beginning
    data    one data segment

With --padded each integer that has room for it takes five bytes: counts, sizes, indices and constants.
All these modules are valid.
"""

import random
import sys

I32, I64 = 0x7F, 0x7E
LOCALS = [(3, I32), (1, I64)]  # behind two parameters: locals 2 to 4 are i32, local 5 is i64
CALLEES = 100


class Integers:
    """Spellings of integers: the shortest, or at least five bytes."""

    def __init__(self, padded):
        self.least = 5 if padded else 1

    def unsigned(self, number):
        out = bytearray()
        while number >= 128 or len(out) + 1 < self.least:
            out.append(128 | number & 127)
            number >>= 7
        out.append(number)
        return bytes(out)

    def signed(self, number):
        out = bytearray()
        while not -64 <= number < 64 or len(out) + 1 < self.least:
            out.append(128 | number & 127)
            number >>= 7
        out.append(number & 127)
        return bytes(out)

    def vector(self, items):
        return self.unsigned(len(items)) + b"".join(items)

    def name(self, text):
        spelled = text.encode("utf-8")
        return self.unsigned(len(spelled)) + spelled

    def section(self, number, content):
        return bytes([number]) + self.unsigned(len(content)) + content


class Statements:
    """Random statements over the locals, each of which leaves the stack as it was."""

    def __init__(self, integers, seed, variables):
        self.u = integers.unsigned
        self.s = integers.signed
        self.random = random.Random(seed)
        self.variables = [self.u(index) for index in variables]  # the globals that are read and set

    def local(self):
        return self.u(self.random.randrange(5))

    def constant(self):
        return b"\x41" + self.s(int(self.random.choice([8, 100, 4000, 70000]) * self.random.uniform(-0.3, 1)))

    def offset(self):
        return self.u(self.random.choice([0, 4, 8, 12, 16, 24, 40, 64, 136, 1052]))

    def operand(self):
        return self.random.choice([b"\x20" + self.local(), b"\x20" + self.local(), self.constant()])

    def arithmetic(self):
        operator = self.random.choice([0x6A, 0x6A, 0x6B, 0x6C, 0x71, 0x72, 0x73, 0x74, 0x76])
        return self.operand() + self.operand() + bytes([operator]) + b"\x21" + self.local()

    def load(self):
        access = self.random.choice([(0x28, 2), (0x28, 2), (0x2D, 0), (0x2F, 1)])
        return (b"\x20" + self.local() + bytes([access[0]]) + self.u(access[1]) + self.offset()
                + b"\x22" + self.local() + b"\x1a")

    def store(self):
        access = self.random.choice([(0x36, 2), (0x36, 2), (0x3A, 0), (0x3B, 1)])
        return b"\x20" + self.local() + self.operand() + bytes([access[0]]) + self.u(access[1]) + self.offset()

    def call(self):
        callee = b"\x10" + self.u(self.random.randrange(CALLEES))
        return self.operand() + self.operand() + callee + b"\x21" + self.local()

    def wide(self):
        number = self.random.choice([1, 255, 65535, 1 << 33]) * self.random.choice([1, -1])
        return (b"\x20" + self.u(5) + b"\x42" + self.s(number) + b"\x7c" + b"\x20" + self.local() + b"\xac\x85"
                + b"\x21" + self.u(5))

    def globals(self):
        return b"".join(b"\x23" + index + self.constant() + b"\x6b\x24" + index for index in self.variables)

    def indirect(self):
        return self.operand() * 2 + self.operand() + b"\x11" + self.u(0) + b"\x00\x21" + self.local()

    def switch(self):
        labels = self.u(4) + b"".join(self.u(n % 2) for n in range(4))
        return b"\x02\x40\x02\x40\x20" + self.local() + b"\x0e" + labels + self.u(0) + b"\x0b" + self.store() + b"\x0b"

    def nested(self, depth):
        inner = self.some(self.random.randrange(2, 5), depth - 1)
        test = b"\x20" + self.local() + self.operand() + bytes([self.random.choice([0x46, 0x48, 0x49, 0x4D])])
        form = self.random.randrange(4)
        if form == 0:
            return b"\x02\x40" + test + b"\x0d" + self.u(0) + inner + b"\x0b"
        if form == 1:
            return b"\x03\x40" + inner + test + b"\x0d" + self.u(0) + b"\x0b"
        if form == 2:
            return test + b"\x04\x40" + inner + b"\x0b"
        return test + b"\x04\x40" + inner + b"\x05" + self.some(1, depth - 1) + b"\x0b"

    def some(self, count, depth):
        plain = [self.arithmetic] * 5 + [self.load] * 4 + [self.store] * 3 + [self.call] * 2
        plain += [self.wide, self.globals]
        out = []
        for _ in range(count):
            draw = self.random.random()
            if depth > 0 and draw < 0.2:
                out.append(self.nested(depth))
            elif draw < 0.21:
                out.append(self.switch())
            elif draw < 0.22:
                out.append(self.indirect())
            else:
                out.append(self.random.choice(plain)())
        return b"".join(out)


class Mixed:
    """Instructions drawn alike by their opcodes, each behind operands of its types; what it leaves is dropped."""

    PLAIN = {0x45: (I32,), 0x50: (I64,), 0xA7: (I64,), 0xAC: (I32,), 0xAD: (I32,)}
    PLAIN |= {opcode: (I32, I32) for opcode in [*range(0x46, 0x50), *range(0x6A, 0x79)]}
    PLAIN |= {opcode: (I64, I64) for opcode in [*range(0x51, 0x5B), *range(0x7C, 0x8B)]}
    PLAIN |= {opcode: (I32,) for opcode in [0x67, 0x68, 0x69, 0xC0, 0xC1]}
    PLAIN |= {opcode: (I64,) for opcode in [0x79, 0x7A, 0x7B, 0xC2, 0xC3, 0xC4]}
    LOADS = {0x28: 2, 0x29: 3, 0x2C: 0, 0x2D: 0, 0x2E: 1, 0x2F: 1, 0x30: 0, 0x31: 0, 0x32: 1, 0x33: 1, 0x34: 2, 0x35: 2}
    STORES = {0x36: (2, I32), 0x37: (3, I64), 0x3A: (0, I32), 0x3B: (1, I32), 0x3C: (0, I64), 0x3D: (1, I64),
              0x3E: (2, I64)}
    GLOBALS = {I32: 0, I64: 150}  # from these on there are 150 of each type
    LOCALS = {I32: 10, I64: 160}  # the same, behind the parameters
    TYPES = [([], []), ([I32], []), ([], [I32, I64]), ([I64], [I32]), ([I32, I32, I64], [I64, I32])]
    CALLEES = 300

    def __init__(self, integers, seed):
        self.u = integers.unsigned
        self.s = integers.signed
        self.random = random.Random(seed)
        self.results = []  # those of the function that is being made

    def constant(self, ty):
        bits = self.random.randrange(32 if ty == I32 else 64)
        return (b"\x41" if ty == I32 else b"\x42") + self.s(self.random.choice([1, -1]) * self.random.getrandbits(bits))

    def variable(self, first):
        return self.u(first + self.random.randrange(150))

    def operand(self, ty):
        draw = self.random.random()
        if draw < 0.4:
            return self.constant(ty)
        return b"\x20" + self.variable(self.LOCALS[ty]) if draw < 0.8 else b"\x23" + self.variable(self.GLOBALS[ty])

    def operands(self, types):
        return b"".join(map(self.operand, types))

    def access(self, natural):
        offset = self.random.getrandbits(self.random.randrange(32))
        return self.u(self.random.randrange(natural + 1)) + self.u(offset)

    def plain(self):
        opcode = self.random.choice(list(self.PLAIN))
        return self.operands(self.PLAIN[opcode]) + bytes([opcode]) + b"\x1a"

    def load(self):
        opcode = self.random.choice(list(self.LOADS))
        return self.operand(I32) + bytes([opcode]) + self.access(self.LOADS[opcode]) + b"\x1a"

    def store(self):
        opcode = self.random.choice(list(self.STORES))
        natural, ty = self.STORES[opcode]
        return self.operands((I32, ty)) + bytes([opcode]) + self.access(natural)

    def setting(self):
        ty = self.random.choice([I32, I64])
        return self.operand(ty) + self.random.choice([
            b"\x21" + self.variable(self.LOCALS[ty]), b"\x22" + self.variable(self.LOCALS[ty]) + b"\x1a",
            b"\x24" + self.variable(self.GLOBALS[ty])])

    def call(self):
        index = self.random.randrange(self.CALLEES)
        params, results = self.TYPES[index % len(self.TYPES)]
        if self.random.random() < 0.5:
            return self.operands(params) + b"\x10" + self.u(index) + b"\x1a" * len(results)
        return (self.operands(params) + self.operand(I32) + b"\x11" + self.u(index % len(self.TYPES)) + b"\x00"
                + b"\x1a" * len(results))

    def other(self):
        ty = self.random.choice([I32, I64])
        return self.random.choice([
            b"\x01", b"\x3f\x00\x1a", self.operand(I32) + b"\x40\x00\x1a",
            self.operands((ty, ty, I32)) + b"\x1b\x1a", b"\x02\x40" + self.operand(I32) + b"\x0d\x00\x00\x0b",
            b"\x02\x40" + self.operand(I32) + b"\x0d\x00" + self.operands(self.results) + b"\x0f\x0b"])

    def switch(self):
        labels = [self.u(self.random.randrange(2)) for _ in range(self.random.randrange(20))]
        table = b"\x0e" + self.u(len(labels)) + b"".join(labels) + self.u(0)
        return b"\x02\x40\x02\x40" + self.operand(I32) + table + b"\x0b\x0b"

    def nested(self, depth):
        opcode = self.random.choice([b"\x02", b"\x03", b"\x04"])
        index = self.random.randrange(len(self.TYPES) + 3)
        params, results = ([([], []), ([], [I32]), ([], [I64])] + self.TYPES)[index]
        ty = [b"\x40", b"\x7f", b"\x7e"][index] if index < 3 else self.s(index - 3)
        inside = b"\x1a" * len(params) + self.some(self.random.randrange(1, 5), depth - 1) + self.operands(results)
        head = self.operands(params) + (self.operand(I32) if opcode == b"\x04" else b"") + opcode + ty
        otherwise = b"\x05" + inside if opcode == b"\x04" and (results or params or index % 2) else b""
        return head + inside + otherwise + b"\x0b" + b"\x1a" * len(results)

    def some(self, count, depth):
        kinds = [self.plain] * 62 + [self.load] * 12 + [self.store] * 7 + [self.setting] * 4 + [self.call] * 3
        kinds += [self.other] * 6 + [self.switch] + [lambda: self.nested(depth)] * (6 if depth > 0 else 0)
        return b"".join(self.random.choice(kinds)() for _ in range(count))


def locals_of(integers):
    return integers.vector([integers.unsigned(count) + bytes([ty]) for count, ty in LOCALS])


def func_type(integers, params, results):
    return (b"\x60" + integers.vector([bytes([ty]) for ty in params])
            + integers.vector([bytes([ty]) for ty in results]))


def repeated(pool, size):
    """As many of the pool, in turn, as it takes to reach the size."""
    out = []
    total = 0
    while total < size:
        out.append(pool[len(out) % len(pool)])
        total += len(out[-1])
    return out


def with_size(integers, code):
    return integers.unsigned(len(code)) + code


def functions(integers, types, codes, others=()):
    """The sections of a module of these codes, all of type 0, and others by their numbers."""
    sections = dict(others)
    sections[1] = integers.vector(types)
    sections[3] = integers.unsigned(len(codes)) + integers.unsigned(0) * len(codes)
    sections[10] = integers.vector(codes)
    return b"".join(integers.section(number, sections[number]) for number in sorted(sections))


def code(integers, size, mutables=(True,)):
    """Of each global it is told whether it is set, and not constant."""
    statements = Statements(integers, 12345, [index for index, mutable in enumerate(mutables) if mutable])
    declared = locals_of(integers)
    pool = []
    for _ in range(1000):
        body = statements.some(statements.random.randrange(20, 120), 4) + b"\x20" + integers.unsigned(0) + b"\x0b"
        pool.append(with_size(integers, declared + body))
    codes = repeated(pool, max(size, sum(map(len, pool[:CALLEES]))))
    others = {
        4: integers.vector([b"\x70\x00" + integers.unsigned(16)]),
        5: integers.vector([b"\x00" + integers.unsigned(2)]),
        6: integers.vector([b"\x7f" + bytes([mutable]) + b"\x41" + integers.signed(65536) + b"\x0b"
                            for mutable in mutables]),
        7: integers.vector([integers.name("run") + b"\x00" + integers.unsigned(0)]),
        9: integers.vector([integers.unsigned(0) + b"\x41" + integers.signed(0) + b"\x0b"
                            + integers.vector([integers.unsigned(n) for n in range(16)])]),
    }
    return functions(integers, [func_type(integers, [I32, I32], [I32])], codes, others)


def fixed(integers, size):
    return code(integers, size, (False, True))


def between(integers, size):
    return code(integers, size, (True, False, True))


def mixed(integers, size):
    u = integers.unsigned
    instructions = Mixed(integers, 97531)
    types = [func_type(integers, *ty) for ty in Mixed.TYPES]
    pool = []
    for index in range(1000):
        params, results = Mixed.TYPES[index % len(types)]
        instructions.results = results
        declared = integers.vector([u(160 - len(params)) + bytes([I32]), u(150) + bytes([I64])])
        statements = instructions.some(instructions.random.randrange(20, 120), 4)
        pool.append(with_size(integers, declared + statements + instructions.operands(results) + b"\x0b"))
    codes = repeated(pool, max(size, sum(map(len, pool[:Mixed.CALLEES]))))
    sections = {
        1: integers.vector(types),
        3: integers.vector([u(index % len(pool) % len(types)) for index in range(len(codes))]),
        4: integers.vector([b"\x70\x00" + u(16)]),
        5: integers.vector([b"\x00" + u(2)]),
        6: integers.vector([bytes([ty, 1]) + instructions.constant(ty) + b"\x0b" for ty in [I32] * 150 + [I64] * 150]),
        9: integers.vector([u(0) + b"\x41\x00\x0b" + integers.vector([u(n) for n in range(16)])]),
        10: integers.vector(codes),
    }
    return b"".join(integers.section(number, content) for number, content in sections.items())


def tiny(integers, size):
    u = integers.unsigned
    bodies = [b"\x20" + u(0) + b"\x0b", b"\x41" + integers.signed(7) + b"\x0b", b"\x00\x0b"]
    pool = [with_size(integers, u(0) + body) for body in bodies]
    average = sum(map(len, pool)) / len(pool)
    share = average / (average + len(u(0)))  # the rest is the function section
    return functions(integers, [func_type(integers, [I32], [I32])], repeated(pool, size * share))


def nested(integers, size):
    u = integers.unsigned
    pool = []
    for turn in range(4):
        out = [u(0)]
        for depth in range(20_000):
            kind = (depth + turn) % 8
            out.append(b"\x41" + integers.signed(depth % 64) + b"\x04\x40" if kind == 7
                       else b"\x03\x40" if kind == 3 else b"\x02\x40")
        out.append(b"\x0b" * 20_001)
        pool.append(with_size(integers, b"".join(out)))
    return functions(integers, [func_type(integers, [], [])], repeated(pool, size))


def externals(integers, imports, exports):
    """The sections of a module of these imports and exports, and of one type."""
    return (integers.section(1, integers.vector([func_type(integers, [], [])]))
            + integers.section(2, integers.vector(imports)) + integers.section(7, integers.vector(exports)))


def names(integers, size):
    u = integers.unsigned
    chooser = random.Random(54321)
    letters = "abcdefghijklmnopqrstuvwxyz_.$ABCDEFGHIJKLMNOPQRSTUVWXYZ0123456789"
    words = ["".join(chooser.choice(letters) for _ in range(1000)) for _ in range(64)]
    words += ["".join(chooser.choice("äßπжλ→木😀") for _ in range(300)) for _ in range(8)]
    imports, exports, total, count = [], [], 0, 0
    while total < size * 0.8:
        word = words[count % len(words)]
        imports.append(integers.name(word) + integers.name(f"{count}{word}") + b"\x00" + u(0))
        exports.append(integers.name(f"{word}{count}") + b"\x00" + u(count))
        total += len(imports[-1]) + len(exports[-1])
        count += 1
    custom = integers.section(0, integers.name(words[0]) + b"".join(w.encode() for w in words) * 2)
    behind = custom * max(1, int((size - total) / len(custom)))
    return externals(integers, imports, exports) + behind


def many(integers, size):
    u = integers.unsigned
    chooser = random.Random(24680)
    words = "core alloc string vec map set iter fmt write read next push pop len slice hash node list".split()
    imports, exports, total, count = [], [], 0, 0
    while total < size:
        path = "_".join(chooser.choice(words) for _ in range(chooser.randrange(1, 6)))
        imports.append(integers.name("env") + integers.name(f"{path}{count}") + b"\x00" + u(0))
        exports.append(integers.name(f"{path}_{count}") + b"\x00" + u(count))
        total += len(imports[-1]) + len(exports[-1])
        count += 1
    return externals(integers, imports, exports)


def mangled(integers, size):
    u = integers.unsigned
    chooser = random.Random(86420)
    words = "core alloc string vec map set iter fmt write read next push pop len slice hash node list".split()
    kept = ["_ZNSt3__112basic_stringIcNS_11char_traitsIcEENS_9allocatorIcEEE", "_ZN4core3fmt9Formatter",
            "_ZNSt3__16vectorIiNS_9allocatorIiEEE", "_ZN5alloc7raw_vec19RawVec$LT$T$C$A$GT$", "_ZN"]

    def symbol():
        path = [chooser.choice(words) for _ in range(chooser.randrange(2, 6))]
        text = chooser.choice(kept) + "".join(f"{len(word)}{word}" for word in path)
        return text + f"17h{chooser.getrandbits(64):016x}E" if chooser.random() < 0.5 else text + "E" + chooser.choice(
            ["v", "i", "RKS_", "PKcm", "jjRKNS_9allocatorIcEE"])

    imports, exports, total, count = [], [], 0, 0
    while total < size:
        imports.append(integers.name("env") + integers.name(f"{symbol()[:110]}.{count}") + b"\x00" + u(0))
        exports.append(integers.name(f"{symbol()[:110]}.{count}") + b"\x00" + u(count))
        total += len(imports[-1]) + len(exports[-1])
        count += 1
    return externals(integers, imports, exports)


def data(integers, size):
    content = random.Random(999).randbytes(size)
    segment = integers.unsigned(0) + b"\x41" + integers.signed(0) + b"\x0b" + integers.unsigned(len(content)) + content
    pages = size // 65536 + 1
    return (integers.section(5, integers.vector([b"\x00" + integers.unsigned(pages)]))
            + integers.section(11, integers.vector([segment])))


KINDS = {kind.__name__: kind for kind in (code, fixed, between, mixed, tiny, nested, names, many, mangled, data)}


def main():
    words = [word for word in sys.argv[1:] if word != "--padded"]
    if len(words) != 3 or words[0] not in KINDS:
        sys.exit(__doc__)
    integers = Integers("--padded" in sys.argv[1:])
    with open(words[2], "wb") as out:
        out.write(b"\x00asm\x01\x00\x00\x00" + KINDS[words[0]](integers, int(float(words[1]) * 1_000_000)))


main()
