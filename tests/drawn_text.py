"""Spells a drawn module (see drawn.py) as text, with the liberties that the text format leaves."""

from drawn import (
    BLOCK,
    BR,
    BR_IF,
    BR_TABLE,
    CALL,
    CALL_INDIRECT,
    GLOBAL_GET,
    GLOBAL_SET,
    I32,
    I32_CONST,
    I64_CONST,
    IF,
    LOCAL,
    LOOP,
    NATURAL,
    TYPES,
)

NUMERIC = "eqz eq ne lt_s lt_u gt_s gt_u le_s le_u ge_s ge_u".split()
ARITHMETIC = "clz ctz popcnt add sub mul div_s div_u rem_s rem_u and or xor shl shr_s shr_u rotl rotr".split()
OPCODES = {
    0x00: "unreachable",
    0x01: "nop",
    0x0C: "br",
    0x0D: "br_if",
    0x0E: "br_table",
    0x0F: "return",
    0x10: "call",
    0x11: "call_indirect",
    0x1A: "drop",
    0x1B: "select",
    0x20: "local.get",
    0x21: "local.set",
    0x22: "local.tee",
    0x23: "global.get",
    0x24: "global.set",
    0x3F: "memory.size",
    0x40: "memory.grow",
    0x41: "i32.const",
    0x42: "i64.const",
    0xA7: "i32.wrap_i64",
    0xAC: "i64.extend_i32_s",
    0xAD: "i64.extend_i32_u",
    0xC0: "i32.extend8_s",
    0xC1: "i32.extend16_s",
    0xC2: "i64.extend8_s",
    0xC3: "i64.extend16_s",
    0xC4: "i64.extend32_s",
    0x28: "i32.load",
    0x29: "i64.load",
    0x36: "i32.store",
    0x37: "i64.store",
    0x3A: "i32.store8",
    0x3B: "i32.store16",
    0x3C: "i64.store8",
    0x3D: "i64.store16",
    0x3E: "i64.store32",
    0x02: "block",
    0x03: "loop",
    0x04: "if",
}
OPCODES |= {0x45 + n: "i32." + it for n, it in enumerate(NUMERIC)} | {
    0x50 + n: "i64." + it for n, it in enumerate(NUMERIC)
}
OPCODES |= {0x67 + n: "i32." + it for n, it in enumerate(ARITHMETIC)} | {
    0x79 + n: "i64." + it for n, it in enumerate(ARITHMETIC)
}
OPCODES |= dict(
    zip(
        range(0x2C, 0x36),
        "i32.load8_s i32.load8_u i32.load16_s i32.load16_u i64.load8_s i64.load8_u i64.load16_s "
        "i64.load16_u i64.load32_s i64.load32_u".split(),
    )
)
VALUE_TYPES = {0x7F: "i32", 0x7E: "i64"}
ID_PIECES = ["a", "b", "x1", "!#%&'*+-./:<=>?@\\^_`|~", "$", "long_name_that_goes_on"]
FUNC, TABLE, MEMORY, GLOBAL = range(4)
KINDS = ["func", "table", "memory", "global"]


def has_short_index(module, code=None):
    """Whether a block has the index of a type that could be written out as its result: wabt takes one for the other."""
    if code is None:
        return any(has_short_index(module, it[2]) for it in module["funcs"])
    for opcode, *rest in code:
        if opcode in (BLOCK, LOOP, IF):
            type_ = None if rest[0] is None or rest[0] in TYPES else module["types"][rest[0]]
            if type_ and not type_[0] and len(type_[1]) < 2 or any(has_short_index(module, it) for it in rest[1:]):
                return True
    return False


class Text:
    """One text. Every token is an item of a list; what stands between them is drawn when the text is made."""

    def __init__(self, random, module, is_odd, for_wabt=False):
        """For wabt: with blanks beside strings and one folded condition at most, since it takes no other text."""
        self.random, self.module, self.is_odd, self.for_wabt = random, module, is_odd, for_wabt
        self.names = 0
        types, imports = module["types"], module["imports"]
        kinds = [it[2][0] for it in imports]
        counts = [
            kinds.count(FUNC) + len(module["funcs"]),
            kinds.count(TABLE) + len(module["tables"]),
            kinds.count(MEMORY) + len(module["mems"]),
            kinds.count(GLOBAL) + len(module["globals"]),
        ]
        self.ids = [[self.new_id() for _ in range(it)] for it in counts]
        self.type_ids = [self.new_id() for _ in types]
        self.next_of = [0, 0, 0, 0]
        self.next_export = self.next_elem = self.next_data = 0

    def likely(self, chance):
        return self.is_odd and self.random.random() < chance

    def new_id(self):
        """An identifier that no other has, or none."""
        self.names += 1
        return f"${self.random.choice(ID_PIECES)}{self.names}" if self.likely(0.4) else None

    def number(self, n):
        if not self.likely(0.3):
            return str(n)
        digits = self.random.choice([str(n), "0" * self.random.randint(0, 3) + str(n), f"0x{n:x}", f"0x{n:X}"])
        return self.underscored(digits)

    def underscored(self, digits):
        start = 3 if digits.startswith("0x") else 1
        if len(digits) <= start or not self.likely(0.3):
            return digits
        at = self.random.randrange(start, len(digits))
        return digits[:at] + "_" + digits[at:]

    def literal(self, n, bits):
        if n < 0:
            return "-" + self.number(-n) if not self.likely(0.3) else self.number(n + 2**bits)
        return ("+" if self.likely(0.2) else "") + self.number(n)

    def reference(self, space, n):
        return space[n] if space[n] and self.random.random() < 0.7 else self.number(n)

    def string(self, data):
        """The bytes as one string."""
        out = []
        for char in data.decode("utf-8", "surrogateescape"):
            code = ord(char)
            if 0xDC80 <= code <= 0xDCFF:
                out.append(f"\\{code - 0xDC00:02x}")
            elif code < 32 or code == 127 or char in '"\\' or self.likely(0.1):
                out.append(self.escape(char))
            else:
                out.append(char)
        return '"' + "".join(out) + '"'

    def escape(self, char):
        short = {"\t": "\\t", "\n": "\\n", "\r": "\\r", '"': '\\"', "'": "\\'", "\\": "\\\\"}
        plain = "".join(f"\\{it:02x}" for it in char.encode())
        return self.random.choice([plain, plain.upper(), f"\\u{{{ord(char):x}}}", short.get(char, plain)])

    def name(self, text):
        return self.string(text.encode())

    def value_types(self, word, types, ids=None):
        """The words of `param`, `result` or `local` lists."""
        out, at = [], 0
        while at < len(types):
            if ids and ids[at]:
                out += ["(", word, ids[at], VALUE_TYPES[types[at]], ")"]
                at += 1
                continue
            end = at + 1
            while end < len(types) and not (ids and ids[end]) and not self.likely(0.3):
                end += 1
            out += ["(", word, *(VALUE_TYPES[it] for it in types[at:end]), ")"]
            at = end
        return out + (["(", word, ")"] if self.likely(0.05) else [])

    def signature(self, type_, ids=None):
        return self.value_types("param", type_[0], ids) + self.value_types("result", type_[1])

    def type_use(self, index, ids=None):
        type_ = self.module["types"][index]
        if not ids and self.module["types"].index(type_) == index and self.random.random() < 0.5:
            return self.signature(type_)
        use = ["(", "type", self.reference(self.type_ids, index), ")"]
        return use + (self.signature(type_, ids) if ids or self.likely(0.3) else [])

    def limits(self, limits):
        return [self.number(it) for it in limits if it is not None]

    def global_type(self, type_):
        value_type = VALUE_TYPES[type_[0]]
        return ["(", "mut", value_type, ")"] if type_[1] else [value_type]

    def description(self, kind, what):
        if kind == FUNC:
            return self.type_use(what)
        if kind == TABLE:
            return [*self.limits(what), "funcref"]
        return self.limits(what) if kind == MEMORY else self.global_type(what)

    # Instructions: a body is a list of units, each a list of tokens that is folded or not.

    def units(self, code, locals_, labels):
        units = []
        for instruction in code:
            units.append(self.unit(instruction, units, locals_, labels))
        return [it for unit, _ in units for it in unit]

    def unit(self, instruction, before, locals_, labels):
        opcode, *rest = instruction
        is_folded = self.random.random() < 0.5
        if opcode in (BLOCK, LOOP, IF):
            return self.block(opcode, rest, is_folded, before, locals_, labels), is_folded
        words = [OPCODES[opcode], *self.immediates(opcode, rest, locals_, labels)]
        if not is_folded:
            return words, False
        return ["(", *words, *self.operands(before), ")"], True

    def operands(self, before, most=9):
        """Takes some of the last units, if they are folded."""
        taken, count = [], 0
        while before and before[-1][1] and count < most and self.random.random() < 0.5:
            taken, count = before.pop()[0] + taken, count + 1
        return taken

    def immediates(self, opcode, rest, locals_, labels):
        if opcode in (BR, BR_IF):
            return [self.label(rest[0], labels)]
        if opcode == BR_TABLE:
            return [self.label(it, labels) for it in [*rest[0], rest[1]]]
        if opcode in LOCAL:
            return [self.reference(locals_, rest[0])]
        if opcode == CALL:
            return [self.reference(self.ids[FUNC], rest[0])]
        if opcode in (GLOBAL_GET, GLOBAL_SET):
            return [self.reference(self.ids[GLOBAL], rest[0])]
        if opcode == CALL_INDIRECT:
            return self.type_use(rest[0])
        if opcode in (I32_CONST, I64_CONST):
            return [self.literal(rest[0], 32 if opcode == I32_CONST else 64)]
        if opcode in NATURAL:
            offset = [] if rest[1] == 0 and not self.likely(0.2) else ["offset=" + self.number(rest[1])]
            align = (
                [] if rest[0] == NATURAL[opcode] and not self.likely(0.2) else ["align=" + self.number(2 ** rest[0])]
            )
            return offset + align
        return []

    def label(self, n, labels):
        name = labels[n] if n < len(labels) else None
        if name and labels.index(name) == n and self.random.random() < 0.7:
            return name
        return self.number(n)

    def block(self, opcode, rest, is_folded, before, locals_, labels):
        name = self.random.choice(["$l", "$m", "$l$"]) if self.likely(0.4) else None
        inner = [name, *labels]
        head = [OPCODES[opcode], *([name] if name else []), *self.block_type(rest[0])]
        first = self.units(rest[1], locals_, inner)
        second = self.units(rest[2], locals_, inner) if len(rest) > 2 else []
        again = lambda: [name] if name and self.likely(0.3) else []
        if not is_folded:
            otherwise = ["else", *again(), *second] if second or (len(rest) > 2 and self.likely(0.3)) else []
            return [*head, *first, *otherwise, "end", *again()]
        if opcode != IF:
            return ["(", *head, *first, ")"]
        otherwise = ["(", "else", *second, ")"] if second or self.likely(0.3) else []
        return [
            "(",
            *head,
            *self.operands(before, 1 if self.for_wabt else 9),
            "(",
            "then",
            *first,
            ")",
            *otherwise,
            ")",
        ]

    def block_type(self, type_):
        if type_ is None:
            return ["(", "result", ")"] if self.likely(0.1) else []
        if type_ in TYPES:
            return ["(", "result", VALUE_TYPES[type_], ")"]
        params, results = self.module["types"][type_]
        is_short = not params and len(results) < 2
        if is_short:
            return ["(", "type", self.reference(self.type_ids, type_), ")"]
        return self.type_use(type_)

    def offset(self, code):
        if len(code) == 1 and self.random.random() < 0.5:
            return ["(", OPCODES[code[0][0]], *self.immediates(*self.parted(code[0])), ")"]
        return ["(", "offset", *self.units(code, [], [None]), ")"]

    def parted(self, instruction):
        return instruction[0], list(instruction[1:]), [], [None]

    # Fields.

    def exports_here(self, kind, index):
        """The exports that may stand inside the field of what they export, since they are the next ones."""
        out, exports = [], self.module["exports"]
        while (
            self.next_export < len(exports)
            and exports[self.next_export][1:] == (kind, index)
            and self.random.random() < 0.7
        ):
            out += ["(", "export", self.name(exports[self.next_export][0]), ")"]
            self.next_export += 1
        return out

    def declared(self, kind):
        """The word of a field that declares something, its identifier, and the exports in it."""
        index = self.next_of[kind]
        self.next_of[kind] += 1
        name = self.ids[kind][index]
        return [KINDS[kind], *([name] if name else [])], index

    def import_field(self, import_):
        module, name, (kind, what) = import_
        declared, index = self.declared(kind)
        if self.random.random() < 0.5:
            inside = ["(", "import", self.name(module), self.name(name), ")"]
            return ["(", *declared, *self.exports_here(kind, index), *inside, *self.description(kind, what), ")"]
        return [
            "(",
            "import",
            self.name(module),
            self.name(name),
            "(",
            *declared,
            *self.description(kind, what),
            ")",
            ")",
        ]

    def type_field(self, index):
        type_, name = self.module["types"][index], self.type_ids[index]
        return ["(", "type", *([name] if name else []), "(", "func", *self.signature(type_), ")", ")"]

    def func_field(self, func):
        index, locals_, code = func
        declared, place = self.declared(FUNC)
        exports = self.exports_here(FUNC, place)
        params = self.module["types"][index][0]
        names = [self.new_id() for _ in params + locals_]
        use = self.type_use(index, names[: len(params)] if any(names[: len(params)]) else None)
        body = self.units(code, names, [None])
        return ["(", *declared, *exports, *use, *self.value_types("local", locals_, names[len(params) :]), *body, ")"]

    def table_field(self, limits):
        declared, place = self.declared(TABLE)
        exports, elems = self.exports_here(TABLE, place), self.module["elems"]
        if self.next_elem < len(elems):
            table, offset, funcs = elems[self.next_elem]
            if (table, offset, limits) == (place, [(I32_CONST, 0)], (len(funcs), len(funcs))):
                self.next_elem += 1
                inside = [self.reference(self.ids[FUNC], it) for it in funcs]
                return ["(", *declared, *exports, "funcref", "(", "elem", *inside, ")", ")"]
        return ["(", *declared, *exports, *self.limits(limits), "funcref", ")"]

    def memory_field(self, limits):
        declared, place = self.declared(MEMORY)
        exports, datas = self.exports_here(MEMORY, place), self.module["datas"]
        if self.next_data < len(datas):
            memory, offset, data = datas[self.next_data]
            pages = -(-len(data) // 65536)
            if (memory, offset, limits) == (place, [(I32_CONST, 0)], (pages, pages)):
                self.next_data += 1
                return ["(", *declared, *exports, "(", "data", *self.strings(data), ")", ")"]
        return ["(", *declared, *exports, *self.limits(limits), ")"]

    def global_field(self, global_):
        declared, place = self.declared(GLOBAL)
        exports = self.exports_here(GLOBAL, place)
        return ["(", *declared, *exports, *self.global_type(global_[0]), *self.units(global_[1], [], [None]), ")"]

    def export_field(self):
        name, kind, index = self.module["exports"][self.next_export]
        self.next_export += 1
        return ["(", "export", self.name(name), "(", KINDS[kind], self.reference(self.ids[kind], index), ")", ")"]

    def elem_field(self):
        table, offset, funcs = self.module["elems"][self.next_elem]
        self.next_elem += 1
        index = [self.reference(self.ids[TABLE], table)] if table or self.likely(0.5) else []
        inside = [self.reference(self.ids[FUNC], it) for it in funcs]
        return [
            "(",
            "elem",
            *index,
            *self.offset(offset),
            *(["func"] if index and self.likely(0.5) else []),
            *inside,
            ")",
        ]

    def data_field(self):
        memory, offset, data = self.module["datas"][self.next_data]
        self.next_data += 1
        index = [self.reference(self.ids[MEMORY], memory)] if memory or self.likely(0.5) else []
        return ["(", "data", *index, *self.offset(offset), *self.strings(data), ")"]

    def strings(self, data):
        if not data and self.random.random() < 0.5:
            return []
        cut = self.random.randrange(len(data) + 1) if self.likely(0.3) else len(data)
        return [self.string(data[:cut]), *([self.string(data[cut:])] if cut < len(data) else [])]

    def fields(self):
        """The fields, each a list of tokens: imports first, and the others in turn, each kind in its own order."""
        module = self.module
        out = [self.import_field(it) for it in module["imports"]]
        waiting = [
            [lambda it=it: self.func_field(it) for it in module["funcs"]],
            [lambda it=it: self.table_field(it) for it in module["tables"]],
            [lambda it=it: self.memory_field(it) for it in module["mems"]],
            [lambda it=it: self.global_field(it) for it in module["globals"]],
            []
            if module["start"] is None
            else [lambda: ["(", "start", self.reference(self.ids[FUNC], module["start"]), ")"]],
        ]
        while any(waiting):
            turn = self.random.choice([it for it in waiting if it])
            out.append(turn.pop(0)())
            if self.likely(0.2):
                out += self.later_fields(1)
        out += self.later_fields(10**9)
        types = [self.type_field(it) for it in range(len(module["types"]))]
        return types + out

    def later_fields(self, most):
        out, module = [], self.module
        while len(out) < most:
            ready = [
                make
                for make, at, what in [
                    (self.export_field, self.next_export, "exports"),
                    (self.elem_field, self.next_elem, "elems"),
                    (self.data_field, self.next_data, "datas"),
                ]
                if at < len(module[what])
            ]
            if not ready:
                break
            out.append(self.random.choice(ready)())
        return out

    def gap(self, before, after):
        """What stands between two tokens."""
        must = not {before, after} & {"(", ")"} and (
            self.for_wabt or not (before.endswith('"') or after.startswith('"'))
        )
        if not self.likely(0.1):
            return " " if must or self.random.random() < 0.5 and (before, after) != ("(", ";") else ""
        return self.random.choice([" ", "\n", "\t", "\r\n", " ;; comment (; \n", "(; a (; b ;) ;)", "  "])

    def tokens(self):
        fields = [it for field in self.fields() for it in field]
        name = self.new_id()
        return ["(", "module", *([name] if name else []), *fields, ")"] if self.random.random() < 0.5 else fields

    def spelled(self, tokens):
        """The bytes of these tokens with gaps between them, and the places where the tokens begin and end."""
        out, places, length = [], [], 0
        for before, token in zip(["(", *tokens], tokens):
            out += [self.gap(before, token), token]
            start = length + len(out[-2].encode("utf-8"))
            length = start + len(token.encode("utf-8"))
            places.append((start, length))
        return "".join(out).encode("utf-8"), places

    def made(self):
        return self.spelled(self.tokens())[0]
