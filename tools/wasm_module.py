"""Reads WebAssembly modules for tools/fit and tools/why: sections, instructions by name, and the names of functions.

It knows the binary format of Core 2.0 whole, and of what came after it as much as is needed to name it. It does not validate.
Python 3.9 or later, nothing else.
"""

SECTIONS = {0: "custom", 1: "type", 2: "import", 3: "function", 4: "table", 5: "memory", 6: "global", 7: "export", 8: "start",
            9: "element", 10: "code", 11: "data", 12: "data count", 13: "tag", 14: "string"}
I32, I64, F32, F64, V128, FUNCREF, EXTERNREF = 0x7F, 0x7E, 0x7D, 0x7C, 0x7B, 0x70, 0x6F
TYPES = {I32: "i32", I64: "i64", F32: "f32", F64: "f64", V128: "v128", FUNCREF: "funcref", EXTERNREF: "externref"}
FLOATS = {F32: I32, F64: I64}
KINDS = ["function", "table", "memory", "global", "tag"]


class Malformed(Exception):
    """The bytes spell no module: the place in the file, and why."""

    def __init__(self, place, why):
        super().__init__(why)
        self.place, self.why = place, why


class Beyond(Exception):
    """Something outside what the caller can use: the place in the file, what it is, and what an author can do about it."""

    def __init__(self, place, what, remedy):
        super().__init__(what)
        self.place, self.what, self.remedy = place, what, remedy


# What an author can do, by proposal.
REMEDY = {
    "simd": "128-bit vectors (SIMD) are outside the profile. Build without them: clang -mno-simd128, rustc -C target-feature=-simd128, emcc without -msimd128.",
    "threads": "Atomic instructions and shared memory (threads) are outside the profile. Build without them: clang -mno-atomics and no -pthread, rustc -C target-feature=-atomics.",
    "exceptions": "Exceptions of WebAssembly are outside the profile. Build without them: clang++ -fno-exceptions (emcc: no -fwasm-exceptions), rustc -C panic=abort.",
    "tail": "Tail calls are outside the profile. Build without them: clang -mno-tail-call, rustc -C target-feature=-tail-call.",
    "memory64": "A memory with 64-bit addresses is outside the profile. Build for wasm32 and not for wasm64.",
    "memories": "More than one memory is outside the profile. Merge them with: wasm-opt --enable-multimemory --multi-memory-lowering.",
    "pages": "A memory with pages of another size is outside the profile. Build without custom page sizes.",
    "tables": "Tables that change as the module runs, and more than one table, are outside the profile. They come of externref and wasm-bindgen, or of a table that grows: build without them (rustc -C target-feature=-reference-types).",
    "gc": "Types of the garbage collection and typed function references proposals are outside the profile. Build from a language that manages its own memory.",
    "wide": "128-bit arithmetic (wide-arithmetic) is outside the profile. Build without it: rustc -C target-feature=-wide-arithmetic.",
    "unknown": "This is no instruction of Core 2.0 or of a proposal known here. Build for an older target: clang -mcpu=mvp, rustc -C target-cpu=mvp.",
}

_ONE = {
    0x00: "unreachable", 0x01: "nop", 0x02: "block", 0x03: "loop", 0x04: "if", 0x05: "else", 0x0B: "end", 0x0C: "br", 0x0D: "br_if",
    0x0E: "br_table", 0x0F: "return", 0x10: "call", 0x11: "call_indirect", 0x1A: "drop", 0x1B: "select", 0x1C: "select t",
    0x20: "local.get", 0x21: "local.set", 0x22: "local.tee", 0x23: "global.get", 0x24: "global.set", 0x25: "table.get", 0x26: "table.set",
    0x3F: "memory.size", 0x40: "memory.grow", 0x41: "i32.const", 0x42: "i64.const", 0x43: "f32.const", 0x44: "f64.const",
    0xD0: "ref.null", 0xD1: "ref.is_null", 0xD2: "ref.func",
}
for _at, _name in enumerate("i32.load i64.load f32.load f64.load i32.load8_s i32.load8_u i32.load16_s i32.load16_u i64.load8_s i64.load8_u "
                            "i64.load16_s i64.load16_u i64.load32_s i64.load32_u i32.store i64.store f32.store f64.store i32.store8 i32.store16 "
                            "i64.store8 i64.store16 i64.store32".split(), 0x28):
    _ONE[_at] = _name
_INTEGER = "eq ne lt_s lt_u gt_s gt_u le_s le_u ge_s ge_u"
_FLOAT = "eq ne lt gt le ge"
_WHOLE = "clz ctz popcnt add sub mul div_s div_u rem_s rem_u and or xor shl shr_s shr_u rotl rotr"
_REAL = "abs neg ceil floor trunc nearest sqrt add sub mul div min max copysign"
_names = ["i32.eqz"] + ["i32." + n for n in _INTEGER.split()] + ["i64.eqz"] + ["i64." + n for n in _INTEGER.split()]
_names += ["f32." + n for n in _FLOAT.split()] + ["f64." + n for n in _FLOAT.split()]
_names += ["i32." + n for n in _WHOLE.split()] + ["i64." + n for n in _WHOLE.split()]
_names += ["f32." + n for n in _REAL.split()] + ["f64." + n for n in _REAL.split()]
_names += ("i32.wrap_i64 i32.trunc_f32_s i32.trunc_f32_u i32.trunc_f64_s i32.trunc_f64_u i64.extend_i32_s i64.extend_i32_u i64.trunc_f32_s "
           "i64.trunc_f32_u i64.trunc_f64_s i64.trunc_f64_u f32.convert_i32_s f32.convert_i32_u f32.convert_i64_s f32.convert_i64_u f32.demote_f64 "
           "f64.convert_i32_s f64.convert_i32_u f64.convert_i64_s f64.convert_i64_u f64.promote_f32 i32.reinterpret_f32 i64.reinterpret_f64 "
           "f32.reinterpret_i32 f64.reinterpret_i64 i32.extend8_s i32.extend16_s i64.extend8_s i64.extend16_s i64.extend32_s").split()
for _at, _name in enumerate(_names, 0x45):
    _ONE[_at] = _name
assert _ONE[0xC4] == "i64.extend32_s" and _ONE[0x8B] == "f32.abs" and _ONE[0xBF] == "f64.reinterpret_i64" and _ONE[0x3E] == "i64.store32"

_FC = dict(enumerate("i32.trunc_sat_f32_s i32.trunc_sat_f32_u i32.trunc_sat_f64_s i32.trunc_sat_f64_u i64.trunc_sat_f32_s i64.trunc_sat_f32_u "
                     "i64.trunc_sat_f64_s i64.trunc_sat_f64_u memory.init data.drop memory.copy memory.fill table.init elem.drop table.copy "
                     "table.grow table.size table.fill".split()))

# Instructions outside Core 2.0, whose operands are not read: the name and the proposal.
_AFTER = {0x06: ("try", "exceptions"), 0x07: ("catch", "exceptions"), 0x08: ("throw", "exceptions"), 0x09: ("rethrow", "exceptions"),
          0x0A: ("throw_ref", "exceptions"), 0x18: ("delegate", "exceptions"), 0x19: ("catch_all", "exceptions"), 0x1F: ("try_table", "exceptions"),
          0x12: ("return_call", "tail"), 0x13: ("return_call_indirect", "tail"), 0x14: ("call_ref", "gc"), 0x15: ("return_call_ref", "tail"),
          0xD3: ("ref.eq", "gc"), 0xD4: ("ref.as_non_null", "gc"), 0xD5: ("br_on_null", "gc"), 0xD6: ("br_on_non_null", "gc")}
_AFTER_FC = {18: ("memory.discard", "unknown"), 19: ("i64.add128", "wide"), 20: ("i64.sub128", "wide"), 21: ("i64.mul_wide_s", "wide"), 22: ("i64.mul_wide_u", "wide")}
_ATOMIC = {0: "memory.atomic.notify", 1: "memory.atomic.wait32", 2: "memory.atomic.wait64", 3: "atomic.fence"}
_SIZES = "i32.{} i64.{} i32.{}8{} i32.{}16{} i64.{}8{} i64.{}16{} i64.{}32{}".split()
for _row, _what in enumerate("load store rmw.add rmw.sub rmw.and rmw.or rmw.xor rmw.xchg rmw.cmpxchg".split()):
    for _at, _size in enumerate(_SIZES):
        if "rmw" in _what:
            _name = _size.replace("{}", "atomic.rmw", 1).replace("{}", "." + _what[4:] + "_u") if "}8" in _size or "}16" in _size or "}32" in _size else _size.replace("{}", "atomic." + _what)
        else:
            _name = _size.replace("{}", "atomic." + _what, 1).replace("{}", "_u" if _what == "load" else "")
        _ATOMIC[0x10 + 7 * _row + _at] = _name
_SIMD = dict(enumerate("v128.load v128.load8x8_s v128.load8x8_u v128.load16x4_s v128.load16x4_u v128.load32x2_s v128.load32x2_u v128.load8_splat "
                       "v128.load16_splat v128.load32_splat v128.load64_splat v128.store v128.const i8x16.shuffle i8x16.swizzle i8x16.splat i16x8.splat "
                       "i32x4.splat i64x2.splat f32x4.splat f64x2.splat i8x16.extract_lane_s i8x16.extract_lane_u i8x16.replace_lane "
                       "i16x8.extract_lane_s i16x8.extract_lane_u i16x8.replace_lane i32x4.extract_lane i32x4.replace_lane i64x2.extract_lane "
                       "i64x2.replace_lane f32x4.extract_lane f32x4.replace_lane f64x2.extract_lane f64x2.replace_lane".split()))
_SIMD.update({0x4D: "v128.not", 0x4E: "v128.and", 0x4F: "v128.andnot", 0x50: "v128.or", 0x51: "v128.xor", 0x52: "v128.bitselect", 0x53: "v128.any_true",
              0x5C: "v128.load32_zero", 0x5D: "v128.load64_zero", 0x6E: "i8x16.add", 0x71: "i8x16.sub", 0x8E: "i16x8.add", 0x91: "i16x8.sub", 0x95: "i16x8.mul",
              0xAE: "i32x4.add", 0xB1: "i32x4.sub", 0xB5: "i32x4.mul", 0xCE: "i64x2.add", 0xD1: "i64x2.sub", 0xD5: "i64x2.mul",
              0xE4: "f32x4.add", 0xE5: "f32x4.sub", 0xE6: "f32x4.mul", 0xE7: "f32x4.div", 0xF0: "f64x2.add", 0xF1: "f64x2.sub", 0xF2: "f64x2.mul", 0xF3: "f64x2.div"})
for _at, _shape in enumerate(["i8x16", "i16x8", "i32x4"]):
    for _next, _op in enumerate("eq ne lt_s lt_u gt_s gt_u le_s le_u ge_s ge_u".split()):
        _SIMD[0x23 + 10 * _at + _next] = _shape + "." + _op


class Reader:
    """Bytes of a file, from a place to an end."""

    def __init__(self, data, at=0, end=None):
        self.data, self.at, self.end = data, at, len(data) if end is None else end

    def more(self):
        return self.at < self.end

    def byte(self):
        if self.at >= self.end:
            raise Malformed(self.at, "it ends inside an item")
        self.at += 1
        return self.data[self.at - 1]

    def number(self, bits=32):
        """A number without a sign."""
        first, value, shift = self.at, 0, 0
        while True:
            b = self.byte()
            value |= (b & 127) << shift
            shift += 7
            if b < 128:
                break
            if shift >= bits:
                raise Malformed(first, "a number is too long")
        if value >> bits:
            raise Malformed(first, "a number is too great")
        return value

    def signed(self, bits):
        """A number with a sign."""
        first, value, shift = self.at, 0, 0
        while True:
            b = self.byte()
            value |= (b & 127) << shift
            shift += 7
            if b < 128:
                break
            if shift >= bits:
                raise Malformed(first, "a number is too long")
        if b & 64:
            value -= 1 << shift
        if not -(1 << (bits - 1)) <= value < 1 << (bits - 1):
            raise Malformed(first, "a number is too great")
        return value

    def bytes(self, count):
        if count > self.end - self.at:
            raise Malformed(self.end, "it ends inside an item")
        self.at += count
        return self.data[self.at - count : self.at]

    def name(self):
        first = self.at
        try:
            return self.bytes(self.number()).decode()
        except UnicodeDecodeError:
            raise Malformed(first, "a name is no UTF-8") from None

    def count(self):
        """How many entries follow; each takes a byte at least."""
        first, value = self.at, self.number()
        if value > self.end - self.at:
            raise Malformed(first, "it ends inside an item")
        return value


def unsigned_bytes(value):
    """The shortest spelling of a number without a sign."""
    out = bytearray()
    while value > 127:
        out.append(value & 127 | 128)
        value >>= 7
    out.append(value)
    return bytes(out)


def signed_bytes(value):
    """The shortest spelling of a number with a sign."""
    out = bytearray()
    while not -64 <= value < 64:
        out.append(value & 127 | 128)
        value >>= 7
    out.append(value & 127)
    return bytes(out)


def value_type(r):
    """A value type of Core 2.0."""
    first, b = r.at, r.byte()
    if b in (0x63, 0x64) or 0x65 <= b <= 0x6E or b in (0x71, 0x72, 0x73, 0x74):
        kind = "exceptions" if b in (0x69, 0x74) else "gc"
        raise Beyond(first, "a value type (byte %02x)" % b, REMEDY[kind])
    if b not in TYPES:
        raise Malformed(first, "byte %02x is no value type" % b)
    return b


def signature_text(signature):
    """A type of functions as text: (i32, f64) -> i32."""
    params, results = signature
    shown = [TYPES.get(t, "?") for t in results]
    return "(%s) -> %s" % (", ".join(TYPES.get(t, "?") for t in params), shown[0] if len(shown) == 1 else "(%s)" % ", ".join(shown) if shown else "nothing")


def limits(r, of):
    """The limits of a memory or a table: the least, the most or None."""
    first, flag = r.at, r.byte()
    if flag in (2, 3) or (flag & 2 and flag < 16):
        raise Beyond(first, "a shared " + of, REMEDY["threads"])
    if flag & 8 and flag < 16:
        raise Beyond(first, "a %s with pages of another size" % of, REMEDY["pages"])
    if flag & 4 and flag < 16:
        raise Beyond(first, "a %s with 64-bit addresses" % of, REMEDY["memory64"])
    if flag > 1:
        raise Malformed(first, "byte %02x is no kind of limits" % flag)
    least = r.number()
    return least, r.number() if flag else None


def constant(r):
    """A constant expression: a list of (place, name, operand) without the last `end`."""
    out = []
    while True:
        place, name, operand = instruction(r)
        if name == "end":
            return out
        out.append((place, name, operand))


def instruction(r):
    """The next instruction: its place, its name and its operand. One outside Core 2.0 raises Beyond."""
    place, op = r.at, r.byte()
    name = _ONE.get(op)
    if name is None:
        if op == 0xFC:
            code = r.number()
            name = _FC.get(code)
            if name is None:
                what, kind = _AFTER_FC.get(code, ("an instruction fc %02x" % code, "unknown"))
                raise Beyond(place, what, REMEDY[kind])
            if code < 8:
                return place, name, None
            if name in ("memory.init", "table.init", "memory.copy", "table.copy"):
                return place, name, (r.number(), r.number())
            return place, name, r.number()
        if op == 0xFD:
            code = r.number()
            raise Beyond(place, _SIMD.get(code, "a vector instruction (fd %02x)" % code), REMEDY["simd"])
        if op == 0xFE:
            code = r.number()
            raise Beyond(place, _ATOMIC.get(code, "an atomic instruction (fe %02x)" % code), REMEDY["threads"])
        if op == 0xFB:
            raise Beyond(place, "an instruction fb %02x" % r.number(), REMEDY["gc"])
        what, kind = _AFTER.get(op, ("an instruction %02x" % op, "unknown"))
        raise Beyond(place, what, REMEDY[kind])
    if op in (0x02, 0x03, 0x04):
        first = r.at
        if r.at < r.end and r.data[r.at] & 0xC0 == 0x40:
            if r.data[r.at] == 0x40:
                r.at += 1
                return place, name, ((), ())
            return place, name, ((), (value_type(r),))
        index = r.signed(33)
        if index < 0:
            raise Malformed(first, "no type of a block")
        return place, name, index
    if op in (0x0C, 0x0D, 0x10, 0x20, 0x21, 0x22, 0x23, 0x24, 0x25, 0x26, 0xD2):
        return place, name, r.number()
    if op == 0x0E:
        return place, name, [r.number() for _ in range(r.count() + 1)]
    if op == 0x11:
        type_index = r.number()
        first = r.at
        table = r.number()
        return place, name, (type_index, table, r.at - first)
    if op == 0x1C:
        return place, name, [value_type(r) for _ in range(r.count())]
    if 0x28 <= op <= 0x3E:
        first, align = r.at, r.number()
        memory = r.number() if align & 64 else 0
        if memory:
            raise Beyond(place, name, REMEDY["memories"])
        if align & ~64 > 3:
            raise Malformed(first, "the alignment is too great")
        first = r.at
        offset = r.number(64)
        if offset >> 32:
            raise Beyond(place, name, REMEDY["memory64"])
        return place, name, (align & ~64, offset)
    if op in (0x3F, 0x40):
        first = r.at
        if r.number():
            raise Beyond(place, name, REMEDY["memories"])
        return place, name, r.at - first
    if op == 0x41:
        return place, name, r.signed(32)
    if op == 0x42:
        return place, name, r.signed(64)
    if op == 0x43:
        return place, name, int.from_bytes(r.bytes(4), "little")
    if op == 0x44:
        return place, name, int.from_bytes(r.bytes(8), "little")
    if op == 0xD0:
        return place, name, value_type(r)
    return place, name, None


OPCODES = {name: code for code, name in _ONE.items()}


class Module:
    """A module's parts. Lists have an entry for each item, with the place where it begins.

    types      [((params), (results))]
    imports    [(place, module, name, kind, what)]; what is a type index, or (type, limits), limits, or (type, changes)
    functions  [type index] of all functions, imported ones first; imported is how many those are
    tables, memories, globals   of the module itself: [(place, type, limits)], [(place, limits)], [(place, type, changes, constant)]
    exports    [(place, name, kind, index)]
    start      an index or None
    elements   [(place, flag, table, offset, [constants])]
    bodies     [(place, end, locals, first)]: locals are runs [(count, type)], first is the place of the first instruction
    data       [(place, flag, memory, offset, bytes)]
    customs    [(place, name, begin, end)]
    sections   [(place, id, begin, end)]
    names      {function index: name}; module_name or None
    """

    def __init__(self, data):
        self.data = data
        self.types, self.imports, self.functions, self.tables, self.memories, self.globals = [], [], [], [], [], []
        self.exports, self.start, self.elements, self.bodies, self.data_segments = [], None, [], [], []
        self.customs, self.sections, self.names, self.module_name = [], [], {}, None
        self.imported = self.imported_globals = self.imported_tables = self.imported_memories = 0
        self.data_count = None
        if data[:4] != b"\0asm":
            raise Malformed(0, "it does not begin with \\0asm: this is no WebAssembly module in binary form")
        if data[4:8] != b"\1\0\0\0":
            if data[4:8] == b"\x0d\0\1\0":
                raise Malformed(4, "it is a component (of the component model), and no core module: build for wasm32-unknown-unknown or wasm32-wasip1")
            raise Malformed(4, "its version is not 1")
        r = Reader(data, 8)
        kinds = []
        while r.more():
            place, kind = r.at, r.byte()
            size = r.number()
            if size > r.end - r.at:
                raise Malformed(r.end, "it ends inside the section %s" % SECTIONS.get(kind, kind))
            self.sections.append((place, kind, r.at, r.at + size))
            r.at += size
        for place, kind, begin, end in self.sections:
            if kind and kind in kinds:
                raise Malformed(place, "the section %s is there twice" % SECTIONS.get(kind, kind))
            kinds.append(kind)
            if kind not in SECTIONS:
                raise Malformed(place, "byte %02x is no section" % kind)
            if kind == 13:
                raise Beyond(place, "a tag section", REMEDY["exceptions"])
            if kind == 14:
                raise Beyond(place, "a string section", REMEDY["gc"])
            inner = Reader(data, begin, end)
            getattr(self, "_" + SECTIONS[kind].replace(" ", "_"))(inner, place)
            if inner.more() and kind:
                raise Malformed(inner.at, "the section %s is longer than what it contains" % SECTIONS[kind])
        if len(self.functions) - self.imported != len(self.bodies):
            raise Malformed(len(data), "there are %d functions and %d bodies" % (len(self.functions) - self.imported, len(self.bodies)))

    def _custom(self, r, place):
        try:
            name = r.name()
        except Malformed:
            return
        self.customs.append((place, name, r.at, r.end))
        if name == "name":
            try:
                self._names(r)
            except Malformed:
                pass

    def _names(self, r):
        while r.more():
            kind, size = r.byte(), r.number()
            part = Reader(r.data, r.at, min(r.at + size, r.end))
            r.at += size
            if kind == 0:
                self.module_name = part.name()
            elif kind == 1:
                for _ in range(part.count()):
                    index = part.number()
                    self.names[index] = part.name()

    def _type(self, r, place):
        for _ in range(r.count()):
            first, form = r.at, r.byte()
            if form != 0x60:
                if form in (0x4E, 0x4F, 0x50, 0x5E, 0x5F):
                    raise Beyond(first, "a type (byte %02x)" % form, REMEDY["gc"])
                raise Malformed(first, "byte %02x is no type of functions" % form)
            params = tuple(value_type(r) for _ in range(r.count()))
            self.types.append((params, tuple(value_type(r) for _ in range(r.count()))))

    def _import(self, r, place):
        for _ in range(r.count()):
            first = r.at
            module, name = r.name(), r.name()
            here, kind = r.at, r.byte()
            if kind == 0:
                what = r.number()
                self.functions.append(what)
                self.imported += 1
            elif kind == 1:
                what = (value_type(r), limits(r, "table"))
                self.imported_tables += 1
            elif kind == 2:
                what = limits(r, "memory")
                self.imported_memories += 1
            elif kind == 3:
                what = (value_type(r), r.byte())
                self.imported_globals += 1
            elif kind == 4:
                raise Beyond(first, "an import of a tag (%s.%s)" % (module, name), REMEDY["exceptions"])
            else:
                raise Malformed(here, "byte %02x is no kind of import" % kind)
            self.imports.append((first, module, name, kind, what))

    def _function(self, r, place):
        for _ in range(r.count()):
            self.functions.append(r.number())

    def _table(self, r, place):
        for _ in range(r.count()):
            first = r.at
            if r.more() and r.data[r.at] == 0x40:
                raise Beyond(first, "a table with an initial value", REMEDY["gc"])
            self.tables.append((first, value_type(r), limits(r, "table")))

    def _memory(self, r, place):
        for _ in range(r.count()):
            self.memories.append((r.at, limits(r, "memory")))

    def _global(self, r, place):
        for _ in range(r.count()):
            first, kind = r.at, value_type(r)
            flag = r.byte()
            if flag > 1:
                raise Beyond(first, "a shared global", REMEDY["threads"])
            self.globals.append((first, kind, flag, constant(r)))

    def _export(self, r, place):
        for _ in range(r.count()):
            first, name = r.at, r.name()
            here, kind = r.at, r.byte()
            if kind > 4:
                raise Malformed(here, "byte %02x is no kind of export" % kind)
            self.exports.append((first, name, kind, r.number()))

    def _start(self, r, place):
        self.start = r.number()

    def _element(self, r, place):
        for _ in range(r.count()):
            first, flag = r.at, r.number()
            if flag > 7:
                raise Malformed(first, "%d is no kind of elements" % flag)
            table, offset = 0, None
            if not flag & 1:
                table = r.number() if flag & 2 else 0
                offset = constant(r)
            if flag & 4:
                if flag & 3:
                    value_type(r)
                items = [constant(r) for _ in range(r.count())]
            else:
                if flag & 3:
                    here = r.at
                    if r.byte():
                        raise Malformed(here, "no kind of elements")
                items = [[(r.at, "ref.func", r.number())] for _ in range(r.count())]
            self.elements.append((first, flag, table, offset, items))

    def _code(self, r, place):
        for _ in range(r.count()):
            first, size = r.at, r.number()
            body = Reader(r.data, r.at, r.at + size)
            r.bytes(size)
            runs = [(body.number(), value_type(body)) for _ in range(body.count())]
            self.bodies.append((first, body.end, runs, body.at))

    def _data(self, r, place):
        for _ in range(r.count()):
            first, flag = r.at, r.number()
            if flag > 2:
                raise Malformed(first, "%d is no kind of data" % flag)
            memory = r.number() if flag == 2 else 0
            offset = constant(r) if flag != 1 else None
            self.data_segments.append((first, flag, memory, offset, r.bytes(r.number())))

    def _data_count(self, r, place):
        self.data_count = r.number()

    def signature(self, index):
        """The type of a function."""
        if index >= len(self.functions):
            raise Malformed(len(self.data), "there is no function %d" % index)
        return self.type_at(self.functions[index])

    def type_at(self, index):
        if index >= len(self.types):
            raise Malformed(len(self.data), "there is no type %d" % index)
        return self.types[index]

    def instructions(self, body):
        """The instructions of a body, the last `end` included."""
        place, end, runs, first = body
        r = Reader(self.data, first, end)
        while r.more():
            yield instruction(r)

    def called(self, index):
        """A function as an author knows it: its number and name."""
        name = self.names.get(index)
        if name is None:
            name = next((n for _, n, kind, i in self.exports if kind == 0 and i == index), None)
            if name is not None:
                return "%d (exported as `%s`)" % (index, name)
            functions = [i for i in self.imports if i[3] == 0]
            if index < len(functions):
                return "%d (import `%s.%s`)" % (index, functions[index][1], functions[index][2])
            return "%d" % index
        return "%d `%s`" % (index, name)
