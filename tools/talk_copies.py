"""Copies of a WebAssembly module that tell what the module does, for `tools/talk calls`, `fuel` and `test`.

    watched(module, vm)           a copy that writes a record to the log for each host call and each callback, with the VM's number, 0 to 15
    slowed(module, name, rounds)  a copy whose callback `name` uses more fuel, by `units_of(rounds, parameters)`
    record_of(text)               the record in a line of the log, or None

A copy has the module's own code. Calls of imports go through a function that makes the call and then writes the record; exported callbacks are called by
one too. A record is eight bytes: it stands at place 0 of the memory while it is written, and what stood there is put back. So a copy does what the module
does, but for its fuel (docs/WEBASSEMBLY.md, "Runs") and the lines of its log. Modules outside the profile of docs/WEBASSEMBLY.md are no concern of this
file: the program refuses them. Python 3.9 or later, nothing else.
"""
import collections

I32, I64 = 0x7F, 0x7E
# The first bytes of a record: no UTF-8 begins so.
MAGIC = b"\xf5TK"
CALLED, ENTERED, LEFT = 1, 2, 3
LOG_TYPE = (bytes([I32, I32, I32]), bytes([I32]))
# A callback that is none of an exchange or of a root, whose host calls are answered 10.
ALLOCATORS = ("malloc", "proxy_on_memory_allocate")

Record = collections.namedtuple("Record", "vm kind index value")
Name = collections.namedtuple("Name", "text gives")


class Malformed(Exception):
    """The bytes are no module of the profile, or one of which no copy is made."""


class Reader:
    """Bytes with a place in them."""

    def __init__(self, data, at=0):
        self.data, self.at = data, at

    def byte(self):
        if self.at >= len(self.data):
            raise Malformed("the module ends inside an item")
        self.at += 1
        return self.data[self.at - 1]

    def take(self, size):
        if self.at + size > len(self.data):
            raise Malformed("the module ends inside an item")
        self.at += size
        return self.data[self.at - size : self.at]

    def number(self):
        """A number in LEB128 without a sign."""
        value = shift = 0
        while True:
            byte = self.byte()
            value |= (byte & 0x7F) << shift
            shift += 7
            if byte < 0x80:
                return value

    def skip_number(self):
        while self.byte() >= 0x80:
            pass

    def text(self):
        return self.take(self.number())

    def is_done(self):
        return self.at >= len(self.data)


def number(value):
    """A number in LEB128 without a sign."""
    out = bytearray()
    while value >= 0x80:
        out.append(value & 0x7F | 0x80)
        value >>= 7
    out.append(value)
    return bytes(out)


def signed(value):
    """A number in LEB128 with a sign."""
    out = bytearray()
    while not -64 <= value < 64:
        out.append(value & 0x7F | 0x80)
        value >>= 7
    out.append(value & 0x7F)
    return bytes(out)


def vector(items):
    return number(len(items)) + b"".join(items)


def sized(data):
    return number(len(data)) + data


class Module:
    """The parts of a module that a copy changes; the others as they stand, by the number of their section."""

    def __init__(self, data):
        if data[:8] != b"\0asm\1\0\0\0":
            raise Malformed("no module of WebAssembly 1.0")
        reader, self.sections = Reader(data, 8), {}
        while not reader.is_done():
            which, content = reader.byte(), reader.text()
            if which:
                self.sections[which] = content
        self.types = self.read(1, self.one_type)
        self.imports = self.read(2, self.one_import)
        self.functions = self.read(3, Reader.number)
        self.exports = self.read(7, self.one_export)
        self.elements = self.read(9, self.one_element)
        self.codes = self.read(10, Reader.text)
        if any(kind != 0 for _, _, kind, _ in self.imports):
            raise Malformed("an import is no function")

    def read(self, which, item):
        if which not in self.sections:
            return []
        reader = Reader(self.sections[which])
        return [item(reader) for _ in range(reader.number())]

    @staticmethod
    def one_type(reader):
        reader.byte()
        return reader.text(), reader.text()

    @staticmethod
    def one_import(reader):
        module, name, kind = reader.text(), reader.text(), reader.byte()
        if kind != 0:
            raise Malformed("an import is no function")
        return module, name, kind, reader.number()

    @staticmethod
    def one_export(reader):
        return [reader.text(), reader.byte(), reader.number()]

    @staticmethod
    def one_element(reader):
        table, begin = reader.number(), reader.at
        while True:
            opcode = reader.byte()
            if opcode == 0x0B:
                break
            reader.skip_number()
        return table, reader.data[begin : reader.at], [reader.number() for _ in range(reader.number())]

    def type_of(self, function):
        """The parameters and results of a function by its index."""
        if function < len(self.imports):
            return self.types[self.imports[function][3]]
        return self.types[self.functions[function - len(self.imports)]]

    def callbacks(self):
        """The exported functions that the host calls, but for allocators: name and index."""
        return [
            (name.decode(), index)
            for name, kind, index in self.exports
            if kind == 0 and (name.startswith(b"proxy_on_") or name in (b"_initialize", b"_start")) and name.decode() not in ALLOCATORS
        ]


def renumbered(body, new):
    """A function's body (locals and code) in which each called function `f` is `new(f)`."""
    reader = Reader(body)
    for _ in range(reader.number()):
        reader.skip_number()
        reader.byte()
    out, kept = bytearray(), 0
    while not reader.is_done():
        opcode = reader.byte()
        if opcode in (0x02, 0x03, 0x04, 0x3F, 0x40):
            reader.byte()
        elif opcode in (0x0C, 0x0D, 0x20, 0x21, 0x22, 0x23, 0x24, 0x41, 0x42):
            reader.skip_number()
        elif opcode == 0x0E:
            for _ in range(reader.number() + 1):
                reader.skip_number()
        elif opcode == 0x11 or 0x28 <= opcode <= 0x3E:
            reader.skip_number()
            reader.skip_number()
        elif opcode == 0xFC:
            reader.take({10: 2, 11: 1}.get(reader.number(), 0))
        elif opcode == 0x10:
            out += body[kept : reader.at]
            out += number(new(reader.number()))
            kept = reader.at
    return bytes(out + body[kept:])


def gets(count):
    """The first locals, one after the other."""
    return b"".join(b"\x20" + number(local) for local in range(count))


def function(locals_, code):
    """A function's body of its locals' types and its code."""
    return vector([b"\x01" + bytes([it]) for it in locals_]) + code + b"\x0b"


def written(module, types, imports, functions, exports, elements, codes, start):
    """The bytes of a module with parts in the place of its own."""
    sections = dict(module.sections)
    sections[1] = vector([b"\x60" + sized(takes) + sized(gives) for takes, gives in types])
    if imports:
        sections[2] = vector([sized(where) + sized(name) + bytes([kind]) + number(index) for where, name, kind, index in imports])
    sections[3] = vector([number(it) for it in functions])
    sections[7] = vector([sized(name) + bytes([kind]) + number(index) for name, kind, index in exports])
    if elements:
        sections[9] = vector([number(table) + offset + vector([number(it) for it in entries]) for table, offset, entries in elements])
    sections[10] = vector([sized(code) for code in codes])
    if start is not None:
        sections[8] = number(start)
    return b"\0asm\1\0\0\0" + b"".join(bytes([which]) + sized(sections[which]) for which in sorted(sections))


def watched(data, vm=0):
    """A copy that records; and the imports and callbacks by the numbers that its records have: the name, and whether it gives a number."""
    module = Module(data)
    types, imports = list(module.types), list(module.imports)
    log_type = types.index(LOG_TYPE) if LOG_TYPE in types else len(types)
    if log_type == len(types):
        types.append(LOG_TYPE)
    found = [at for at, (where, name, _, _) in enumerate(imports) if (where, name) == (b"env", b"proxy_log") and module.type_of(at) == LOG_TYPE]
    before = len(imports)
    if found:
        log = found[0]
    else:
        log = before
        imports.append((b"env", b"proxy_log", 0, log_type))
    moved = len(imports) - before
    first = len(imports) + len(module.functions)

    def record(kind, index, value, saved):
        """Writes a record, whose value is the local `value` or none, with the local `saved` for what stands at place 0."""
        base = int.from_bytes(MAGIC + bytes([vm << 4 | kind]) + index.to_bytes(2, "little") + b"\0\0", "little")
        code = b"\x41\0\x29\0\0\x21" + number(saved) + b"\x41\0\x42" + signed(base)
        if value is not None:
            code += b"\x20" + number(value) + b"\xad\x42" + signed(0xFFFF) + b"\x83\x42\x30\x86\x84"
        return code + b"\x37\0\0\x41\x05\x41\0\x41\x08\x10" + number(log) + b"\x1a\x41\0\x20" + number(saved) + b"\x37\0\0"

    functions, codes = list(module.functions), []
    # Of each import, the function that calls and records.
    through, bodies = {}, []
    for at in range(before):
        takes, gives = module.type_of(at)
        through[at] = first + len(bodies)
        answer = len(takes) if gives == bytes([I32]) else None
        saved = len(takes) + len(gives)
        code = gets(len(takes)) + b"\x10" + number(at)
        code += (b"\x21" + number(len(takes)) if gives else b"") + record(CALLED, at, answer, saved)
        code += b"\x20" + number(len(takes)) if gives else b""
        functions.append(imports[at][3])
        bodies.append(function(list(gives) + [I64], code))

    def new(index):
        return through[index] if index < before else index + moved

    exports = [[name, kind, new(index) if kind == 0 else index] for name, kind, index in module.exports]
    names = module.callbacks()
    for at, (name, index) in enumerate(names):
        takes, gives = module.type_of(index)
        answer = len(takes) if gives == bytes([I32]) else None
        saved = len(takes) + len(gives)
        code = record(ENTERED, at, 0 if takes[:1] == bytes([I32]) else None, saved) + gets(len(takes)) + b"\x10" + number(new(index))
        code += (b"\x21" + number(len(takes)) if gives else b"") + record(LEFT, at, answer, saved)
        code += b"\x20" + number(len(takes)) if gives else b""
        place = next(it for it in exports if it[0] == name.encode())
        place[2] = first + len(bodies)
        functions.append(imports[index][3] if index < before else module.functions[index - before])
        bodies.append(function(list(gives) + [I64], code))
    codes = [renumbered(code, new) for code in module.codes] + bodies
    elements = [(table, offset, [new(it) for it in entries]) for table, offset, entries in module.elements]
    start = new(Reader(module.sections[8]).number()) if 8 in module.sections else None
    if 5 not in module.sections:
        module.sections[5] = b"\x01\x00\x01"
    elif Reader(module.sections[5][2:]).number() == 0:
        raise Malformed("the memory begins without a page")
    copy = written(module, types, imports, functions, exports, elements, codes, start)
    calls = [Name(name[1].decode(), bool(module.type_of(at)[1])) for at, name in enumerate(module.imports)]
    return copy, calls, [Name(name, bool(module.type_of(index)[1])) for name, index in names]


def slowed(data, callback, rounds):
    """A copy whose callback first goes round a loop. `units_of` says what that takes."""
    module = Module(data)
    index = dict(module.callbacks())[callback]
    takes, _ = module.type_of(index)
    turns = len(takes)
    code = b"\x41" + signed(rounds - (1 << 32) if rounds >= 1 << 31 else rounds) + b"\x21" + number(turns)
    code += b"\x03\x40\x20" + number(turns) + b"\x41\x01\x6b\x22" + number(turns) + b"\x0d\x00\x0b"
    code += gets(len(takes)) + b"\x10" + number(index)
    last = len(module.imports) + len(module.functions)
    exports = [[name, kind, last if name == callback.encode() else at] for name, kind, at in module.exports]
    kind = module.imports[index][3] if index < len(module.imports) else module.functions[index - len(module.imports)]
    start = Reader(module.sections[8]).number() if 8 in module.sections else None
    copy = written(
        module, module.types, module.imports, module.functions + [kind], exports, module.elements, module.codes + [function([I32], code)], start
    )
    return copy, units_of(rounds, len(takes))


def units_of(rounds, parameters):
    """The units of fuel that a slowed callback takes besides its own: `i32.const` and `local.set`; in each round `loop`, `local.get`, `i32.const`,
    `i32.sub`, `local.tee` and `br_if`; then the parameters and the call."""
    return 2 + 6 * rounds + parameters + 1


def record_of(text):
    """The record in the bytes of a line of the log, or None."""
    if len(text) != 8 or not text.startswith(MAGIC):
        return None
    return Record(text[3] >> 4, text[3] & 15, int.from_bytes(text[4:6], "little"), int.from_bytes(text[6:8], "little"))
