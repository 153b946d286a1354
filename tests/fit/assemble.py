"""Makes WebAssembly modules for the cases of this folder, and adds functions to modules. Knows the binary format by itself, apart from tools/fit."""
import struct

CODES = {"i32": 0x7F, "i64": 0x7E, "f32": 0x7D, "f64": 0x7C}
NAMES = {}
_plain = """00 unreachable 01 nop 05 else 0b end 0f return 1a drop 1b select a7 i32.wrap_i64 ac i64.extend_i32_s ad i64.extend_i32_u
a8 i32.trunc_f32_s a9 i32.trunc_f32_u aa i32.trunc_f64_s ab i32.trunc_f64_u ae i64.trunc_f32_s af i64.trunc_f32_u b0 i64.trunc_f64_s b1 i64.trunc_f64_u
b2 f32.convert_i32_s b3 f32.convert_i32_u b4 f32.convert_i64_s b5 f32.convert_i64_u b6 f32.demote_f64
b7 f64.convert_i32_s b8 f64.convert_i32_u b9 f64.convert_i64_s ba f64.convert_i64_u bb f64.promote_f32
bc i32.reinterpret_f32 bd i64.reinterpret_f64 be f32.reinterpret_i32 bf f64.reinterpret_i64
fc00 i32.trunc_sat_f32_s fc01 i32.trunc_sat_f32_u fc02 i32.trunc_sat_f64_s fc03 i32.trunc_sat_f64_u
fc04 i64.trunc_sat_f32_s fc05 i64.trunc_sat_f32_u fc06 i64.trunc_sat_f64_s fc07 i64.trunc_sat_f64_u
45 i32.eqz 46 i32.eq 47 i32.ne 48 i32.lt_s 49 i32.lt_u 4a i32.gt_s 4b i32.gt_u 4c i32.le_s 4d i32.le_u 4e i32.ge_s 4f i32.ge_u
50 i64.eqz 51 i64.eq 52 i64.ne 53 i64.lt_s 54 i64.lt_u 55 i64.gt_s 56 i64.gt_u 57 i64.le_s 58 i64.le_u 59 i64.ge_s 5a i64.ge_u
5b f32.eq 5c f32.ne 5d f32.lt 5e f32.gt 5f f32.le 60 f32.ge 61 f64.eq 62 f64.ne 63 f64.lt 64 f64.gt 65 f64.le 66 f64.ge
6a i32.add 6b i32.sub 6c i32.mul 70 i32.rem_u 71 i32.and 72 i32.or 73 i32.xor 74 i32.shl 76 i32.shr_u
7c i64.add 7d i64.sub 7e i64.mul 82 i64.rem_u 83 i64.and 84 i64.or 85 i64.xor 86 i64.shl 88 i64.shr_u 89 i64.rotl
8b f32.abs 8c f32.neg 8d f32.ceil 8e f32.floor 8f f32.trunc 90 f32.nearest 91 f32.sqrt 92 f32.add 93 f32.sub 94 f32.mul 95 f32.div 96 f32.min 97 f32.max 98 f32.copysign
99 f64.abs 9a f64.neg 9b f64.ceil 9c f64.floor 9d f64.trunc 9e f64.nearest 9f f64.sqrt a0 f64.add a1 f64.sub a2 f64.mul a3 f64.div a4 f64.min a5 f64.max a6 f64.copysign
d1 ref.is_null""".split()
for _code, _name in zip(_plain[::2], _plain[1::2]):
    NAMES[_name] = bytes.fromhex(_code)
_index = {"br": 0x0C, "br_if": 0x0D, "call": 0x10, "local.get": 0x20, "local.set": 0x21, "local.tee": 0x22, "global.get": 0x23, "global.set": 0x24}
_memory = {"i32.load": (0x28, 2), "i64.load": (0x29, 3), "f32.load": (0x2A, 2), "f64.load": (0x2B, 3), "i32.store": (0x36, 2), "i64.store": (0x37, 3),
           "f32.store": (0x38, 2), "f64.store": (0x39, 3), "i64.load8_u": (0x31, 0)}


def u(value):
    out = bytearray()
    while value > 127:
        out.append(value & 127 | 128)
        value >>= 7
    return bytes(out + bytes([value]))


def s(value):
    out = bytearray()
    while not -64 <= value < 64:
        out.append(value & 127 | 128)
        value >>= 7
    return bytes(out + bytes([value & 127]))


def const(kind, bits):
    """A constant of these bits."""
    if kind == "f32":
        return b"\x43" + struct.pack("<I", bits)
    if kind == "f64":
        return b"\x44" + struct.pack("<Q", bits)
    width = int(kind[1:])
    return (b"\x41" if kind == "i32" else b"\x42") + s(bits - (1 << width) if bits >> (width - 1) & 1 else bits)


def code(text):
    """The bytes of instructions, in words: `local.get 0 i32.const 5 i32.add`. After a block comes `-` or a type."""
    words, out = iter(text.split()), bytearray()
    for word in words:
        if word in NAMES:
            out += NAMES[word]
        elif word in _index:
            out += bytes([_index[word]]) + u(int(next(words)))
        elif word in _memory:
            op, align = _memory[word]
            out += bytes([op]) + u(align) + u(int(next(words)))
        elif word in ("block", "loop", "if"):
            kind = next(words)
            out += {"block": b"\2", "loop": b"\3", "if": b"\4"}[word] + (b"\x40" if kind == "-" else bytes([CODES[kind]]))
        elif word in ("i32.const", "i64.const"):
            value = int(next(words), 0)
            out += const(word[:3], value & ((1 << int(word[1:3])) - 1))
        elif word in ("f32.const", "f64.const"):
            out += const(word[:3], int(next(words), 0))
        else:
            raise ValueError(word)
    return bytes(out)


def vector(entries):
    return u(len(entries)) + b"".join(entries)


def function_type(params, results):
    return b"\x60" + vector([bytes([CODES[t]]) for t in params]) + vector([bytes([CODES[t]]) for t in results])


def runs_of(kinds):
    return vector([b"\1" + bytes([CODES[k]]) for k in kinds])


def module(functions, pages=0, more=()):
    """A module of functions (name or None, params, results, locals, bytes of code), with an entry (section id, bytes) for each further section."""
    types = [function_type(p, r) for _, p, r, _, _ in functions]
    parts = {1: vector(types), 3: vector([u(i) for i in range(len(functions))]),
             7: vector([u(len(n)) + n.encode() + b"\0" + u(i) for i, (n, _, _, _, _) in enumerate(functions) if n]),
             10: vector([sized(runs_of(l) + c + b"\x0b") for _, _, _, l, c in functions])}
    if pages:
        parts[5] = b"\1\0" + u(pages)
    parts.update(dict(more))
    return b"\0asm\1\0\0\0" + b"".join(bytes([k]) + sized(v) for k, v in sorted(parts.items()))


def sized(content):
    return u(len(content)) + content


def sections(data):
    """[(id, content)] of a module."""
    at, out = 8, []
    while at < len(data):
        kind, at = data[at], at + 1
        size = shift = 0
        while True:
            b, at = data[at], at + 1
            size |= (b & 127) << shift
            shift += 7
            if b < 128:
                break
        out.append((kind, data[at : at + size]))
        at += size
    return out


def counted(content):
    """The count of a vector, and what comes after it."""
    value = shift = at = 0
    while True:
        b, at = content[at], at + 1
        value |= (b & 127) << shift
        shift += 7
        if b < 128:
            return value, content[at:]


def with_function(data, functions_before, name, results, locals_, body):
    """A module with one more function without parameters, exported by a name. functions_before counts its functions, imports included."""
    parts = sections(data)
    by_id = {k: v for k, v in parts if k}
    types, rest = counted(by_id.get(1, b"\0"))
    by_id[1] = u(types + 1) + rest + function_type((), results)
    n, rest = counted(by_id.get(3, b"\0"))
    by_id[3] = u(n + 1) + rest + u(types)
    n, rest = counted(by_id.get(7, b"\0"))
    by_id[7] = u(n + 1) + rest + u(len(name)) + name.encode() + b"\0" + u(functions_before)
    n, rest = counted(by_id.get(10, b"\0"))
    by_id[10] = u(n + 1) + rest + sized(runs_of(locals_) + body + b"\x0b")
    order = [1, 2, 3, 4, 5, 13, 6, 7, 8, 9, 12, 10, 11]
    return b"\0asm\1\0\0\0" + b"".join(bytes([k]) + sized(by_id[k]) for k in order if k in by_id)
