"""Each float instruction over many random operands, through tools/fit and beside node.

    random_floats.py WASMGATE SEED COUNT

One module has a function for each instruction: it makes COUNT operands (any bits, near 1, subnormal, small whole and half numbers, zeros, edges, near the
powers of two that conversions end at), runs the instruction on them, and gives a hash of all results, where each NaN is the positive canonical one. node runs it on the module as it
is, `wasmgate invoke` on what fit makes of it. A conversion that would trap is passed over, by a comparison with its bounds.

Prints how many instructions agree, and the units of fuel that one turn takes, its operands and hash included, where `--fuel` is the last word. Ends with 1 where one differs.
"""
import os
import struct
import sys
import tempfile

sys.dont_write_bytecode = True
sys.path.insert(0, os.path.dirname(os.path.realpath(__file__)))
from assemble import code, const, function_type, runs_of, sized, u, vector  # noqa: E402
from both import fit, in_node, in_wasmgate  # noqa: E402

EDGES = [0, 1, 0xFFFFFFFFFFFFF, 0x10000000000000, 0x3FDFFFFFFFFFFFFF, 0x3FE0000000000000, 0x3FE0000000000001, 0x3FF0000000000000, 0x7FEFFFFFFFFFFFFF, 0x7FF0000000000000,
         0x7FF8000000000000, 0x4330000000000000, 0x432FFFFFFFFFFFFF, 0x36A0000000000000, 0x3690000000000000, 0x3690000000000001, 0x47EFFFFFE0000000, 0x47EFFFFFF0000000,
         0x380FFFFFFFFFFFFF, 0x3810000000000000, 0x3F8000003F000000, 0x7F7FFFFF7F800000, 0x007FFFFF00800000, 0x000000017FC00000, 0x4B0000004AFFFFFF, 0x3EFFFFFF3F000001,
         0x4F0000005F000000, 0x4F8000005F800000, 0x3FF00000BF800000, 0x4340000000000001, 0x43E0000000000000, 0x43F0000000000000]
BOUNDS = {"i32_s": (-2147483649.0, 2147483648.0), "i32_u": (-1.0, 4294967296.0), "i64_s": (-9223372036854777856.0, 9223372036854775808.0), "i64_u": (-1.0, 18446744073709551616.0)}


def f64(x):
    return struct.unpack("<Q", struct.pack("<d", x))[0]


def f32(x):
    return struct.unpack("<I", struct.pack("<f", x))[0]


NEXT = "global.get 0 i64.const 13 i64.shl global.get 0 i64.xor global.set 0 global.get 0 i64.const 7 i64.shr_u global.get 0 i64.xor global.set 0 " \
       "global.get 0 i64.const 17 i64.shl global.get 0 i64.xor global.set 0 global.get 0 "


def case(wide):
    """The body of a function that gives the bits of an operand."""
    exponent, fraction, low = (52, 0x000FFFFFFFFFFFFF, 1023) if wide else (23, 0x7FFFFF, 127)
    sign = 1 << (63 if wide else 31)
    whole = 0xFFFFFFFFFFFFFFFF if wide else 0xFFFFFFFF
    text = NEXT + "i64.const %d i64.and local.set 0 " % whole + NEXT + "local.set 1 "
    text += "block - block - block - block - block - block - block - local.get 1 i32.wrap_i64 i32.const 7 i32.and local.set 2 "
    for depth, choice in ((0, 1), (1, 2), (2, 3), (3, 4), (4, 5), (5, 6)):
        text += "local.get 2 i32.const %d i32.eq br_if %d " % (choice, depth)
    text += "local.get 0 return end "
    kept = sign | fraction
    text += "local.get 0 i64.const %d i64.and local.get 1 i64.const 8 i64.shr_u i64.const 20 i64.rem_u i64.const %d i64.add i64.const %d i64.shl i64.or return end " % (kept, low - 10, exponent)
    text += "local.get 0 i64.const %d i64.and return end " % kept
    number = "local.get 0 i64.const 4001 i64.rem_u i64.const 2000 i64.sub f64.convert_i64_s f64.const %d f64.mul " % f64(0.25)
    text += number + ("i64.reinterpret_f64" if wide else "f32.demote_f64 i32.reinterpret_f32 i64.extend_i32_u") + " return end "
    text += "local.get 1 i64.const 8 i64.shr_u i64.const %d i64.rem_u i64.const %d i64.mul i32.wrap_i64 %s local.get 0 i64.const %d i64.and i64.xor return end " % (
        len(EDGES) * (1 if wide else 2), 8 if wide else 4, "i64.load 0" if wide else "i32.load 0 i64.extend_i32_u", sign)
    text += "local.get 0 i64.const %d i64.and local.get 1 i64.const 8 i64.shr_u i64.const 37 i64.rem_u i64.const %d i64.add i64.const %d i64.shl i64.or local.get 1 i64.const 16 i64.shr_u i64.const 9 i64.rem_u i64.add i64.const 4 i64.sub return end " % (sign, low + 29, exponent)
    text += "local.get 0 i64.const %d i64.and return end " % sign
    return code(text + "unreachable")


def instructions():
    """(name, kinds of operands, kind of the result)."""
    for k in ("f32", "f64"):
        for name in "add sub mul div min max copysign".split():
            yield k + "." + name, [k, k], k
        for name in "abs neg ceil floor trunc nearest sqrt".split():
            yield k + "." + name, [k], k
        for name in "eq ne lt gt le ge".split():
            yield k + "." + name, [k, k], "i32"
        for i in ("i32", "i64"):
            for sign in "su":
                yield "%s.convert_%s_%s" % (k, i, sign), [i], k
                yield "%s.trunc_sat_%s_%s" % (i, k, sign), [k], i
                yield "%s.trunc_%s_%s" % (i, k, sign), [k], i
    yield "f32.demote_f64", ["f64"], "f32"
    yield "f64.promote_f32", ["f32"], "f64"
    yield "f32.reinterpret_i32", ["i32"], "f32"
    yield "f64.reinterpret_i64", ["i64"], "f64"


# Locals of a function for an instruction: 0 how many, 1 hash, 2 the result's bits, 3 and 4 operands by kind, and so on.
LOCALS = ["i64", "i64", "f32", "f64", "f32", "f64"]
PLACE = {"f32": 3, "f64": 4}


def driver(name, kinds, result):
    head = "loop - "
    if "trunc_f" in name:
        low, high = BOUNDS[name[:3] + name[-2:]]
        k = kinds[0]
        to = f64 if k == "f64" else f32
        # For f32 the bounds are powers of two; the lower one of i32 is then the greatest float below, with <=.
        guard = "local.get %d %s.const %d %s.gt local.get %d %s.const %d %s.lt i32.and if i64 local.get %d %s %s else i64.const 77 end "
        if k == "f32" and low < -1 or low < -1e18:
            low = -2147483648.0 if name[:3] == "i32" else -9223372036854775808.0
            guard = guard.replace("%s.gt", "%s.ge", 1)
        at = PLACE[k]
        body = operand(k, at) + guard % (at, k, to(low), k, at, k, to(high), k, at, name, "i64.extend_i32_u" if result == "i32" else "")
    else:
        body = "".join(operand(k, PLACE.get(k, 0) + 2 * n) if k[0] == "f" else "" for n, k in enumerate(kinds))
        for n, k in enumerate(kinds):
            body += "local.get %d " % (PLACE[k] + 2 * n) if k[0] == "f" else "call 1 i64.const 8 i64.shr_u call 1 i64.xor " + ("i32.wrap_i64 " if k == "i32" else "")
        body += name + " " + bits_of(result, "reinterpret" in name or name.split(".")[1] in ("abs", "neg", "copysign"))
    tail = "local.set 2 local.get 1 i64.const 7 i64.rotl local.get 2 i64.xor i64.const -7046029254386353131 i64.mul local.set 1 " \
           "local.get 0 i32.const 1 i32.sub local.tee 0 br_if 0 end local.get 1"
    return code(head + body + tail)


def operand(kind, at):
    return ("call 1 f64.reinterpret_i64 " if kind == "f64" else "call 0 i32.wrap_i64 f32.reinterpret_i32 ") + "local.set %d " % at


def bits_of(kind, exact):
    """Code that makes 64 bits of a result. Of a NaN the bits are as they are where the instruction keeps them, else the canonical ones."""
    if kind == "i32":
        return "i64.extend_i32_u "
    if kind == "i64":
        return ""
    wide = kind == "f64"
    out = "i64.reinterpret_f64 " if wide else "i32.reinterpret_f32 i64.extend_i32_u "
    if exact:
        return out
    at, sign, inf, quiet = 2, 1 << (63 if wide else 31), 0x7FF0000000000000 if wide else 0x7F800000, 0x7FF8000000000000 if wide else 0x7FC00000
    return out + "local.set %d i64.const %d local.get %d local.get %d i64.const %d i64.and i64.const %d i64.gt_u select " % (at, quiet, at, at, (sign - 1), inf)


def module(seed):
    functions = [(["i64", "i64", "i32"], case(False), [], ["i64"]), (["i64", "i64", "i32"], case(True), [], ["i64"])]
    exports = []
    for name, kinds, result in instructions():
        if name in ("f32.reinterpret_i32", "f64.reinterpret_i64"):
            continue
        exports.append((name, len(functions)))
        functions.append((LOCALS, driver(name, kinds, result), ["i32"], ["i64"]))
    parts = [(1, vector([function_type(p, r) for _, _, p, r in functions])), (3, vector([u(i) for i in range(len(functions))])), (5, b"\1\0\1"),
             (6, b"\1\x7e\1" + const("i64", seed * 2 + 88172645463325253) + b"\x0b"), (7, vector([u(len(n)) + n.encode() + b"\0" + u(i) for n, i in exports])),
             (10, vector([sized(runs_of(l) + c + b"\x0b") for l, c, _, _ in functions])), (11, b"\1\0\x41\0\x0b" + sized(b"".join(struct.pack("<Q", e) for e in EDGES)))]
    return b"\0asm\1\0\0\0" + b"".join(bytes([k]) + sized(v) for k, v in parts), [n for n, _ in exports]


def main():
    gate, seed, count = sys.argv[1], int(sys.argv[2]), int(sys.argv[3])
    data, names = module(seed)
    wrong, used = [], {}
    with tempfile.TemporaryDirectory() as temp:
        path, out = os.path.join(temp, "floats.wasm"), os.path.join(temp, "out.wasm")
        with open(path, "wb") as file:
            file.write(data)
        with open(out, "wb") as file:
            file.write(fit.fitted(data)[0])
        for name, own in zip(names, in_node([(path, name, [("i32", count)]) for name in names])):
            ours, fuel = in_wasmgate(gate, out, name, [("i32", count)])
            used[name] = fuel
            if own != ours or not own.startswith("i64 "):
                wrong.append("%s: node %s, here %s %s" % (name, own, ours, fuel))
    print("random floats: %d passed, %d failed, instructions on %d operands each" % (len(names) - len(wrong), len(wrong), count))
    if "--fuel" in sys.argv:
        print("  units for each turn, operands and hash included: " + ", ".join("%s %d" % (n, f // count) for n, f in used.items() if isinstance(f, int)))
    for line in wrong:
        print("FAIL " + line)
    return 1 if wrong else 0


if __name__ == "__main__":
    sys.exit(main())
