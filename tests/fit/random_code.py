"""Random modules through tools/fit, compared with node.

    random_code.py WASMGATE SEED COUNT

Each module has functions of several parameters and results of all four types, blocks, loops and conditions that take and give several values, jumps of each kind out
of them (also in code that is not reached), calls, calls through a table whose types may be other ones, globals, memory, and float instructions. Its exported functions
run in node on the module as it is, and in `wasmgate invoke` on what fit makes of it. A NaN is made the positive canonical one before anything looks at its bits, on both sides.

Prints how many calls are equal, trapped on both sides, ran out of fuel or frames here (not compared) or differ, and the seeds that differ. Ends with 1 where one does.
"""
import os
import random
import sys
import tempfile
from collections import Counter

sys.dont_write_bytecode = True
sys.path.insert(0, os.path.dirname(os.path.realpath(__file__)))
from assemble import CODES, code, const, function_type, runs_of, s, sized, u, vector  # noqa: E402
from both import fit, in_node, in_wasmgate  # noqa: E402

KINDS = ["i32", "i64", "f32", "f64"]
BINARY = {
    "i32": "i32.add i32.sub i32.mul i32.and i32.or i32.xor i32.shl i32.shr_u".split(),
    "i64": "i64.add i64.sub i64.mul i64.and i64.or i64.xor i64.shl i64.shr_u i64.rotl".split(),
    "f32": "f32.add f32.sub f32.mul f32.div f32.min f32.max f32.copysign".split(),
    "f64": "f64.add f64.sub f64.mul f64.div f64.min f64.max f64.copysign".split(),
}
UNARY = {
    "i32": "i32.eqz i32.wrap_i64:i64 i32.trunc_sat_f32_s:f32 i32.trunc_sat_f64_u:f64 i64.eqz:i64 i32.trunc_f64_s:f64".split(),
    "i64": "i64.extend_i32_s:i32 i64.extend_i32_u:i32 i64.trunc_sat_f64_s:f64 i64.trunc_sat_f32_u:f32 i64.trunc_f32_s:f32".split(),
    "f32": "f32.abs f32.neg f32.ceil f32.floor f32.trunc f32.nearest f32.sqrt f32.convert_i32_s:i32 f32.convert_i64_u:i64 f32.convert_i64_s:i64 f32.demote_f64:f64 f32.reinterpret_i32:i32".split(),
    "f64": "f64.abs f64.neg f64.ceil f64.floor f64.trunc f64.nearest f64.sqrt f64.convert_i32_u:i32 f64.convert_i64_u:i64 f64.convert_i64_s:i64 f64.promote_f32:f32 f64.reinterpret_i64:i64".split(),
}
COMPARE = [k + "." + o for k in ("f32", "f64") for o in "eq ne lt gt le ge".split()] + [k + "." + o for k in ("i32", "i64") for o in "eq ne lt_s lt_u ge_s".split()]
NUMBERS = {
    "i32": [0, 1, 2, 7, 0x7FFFFFFF, 0x80000000, 0xFFFFFFFF, 0x4B000001],
    "i64": [0, 1, 3, 0x7FFFFFFFFFFFFFFF, 0x8000000000000000, 0xFFFFFFFFFFFFFFFF, 0x20000000000001, 0xFFFFFF8000000001],
    "f32": [0, 0x80000000, 0x3F800000, 0x3F000000, 0xBFC00000, 0x7F800000, 0xFF800000, 0x7FC00000, 1, 0x4F000000, 0x5F000000, 0x42280000, 0x7F7FFFFF],
    "f64": [0, 1 << 63, 0x3FF0000000000000, 0xBFE0000000000000, 0x7FF0000000000000, 0x7FF8000000000000, 1, 0x41E0000000000000, 0x43E0000000000000, 0x4045000000000000, 0x36A0000000000001],
}
DEPTH = 4


class Maker:
    def __init__(self, seed):
        self.r = random.Random(seed)
        self.types = []
        self.functions = []  # (params, results)
        for _ in range(self.r.randint(3, 6)):
            self.functions.append((self.some(0, 3), self.some(0, 3)))
        self.functions.append((["i32", "i64", "f32", "f64"], [self.r.choice(["i32", "i64"])]))
        # Twins of the functions with floats in place of integers or the other way: calls through the table tell them apart.
        p, r_ = self.functions[0]
        swap = {"i32": "f32", "f32": "i32", "i64": "f64", "f64": "i64"}
        self.functions.insert(0, ([swap[k] for k in p], [swap[k] for k in r_]))
        self.globals = [self.r.choice(KINDS) for _ in range(3)]

    def some(self, least, most):
        return [self.r.choice(KINDS) for _ in range(self.r.randint(least, most))]

    def type_index(self, params, results):
        key = (tuple(params), tuple(results))
        if key not in self.types:
            self.types.append(key)
        return self.types.index(key)

    def canonical(self, kind):
        """Code that makes of a NaN on the stack the positive canonical one, by a local of the kind."""
        if kind[0] == "i":
            return b""
        at = self.scratch[kind]
        quiet = 0x7FC00000 if kind == "f32" else 0x7FF8000000000000
        return code("local.tee %d" % at) + const(kind, quiet) + code("local.get %d local.get %d %s.eq select" % (at, at, kind))

    def value(self, kind, depth):
        """Code that gives a value."""
        r = self.r
        choice = r.randint(0, 11)
        if depth <= 0 or choice <= 1:
            locals_ = [i for i, k in enumerate(self.locals) if k == kind]
            globals_ = [i for i, k in enumerate(self.globals) if k == kind]
            if locals_ and r.random() < 0.6:
                return code("local.get %d" % r.choice(locals_))
            if globals_ and r.random() < 0.5:
                return code("global.get %d" % r.choice(globals_))
            return const(kind, r.choice(NUMBERS[kind]))
        if choice <= 4:
            return self.value(kind, depth - 1) + self.value(kind, depth - 1) + code(r.choice(BINARY[kind])) + self.canonical(kind)
        if choice <= 6:
            name = r.choice(UNARY[kind])
            name, _, of = name.partition(":")
            return self.value(of or kind, depth - 1) + code(name) + self.canonical(kind)
        if choice == 7 and kind == "i32":
            name = r.choice(COMPARE)
            return self.value(name[:3], depth - 1) + self.value(name[:3], depth - 1) + code(name)
        if choice == 7 and kind == "i64":
            return self.value("f64", depth - 1) + code("i64.reinterpret_f64")
        if choice == 8:
            return self.value(kind, depth - 1) + self.value(kind, depth - 1) + self.value("i32", depth - 1) + \
                (code("select") if r.random() < 0.5 else b"\x1c\1" + bytes([CODES[kind]]))
        if choice == 9:
            return self.value("i32", depth - 1) + code("i32.const 1020 i32.and") + code("%s.load %d" % (kind, r.choice([0, 8, 512]))) + self.canonical(kind)
        return self.block([], [kind], depth - 1)

    def values(self, kinds, depth):
        return b"".join(self.value(k, depth) for k in kinds)

    def drops(self, kinds):
        return code("drop ") * len(kinds)

    def settle(self, kinds):
        """Takes values from the stack into locals or drops them."""
        out = b""
        for kind in reversed(kinds):
            at = [i for i, k in enumerate(self.locals) if k == kind]
            out += code("local.set %d" % self.r.choice(at)) if at and self.r.random() < 0.6 else code("drop")
        return out

    def block(self, params, results, depth):
        """Code of a block that gives results; its params come first."""
        r = self.r
        before = self.values(params, min(depth, 1)) if params else b""
        if r.random() < 0.6:
            more = self.some(0, 2)
            before += self.values(more, min(depth, 1))
            params = params + more
        kind = r.choice(["block", "block", "loop", "if"])
        shape = b"\x40" if not params and not results else bytes([CODES[results[0]]]) if not params and len(results) == 1 and r.random() < 0.7 else s(self.type_index(params, results))
        if kind == "if":
            before += self.value("i32", min(depth, 1))
        self.labels.insert(0, (params if kind == "loop" else results, kind == "loop"))
        inner = self.settle(params) + self.statements(r.randint(0, 2), depth - 1) + self.end_with(results, depth - 1)
        if kind == "if":
            inner += b"\5" + self.settle(params) + self.statements(r.randint(0, 1), depth - 1) + self.end_with(results, depth - 1)
        self.labels.pop(0)
        return before + {"block": b"\2", "loop": b"\3", "if": b"\4"}[kind] + shape + inner + b"\x0b"

    def end_with(self, results, depth):
        """The last values of a block: given, or left out after a jump."""
        r = self.r
        if r.random() < 0.15:
            jump = self.jump(depth, False)
            if jump:
                return jump + (self.values(results, 1) if r.random() < 0.5 else b"")
        return self.values(results, depth)

    def forward(self):
        return [i for i, (_, loop) in enumerate(self.labels) if not loop]

    def jump(self, depth, conditional):
        r = self.r
        choices = self.forward()
        target = r.choice(choices)
        kinds = self.labels[target][0]
        if conditional:
            return self.values(kinds, min(depth, 2)) + self.value("i32", min(depth, 1)) + code("br_if %d" % target) + self.settle(kinds)
        same = [i for i in choices if self.labels[i][0] == kinds]
        choice = r.randint(0, 3)
        if choice == 0:
            return self.values(self.results, min(depth, 2)) + code("return")
        if choice == 1:
            return self.values(kinds, min(depth, 2)) + code("br %d" % target)
        table = [r.choice(same) for _ in range(r.randint(0, 3))] + [target]
        return self.values(kinds, min(depth, 2)) + self.value("i32", min(depth, 1)) + b"\x0e" + u(len(table) - 1) + b"".join(map(u, table))

    def back(self, depth):
        """A jump to a loop, as long as a counter lasts."""
        loops = [i for i, (_, loop) in enumerate(self.labels) if loop]
        if not loops:
            return b""
        target = self.r.choice(loops)
        kinds = self.labels[target][0]
        count = self.counter
        return code("local.get %d i32.const 1 i32.sub local.tee %d i32.const 0 i32.gt_s if -" % (count, count)) + self.values_in_if(kinds, target) + code("end")

    def values_in_if(self, kinds, target):
        self.labels.insert(0, ([], False))
        out = self.values(kinds, 1) + code("br %d" % (target + 1))
        self.labels.pop(0)
        return out

    def statements(self, count, depth):
        r, out = self.r, b""
        if depth <= 0:
            return out
        for _ in range(count):
            choice = r.randint(0, 8)
            if choice <= 1:
                at = r.randrange(len(self.locals))
                out += self.value(self.locals[at], depth) + code("local.set %d" % at)
            elif choice == 2:
                at = r.randrange(len(self.globals))
                out += self.value(self.globals[at], depth) + code("global.set %d" % at)
            elif choice == 3:
                kind = r.choice(KINDS)
                out += self.value("i32", 1) + code("i32.const 1020 i32.and") + self.value(kind, depth - 1) + code("%s.store %d" % (kind, r.choice([0, 8, 512])))
            elif choice == 4:
                results = self.some(0, 3)
                out += self.block([], results, depth - 1) + self.settle(results)
            elif choice == 5:
                out += self.jump(depth - 1, True)
            elif choice == 6:
                out += self.back(depth - 1)
            elif choice == 7 and self.index:
                callee = r.randrange(self.index)
                params, results = self.functions[callee]
                out += self.values(params, 1) + b"\x10" + u(callee) + self.settle(results)
            elif choice == 8 and self.index:
                callee = r.randrange(self.index)
                params, results = self.functions[callee]
                place = 1 - callee if callee < 2 <= self.index and r.random() < 0.3 else callee if r.random() < 0.95 else r.randrange(self.index)
                out += self.values(params, 1) + const("i32", place) + b"\x11" + u(self.type_index(params, results)) + b"\0" + self.settle(results)
        return out

    def function(self, index):
        params, self.results = self.functions[index]
        self.index = index
        own = self.some(1, 4) + KINDS
        self.locals = params + own
        more = {k: len(self.locals) + i for i, k in enumerate(["f32", "f64"])}
        self.scratch, self.counter = more, len(self.locals) + 2
        self.labels = [(self.results, False)]
        body = code("i32.const 5 local.set %d" % self.counter)
        body += self.statements(self.r.randint(2, 5), DEPTH)
        if self.is_called(index):
            body += self.mixed(self.results[0])
        else:
            body += self.end_with(self.results, DEPTH)
        return runs_of(own + ["f32", "f64", "i32"]) + body + b"\x0b"

    def is_called(self, index):
        """Whether a function is exported and called: one that gives one integer."""
        return len(self.functions[index][1]) == 1 and self.functions[index][1][0][0] == "i"

    def mixed(self, kind):
        """Code that makes of all locals and globals one value."""
        out = code("i64.const 0")
        to = {"i32": "i64.extend_i32_u", "i64": "", "f32": "i32.reinterpret_f32 i64.extend_i32_u", "f64": "i64.reinterpret_f64"}
        for name, kinds in (("local", self.locals), ("global", self.globals)):
            for at, k in enumerate(kinds):
                out += code("i64.const 9 i64.rotl %s.get %d %s i64.xor i64.const 31 i64.mul" % (name, at, to[k]))
        return out + (code("i32.wrap_i64") if kind == "i32" else b"")

    def module(self):
        bodies = [self.function(i) for i in range(len(self.functions))]
        indices = [self.type_index(*f) for f in self.functions]
        exports = [u(1) + chr(97 + i).encode() + b"\0" + u(i) for i in range(len(self.functions)) if self.is_called(i)]
        parts = [(1, vector([function_type(*t) for t in self.types])), (3, vector([u(i) for i in indices])), (4, b"\1\x70\0" + u(len(bodies) + 2)), (5, b"\1\0\1"),
                 (6, vector([bytes([CODES[k], 1]) + const(k, self.r.choice(NUMBERS[k])) + b"\x0b" for k in self.globals])), (7, vector(exports)),
                 (9, b"\1\0\x41\0\x0b" + vector([u(i) for i in range(len(bodies))])), (10, vector([sized(b) for b in bodies]))]
        return b"\0asm\1\0\0\0" + b"".join(bytes([k]) + sized(v) for k, v in parts)

    def calls(self):
        for i, (params, results) in enumerate(self.functions):
            if self.is_called(i):
                for _ in range(2):
                    yield chr(97 + i), [(k, self.r.choice(NUMBERS[k])) for k in params]


def main():
    gate, seed, count = sys.argv[1], int(sys.argv[2]), int(sys.argv[3])
    found, wrong, calls = Counter(), [], []
    with tempfile.TemporaryDirectory() as temp:
        for at in range(seed, seed + count):
            maker = Maker(at)
            data = maker.module()
            path, out = os.path.join(temp, "%d.wasm" % at), os.path.join(temp, "%d.out.wasm" % at)
            with open(path, "wb") as file:
                file.write(data)
            try:
                made = fit.fitted(data)[0]
            except fit.Refused as r:
                wrong.append("seed %d: refused: %s" % (at, r.faults[0]))
                continue
            with open(out, "wb") as file:
                file.write(made)
            calls += [(at, path, out, name, args) for name, args in maker.calls()]
        answers = in_node([(path, name, args) for _, path, _, name, args in calls])
        for (at, path, out, name, args), own in zip(calls, answers):
            ours, more = in_wasmgate(gate, out, name, args)
            if isinstance(more, str) and more.split()[-1] in ("fuel", "stack"):
                found["out of fuel or frames"] += 1
            elif own == ours:
                found["trapped" if own == "trap" else "equal"] += 1
            else:
                found["differ"] += 1
                wrong.append("seed %d: %s %s: node %s, here %s %s" % (at, name, args, own, ours, more))
    print("random code: %d passed, %d failed, calls of %d modules: %s" % (found["equal"] + found["trapped"], len(wrong), count, ", ".join("%s %d" % pair for pair in sorted(found.items()))))
    for line in wrong[:20]:
        print("FAIL " + line)
    return 1 if wrong else 0


if __name__ == "__main__":
    sys.exit(main())
