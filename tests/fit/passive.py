"""memory.init and data.drop through tools/fit, beside node: passive data of several lengths, whole and in parts, within its ends and past them.

    passive.py WASMGATE

Prints how many calls are equal. Ends with 1 where one is not.
"""
import os
import random
import sys
import tempfile

sys.dont_write_bytecode = True
sys.path.insert(0, os.path.dirname(os.path.realpath(__file__)))
from assemble import code, function_type, runs_of, sized, u, vector  # noqa: E402
from both import fit, in_node, in_wasmgate  # noqa: E402

# Fills a page with 85s, copies, drops where `twice` says, and then sums 64 KiB.
SUM = "loop - local.get 4 i64.const 31 i64.mul local.get 5 i64.load8_u 0 i64.add local.set 4 local.get 5 i32.const %d i32.add local.tee 5 i32.const 65528 i32.lt_u br_if 0 end local.get 4"


def module(content, active):
    init = code("local.get 0 local.get 1 local.get 2") + b"\xfc\x08\0\0"
    body = b"\x41\0\x41\xd5\0\x41\x80\x80\4\xfc\x0b\0" + init
    body += code("local.get 3 if -") + b"\xfc\x09\0" + init + code("end")
    body += code(SUM % (1 if len(content) < 3000 else 7))
    segment = (b"\0\x41\0\x0b" if active else b"\1") + sized(content)
    parts = [(1, vector([function_type(["i32"] * 4, ["i64"])])), (3, b"\1\0"), (5, b"\1\0\1"), (7, vector([sized(b"f") + b"\0\0"])), (12, b"\1"),
             (10, vector([sized(runs_of(["i64", "i32"]) + body + b"\x0b")])), (11, vector([segment]))]
    return b"\0asm\1\0\0\0" + b"".join(bytes([k]) + sized(v) for k, v in parts)


def main():
    gate, r = sys.argv[1], random.Random(1)
    right, wrong, calls = 0, [], []
    with tempfile.TemporaryDirectory() as temp:
        for number, size in enumerate([0, 1, 7, 8, 9, 100, 1023, 1024, 1025, 1032, 40000, 200000, 5]):
            content = bytes(r.randrange(256) for _ in range(size))
            path, out = os.path.join(temp, "%d.wasm" % number), os.path.join(temp, "%d.out.wasm" % number)
            made = module(content, number == 12)
            with open(path, "wb") as file:
                file.write(made)
            with open(out, "wb") as file:
                file.write(fit.fitted(made)[0])
            some = [(0, 0, size, 0), (3, 0, size, 0), (8, 1, max(size - 1, 0), 0), (0, 0, 0, 1), (0, size, 0, 0), (65536, 0, 0, 0), (65536, 0, 1, 0), (0, size + 1, 0, 0), (0, 0, size + 1, 0),
                    (0, 1, size, 0), (65537, 0, 0, 0), (0xFFFFFFFF, 0, 2, 0), (0, 0xFFFFFFFF, 2, 0), (5, 0, min(size, 1), 1), (1, size // 2, size // 3, 0), (65536 - min(size, 9), 0, min(size, 9), 0)]
            for _ in range(3):
                begin = r.randrange(size + 1)
                some.append((r.randrange(3000), begin, min(r.randrange(size - begin + 1), 3000), 0))
            calls += [(path, out, [("i32", v) for v in values]) for values in some]
        for (path, out, args), own in zip(calls, in_node([(path, "f", args) for path, _, args in calls])):
            ours, more = in_wasmgate(gate, out, "f", args)
            if own == ours and (own == "trap" or own.startswith("i64 ")):
                right += 1
            else:
                wrong.append("%s %s: node %s, here %s %s" % (os.path.basename(path), args, own, ours, more))
    print("passive data: %d passed, %d failed" % (right, len(wrong)))
    for line in wrong[:20]:
        print("FAIL " + line)
    return 1 if wrong else 0


if __name__ == "__main__":
    sys.exit(main())
