"""References, sums as constants and other small things through tools/fit: modules written byte by byte, with results worked out by hand.

    small.py WASMGATE

Prints how many calls are as wanted. Ends with 1 where one is not.
"""
import os
import sys
import tempfile

sys.dont_write_bytecode = True
sys.path.insert(0, os.path.dirname(os.path.realpath(__file__)))
from assemble import sized, vector  # noqa: E402
from both import fit, in_wasmgate  # noqa: E402

h = bytes.fromhex
ONE = h("01 06 01 60 01 7f 01 7f 03 02 01 00")  # a function (i32) -> i32
EXPORT = h("07 05 01 01 66 00 00")  # exported as f


def module(code, before=b"", middle=b"", locals_=b"\0", after=b"", types=ONE):
    """before: sections between the functions and the exports; middle: between the exports and the code."""
    return b"\0asm\1\0\0\0" + types + before + EXPORT + middle + b"\x0a" + sized(vector([sized(locals_ + code + b"\x0b")])) + after


CASES = [
    # A local of type funcref: null where the argument is 0, else function 0. Is it null?
    ("a reference in a local", module(h("20 00 04 40 d2 00 21 01 05 d0 70 21 01 0b 20 01 d1"), locals_=h("01 01 70"), middle=h("09 05 01 03 00 01 00")), [(0, 1), (5, 0)]),
    # The same by a select with a type, and by a block that gives a reference.
    ("select of references", module(h("d0 70 d2 00 20 00 1c 01 70 d1"), middle=h("09 05 01 03 00 01 00")), [(0, 0), (1, 1)]),
    ("a block of a reference", module(h("02 70 d2 00 20 00 0d 00 1a d0 70 0b d1"), middle=h("09 05 01 03 00 01 00")), [(0, 1), (1, 0)]),
    ("an external reference", module(h("d0 6f 21 01 20 01 d1 20 00 6a"), locals_=h("01 01 6f")), [(41, 42)]),
    ("the size of a table", module(h("fc 10 00 20 00 6a"), before=h("04 04 01 70 00 07")), [(3, 10)]),
    # Elements by expressions, put into the table by a sum: at 1 + 1. f(0) is 7, and f(n) calls what is at place n with 0, by a table index of two bytes.
    ("elements by expressions", module(h("20 00 45 04 7f 41 07 05 41 00 20 00 11 00 80 00 0b"), before=h("04 04 01 70 00 04"), middle=h("09 0c 01 04 41 01 41 01 6a 0b 01 d2 00 0b")), [(0, 7), (2, 7), (3, "trap"), (9, "trap")]),
    # A global of 2 * 3 - 1, and one of that and 10.
    ("constants that are sums", module(h("23 00 23 01 6a 20 00 6a"), before=h("06 14 02 7f 00 41 02 41 03 6c 41 01 6b 0b 7f 01 23 00 41 0a 6a 0b")), [(1, 21)]),
    ("elements dropped", module(h("fc 0d 00 20 00"), middle=h("09 05 01 01 00 01 00")), [(8, 8)]),
    # A float in a global and in data: 1.5 is 3ff8000000000000, whose high half is 3ff80000.
    ("a float in a global", module(h("23 00 bd 42 20 88 a7 20 00 6a"), before=h("06 0d 01 7c 00 44 00 00 00 00 00 00 f8 3f 0b")), [(0, 0x3FF80000)]),
    # A signalling NaN keeps its bits by constants, locals, neg and reinterpret: 7fa00001 becomes ffa00001.
    ("bits of a NaN", module(h("43 01 00 a0 7f 21 01 20 01 8c bc 20 00 6a"), locals_=h("01 01 7d")), [(0, 0xFFA00001)]),
    # And by memory, as an f64: 7ff0000000000001 stored and loaded, its low half read.
    ("bits of a NaN in memory", module(h("41 00 44 01 00 00 00 00 00 f0 7f 39 03 00 41 08 41 00 2b 03 00 39 03 00 41 08 28 02 00 41 0c 28 02 00 6a 20 00 6a"), before=h("05 03 01 00 01")), [(0, 0x7FF00001)]),
]


def main():
    gate, right, wrong = sys.argv[1], 0, []
    with tempfile.TemporaryDirectory() as temp:
        out = os.path.join(temp, "out.wasm")
        for name, data, calls in CASES:
            try:
                made = fit.fitted(data)[0]
            except fit.Refused as r:
                wrong.append("%s: refused: %s" % (name, " ".join(r.faults)))
                continue
            with open(out, "wb") as file:
                file.write(made)
            for argument, wanted in calls:
                got, more = in_wasmgate(gate, out, "f", [("i32", argument)])
                if got == (wanted if wanted == "trap" else "i32 %d" % wanted):
                    right += 1
                else:
                    wrong.append("%s: f(%d) is %s %s, and not %s" % (name, argument, got, more, wanted))
    print("small: %d passed, %d failed" % (right, len(wrong)))
    for line in wrong:
        print("FAIL " + line)
    return 1 if wrong else 0


if __name__ == "__main__":
    sys.exit(main())
