"""What tools/fit refuses and what it says, on modules written here byte by byte. The places in the wanted texts are counted by hand.

    refusals.py

Prints how many are so. Ends with 1 where one is not.
"""
import os
import subprocess
import sys
import tempfile

sys.dont_write_bytecode = True
HERE = os.path.dirname(os.path.realpath(__file__))
FIT = os.path.join(HERE, "..", "..", "tools", "fit")
sys.path.insert(0, HERE)
from assemble import sized, vector  # noqa: E402

HEADER = b"\0asm\1\0\0\0"  # 8 bytes
TYPE = bytes.fromhex("01 04 01 60 00 00")  # 8: one type, of nothing to nothing
FUNCTION = bytes.fromhex("03 02 01 00")  # 14: one function of it
NAMES = b"\0" + sized(b"\4name" + b"\1" + sized(vector([b"\0" + sized(b"mine")])))  # at the end: function 0 is `mine`


def body(code, parts=b""):
    """A module of one function `mine`. Without parts its code begins at place 23: 18 the section, 19 its size, 20 the count, 21 the body's size, 22 no locals."""
    return HEADER + TYPE + FUNCTION + parts + b"\x0a" + sized(vector([sized(b"\0" + code + b"\x0b")])) + NAMES


def h(text):
    return bytes.fromhex(text)


CASES = [
    ("vectors", body(h("fd 0c" + " 00" * 16 + " 1a")), ["function 0 `mine`, offset 23 (0x17): v128.const", "128-bit vectors (SIMD)", "-mno-simd128"]),
    ("vectors after a nop", body(h("01 fd 0e 1a")), ["function 0 `mine`, offset 24 (0x18): i8x16.swizzle", "-mno-simd128"]),
    ("atomics", body(h("fe 03 00")), ["function 0 `mine`, offset 23 (0x17): atomic.fence", "(threads)", "-mno-atomics"]),
    ("atomic addition", body(h("00 fe 1e 02 00 1a")), ["function 0 `mine`, offset 24 (0x18): i32.atomic.rmw.add", "(threads)"]),
    ("exceptions", body(h("06 40 0b")), ["function 0 `mine`, offset 23 (0x17): try", "-fno-exceptions"]),
    ("exceptions of today", body(h("1f 40 00 0b")), ["function 0 `mine`, offset 23 (0x17): try_table", "-fno-exceptions"]),
    ("tail calls", body(h("12 00")), ["function 0 `mine`, offset 23 (0x17): return_call", "-mno-tail-call"]),
    ("function references", body(h("14 00")), ["function 0 `mine`, offset 23 (0x17): call_ref", "function references"]),
    ("garbage collection", body(h("fb 00 00")), ["function 0 `mine`, offset 23 (0x17): an instruction fb 00", "garbage collection"]),
    ("wide arithmetic", body(h("00 fc 13")), ["function 0 `mine`, offset 24 (0x18): i64.add128", "wide-arithmetic"]),
    ("no instruction", body(h("ff")), ["function 0 `mine`, offset 23 (0x17): an instruction ff", "target-cpu=mvp"]),
    # A memory section of 3 bytes more, with its flag at place 21; so the code begins at 28.
    ("addresses of 64 bits", HEADER + TYPE + FUNCTION + h("05 03 01 04 01"), ["offset 21 (0x15): a memory with 64-bit addresses", "wasm32"]),
    ("shared memory", HEADER + TYPE + FUNCTION + h("05 04 01 03 01 01"), ["offset 21 (0x15): a shared memory", "(threads)"]),
    ("two memories", body(b"", h("05 05 02 00 01 00 01")), ["offset 23 (0x17): memory 1", "multi-memory-lowering"]),
    ("a callback with floats", HEADER + h("01 05 01 60 01 7d 00 03 02 01 00 07 11 01 0d") + b"proxy_on_tick" + h("00 00 0a 04 01 02 00 0b"),
     ["function 0 (exported as `proxy_on_tick`), offset 22 (0x16): export `proxy_on_tick` of type (f32) -> nothing", "takes and gives no floats"]),
    ("a table that changes", body(h("41 00 d0 70 26 00"), h("04 04 01 70 00 01")), ["function 0 `mine`, offset 33 (0x21): table.set", "-reference-types"]),
    ("a table of externref", body(b"", h("04 04 01 6f 00 01")), ["offset 21 (0x15): a table of externref"]),
    # A type (f32) -> f32 in place of the other, and an import of it at place 17: 15 the section, 16 its size, then the count.
    ("an import with floats", HEADER + h("01 06 01 60 01 7d 01 7d") + h("02 07 01 01 65 01 66 00 00"),
     ["offset 19 (0x13): import `e.f` of type (f32) -> f32, which nothing calls", "No host call takes or gives floats."]),
    ("an import of a global", HEADER + h("02 08 01 01 65 01 67 03 7f 00"), ["offset 11 (0xb): import `e.g`, a global", "position-independent"]),
    ("an export of two values", HEADER + h("01 06 01 60 00 02 7f 7f 03 02 01 00 07 05 01 01 66 00 00 0a 08 01 06 00 41 00 41 00 0b"),
     ["function 0 (exported as `f`), offset 23 (0x17): export `f` of type () -> (i32, i32)", "one value at most"]),
    # The sizes take two bytes there, so the body begins at place 22.
    ("257 blocks", body(h("02 40") * 257 + h("0b") * 257), ["function 0 `mine`, offset 22 (0x16): 257 nested blocks", "256 at most"]),
    ("a type of a struct", HEADER + h("01 03 01 5f 00"), ["offset 11 (0xb): a type (byte 5f)", "garbage collection"]),
    ("an exception's tag", HEADER + h("0d 03 01 00 00"), ["offset 8 (0x8): a tag section", "-fno-exceptions"]),
    ("a component", h("00 61 73 6d 0d 00 01 00"), ["offset 4 (0x4): it is a component", "wasm32-unknown-unknown"]),
    ("no module", b"\x7fELF", ["it does not begin with \\0asm"]),
    ("a cut module", (HEADER + TYPE)[:-1], ["offset 13 (0xd): it ends inside the section type"]),
]


def main():
    right, wrong = 0, []
    with tempfile.TemporaryDirectory() as temp:
        path, out = os.path.join(temp, "module.wasm"), os.path.join(temp, "out.wasm")
        for name, data, wanted in CASES:
            with open(path, "wb") as file:
                file.write(data)
            done = subprocess.run([FIT, path, out], capture_output=True, text=True)
            lines = [line.strip() for line in done.stderr.strip().split("\n")]
            first = lines[1] if len(lines) > 1 else ""
            ok = done.returncode == 1 and not os.path.exists(out) and done.stdout == "" and lines[0] == "fit: %s is refused:" % path
            # The first line is what is wrong and where; the others the remedy.
            ok = ok and (first == wanted[0] or (name in ("no module", "a component") and wanted[0] in first)) and all(any(w in line for line in lines[1:]) for w in wanted)
            if ok:
                right += 1
            else:
                wrong.append("%s: status %d, %s" % (name, done.returncode, " | ".join(lines)))
        for words, status in (([], 2), (["a"], 2), (["--no", "a", "b"], 2), (["/no/such/file", out], 2), (["--root-id", "x" * 257, path, out], 2), ([path, "/no/such/folder/out"], 1)):
            done = subprocess.run([FIT] + words, capture_output=True, text=True)
            if done.returncode == status and done.stderr:
                right += 1
            else:
                wrong.append("words %s: status %d" % (words, done.returncode))
    print("refusals: %d passed, %d failed" % (right, len(wrong)))
    for line in wrong:
        print("FAIL " + line)
    return 1 if wrong else 0


if __name__ == "__main__":
    sys.exit(main())
