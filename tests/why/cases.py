"""What tools/why says, on configurations and modules written here; the wanted texts are by hand, and the places in them counted.

    cases.py WASMGATE

Also asks the program, by `check`, of each import that tools/why says works, whether it is known with that type and with no other, and of each callback.
Prints how many are so. Ends with 1 where one is not.
"""
import importlib.machinery
import importlib.util
import os
import subprocess
import sys
import tempfile

sys.dont_write_bytecode = True
HERE = os.path.dirname(os.path.realpath(__file__))
WHY = os.path.join(HERE, "..", "..", "tools", "why")
sys.path.insert(0, os.path.join(HERE, "..", "fit"))
from assemble import s, sized, u, vector  # noqa: E402

h = bytes.fromhex
HEADER = b"\0asm\1\0\0\0"  # places 0 to 7
ONE = h("01 04 01 60 00 00 03 02 01 00")  # 8 to 17: a function of nothing to nothing
ABI = "proxy_abi_version_0_2_1"


def exports(*entries):
    """An export section. With the marker alone it has 29 bytes."""
    return b"\7" + sized(vector([sized(n.encode()) + bytes([k]) + u(i) for n, k, i in entries]))


def imports(*entries):
    return b"\2" + sized(vector([sized(m.encode()) + sized(n.encode()) + b"\0" + u(t) for m, n, t in entries]))


def bodies(*entries):
    return b"\x0a" + sized(vector([sized(b) for b in entries]))


EMPTY = bodies(b"\0\x0b")
NONE = "  imports: none\n  callbacks: none\n"
NO_NAMES = "  (It has no names of functions: build without stripping, and without wasm-opt or with its -g, to see them.)\n"
MODULES = {
    "good.wasm": HEADER + ONE + exports((ABI, 0, 0)) + EMPTY,
    # Two types: 10 the count, 11 to 13 the first, 14 the second's form, 15 its count of parameters, 16 a float.
    "float.wasm": HEADER + h("01 0a 02 60 00 00 60 02 7d 7d 01 7d 03 03 02 00 01") + exports((ABI, 0, 0)) + bodies(b"\0\x0b", h("00 20 00 20 01 92 0b"))
    + b"\0" + sized(b"\4name\1" + sized(vector([b"\1" + sized(b"mean")]))),
    # The table to 23, the exports to 52; 53 the code, its size, count, the body's size, no locals, 58 a constant, 60 the call, 62 the long index.
    "long.wasm": HEADER + ONE + h("04 04 01 70 00 01") + exports((ABI, 0, 0)) + bodies(h("00 41 00 11 00 80 80 80 80 00 0b")) + b"\0" + sized(b"\4name\1" + sized(vector([b"\0" + sized(b"go")]))),
    # The memory to 22, the exports to 51.
    "count.wasm": HEADER + ONE + h("05 03 01 00 01") + exports((ABI, 0, 0)) + h("0c 01 00") + EMPTY,
    # The exports to 46, then the code, its size, count, the body's size, no locals: the instruction is at 52.
    "vector.wasm": HEADER + ONE + exports((ABI, 0, 0)) + bodies(h("00 fd 0c" + " 00" * 16 + " 1a 0b")),
    "program.wasm": HEADER + ONE + exports(("_start", 0, 0)) + EMPTY,
    "older.wasm": HEADER + ONE + exports(("proxy_abi_version_0_1_0", 0, 0)) + EMPTY,
    "unmarked.wasm": HEADER + h("01 05 01 60 01 7f 00 03 02 01 00") + exports(("proxy_on_tick", 0, 0)) + EMPTY,
    "callbacks.wasm": HEADER + h("01 08 02 60 00 00 60 01 7f 00 03 03 02 00 01") + exports((ABI, 0, 0), ("proxy_on_tick", 0, 0), ("proxy_on_done", 0, 1), ("proxy_on_log", 0, 1)) + bodies(b"\0\x0b", b"\0\x0b"),
    "imports.wasm": HEADER + h("01 1d 04 60 00 00 60 01 7f 01 7f 60 02 7f 7f 01 7f 60 0a" + " 7f" * 10 + " 01 7f")
    + imports(("env", "abort", 0), ("env", "proxy_http_call", 3), ("wasi_snapshot_preview1", "fd_close", 1), ("env", "proxy_done", 1)) + h("03 02 01 00") + exports((ABI, 0, 4)) + bodies(h("00 10 00 0b")),
    "pages.wasm": HEADER + ONE + h("05 04 01 00 c8 01") + exports((ABI, 0, 0)) + EMPTY,
    # The exports to 51, the code to 57, then the data section, its size and count: the segment is at 61.
    "outside.wasm": HEADER + ONE + h("05 03 01 00 01") + exports((ABI, 0, 0)) + EMPTY + b"\x0b" + sized(vector([h("00 41") + s(65535) + h("0b 02 61 62")])),
    "cut.wasm": (HEADER + ONE + exports((ABI, 0, 0)) + EMPTY)[:-1],
    "text.wasm": b"(module)",
    # A callback of connections that are streams of bytes.
    "streams.wasm": HEADER + h("01 09 02 60 00 00 60 01 7f 01 7f 03 03 02 00 01") + exports((ABI, 0, 0), ("proxy_on_new_connection", 0, 1)) + bodies(b"\0\x0b", h("00 41 00 0b")),
    # A property's name in its data, no allocator, a callback for bodies, and one that is never called.
    "names.wasm": HEADER + h("01 17 04 60 00 00 60 04 7f 7f 7f 7f 01 7f 60 03 7f 7f 7f 01 7f 60 01 7f 00") + imports(("env", "proxy_get_property", 1)) + h("03 04 03 00 02 03")
    + h("05 03 01 00 01") + exports((ABI, 0, 1), ("proxy_on_request_body", 0, 2), ("proxy_on_foreign_function", 0, 3)) + bodies(b"\0\x0b", h("00 41 00 0b"), b"\0\x0b")
    + b"\x0b" + sized(vector([h("00 41 00 0b") + sized(b"plugin_root_id\0source\0address\0")])),
}
VM = '[[vm]]\nname = "a"\nmodule = "good.wasm"\n'
PLUGIN = '[[plugin]]\nname = "p"\nvm = "a"\n'
ROUTE = '[[route]]\npath = "/"\nfilters = ["p"]\n'
CONFIGURATIONS = {
    "good.toml": VM + PLUGIN + ROUTE,
    "fuel.toml": "# fuel\n[[vm]]\nname = \"a\"\nmodule = \"good.wasm\"\n\n[[vm]]\nname = \"b\"\nmodule = \"good.wasm\"\nfuel = 0\n",
    "missing.toml": VM + '[[plugin]]\nname = "p"\n',
    "unknown.toml": VM + PLUGIN + '[[route]]\npath = "/"\nfilter = ["p"]\n',
    "top.toml": "worker = 2\n" + VM,
    "noname.toml": VM + PLUGIN.replace('"a"', '"b"') + ROUTE,
    "nofilter.toml": VM + PLUGIN + ROUTE.replace('"p"', '"p", "q"'),
    "tcp.toml": "[gateway]\ntcp = [\"p\", \"q\"]\n" + VM + PLUGIN,
    "both.toml": "[gateway]\ntcp = [\"p\"]\n" + VM + PLUGIN + ROUTE,
    "twice.toml": VM + VM,
    "route.toml": VM + PLUGIN + ROUTE + ROUTE,
    "gateway.toml": "[gateway]\nworkers = 1\nlisten = \"localhost:80\"\n",
    "dotted.toml": "gateway.workers = 9\n",
    "quoted.toml": 'note = 1\n' + VM + 'configuration = """\n[[vm]]\nfuel = 0\n"""\n',
    "notoml.toml": VM + "fuel 5\n",
    "nofile.toml": VM.replace("good.wasm", "gone.wasm"),
    "beside.toml": VM + PLUGIN,
    "refused.toml": VM + VM.replace('"a"', '"b"').replace("good", "float"),
}
ACCEPTED = "accepted\n" + NONE
WANTED = [
    ("good.wasm", 0, "good.wasm: " + ACCEPTED),
    ("float.wasm", 1, """float.wasm: refused: FloatOutOfProfile 16
  The first float of the module is at the type section, offset 16 (0x10).
  It has 1 float instruction in 1 function, the most in function 1 `mean` (1).
  Floats are outside the profile. They come of printf and strtod, C++ unordered_map and iostreams, serde_json, format! of f64.
  Do: tools/fit float.wasm float.fit.wasm makes an equal module, and check accepts it (SIZES).
""" + NONE),
    ("long.wasm", 1, """long.wasm: refused: BadOpcode 62
  function 0 `go`, offset 62 (0x3e): call_indirect, whose bytes are 11 00 80 80 80 80 00.
  An index that is 0 has to be one byte there. rustc since 1.82 and clang since 20 leave room for more (the reference-types feature).
  Build without the feature: rustc -C target-cpu=mvp (with a std built so), clang -mcpu=mvp; or use tools/fit.
  Do: tools/fit long.wasm long.fit.wasm makes an equal module, and check accepts it (SIZES).
""" + NONE),
    ("count.wasm", 1, """count.wasm: refused: BadSection 52
  the data count section, offset 52 (0x34).
  This is a data count section. wasm-opt and clang write it as soon as bulk memory is on.
  Build without it: wasm-opt --disable-bulk-memory, clang -mno-bulk-memory; or use tools/fit.
  Do: tools/fit count.wasm count.fit.wasm makes an equal module, and check accepts it (SIZES).
""" + NONE),
    ("vector.wasm", 1, """vector.wasm: refused: BadOpcode 52
  function 0 (exported as `proxy_abi_version_0_2_1`), offset 52 (0x34): v128.const.
  Byte fd is no opcode, type, kind or flag of the profile: the module uses a feature of Core 2.0 or later.
""" + NO_NAMES + """  tools/fit cannot mend it:
    function 0 (exported as `proxy_abi_version_0_2_1`), offset 52 (0x34): v128.const
      128-bit vectors (SIMD) are outside the profile. Build without them: clang -mno-simd128, rustc -C target-feature=-simd128, emcc without -msimd128.
""" + NONE),
    ("program.wasm", 1, """program.wasm: refused: NoAbi
  It exports none of the functions that say for which interface it was made: proxy_abi_version_0_2_1 or proxy_abi_version_0_2_0.
  It is a program (it exports _start), and no filter: build a library (Rust: crate-type = ["cdylib"]; clang: -mexec-model=reactor), with an SDK of Proxy-Wasm.
  imports: none
  callbacks
    _start
"""),
    ("older.wasm", 1, """older.wasm: refused: NoAbi
  It exports none of the functions that say for which interface it was made: proxy_abi_version_0_2_1 or proxy_abi_version_0_2_0.
  It exports proxy_abi_version_0_1_0: it was made by an SDK for another version. Build it with an SDK for ABI 0.2.1.
""" + NONE),
    ("unmarked.wasm", 1, """unmarked.wasm: refused: NoAbi
  It exports none of the functions that say for which interface it was made: proxy_abi_version_0_2_1 or proxy_abi_version_0_2_0.
  It has callbacks, and no marker. Export an empty function proxy_abi_version_0_2_1; where a linker drops it, name it: clang -Wl,--export=proxy_abi_version_0_2_1, rustc #[no_mangle] pub extern "C".
  imports: none
  callbacks
    proxy_on_tick
"""),
    ("callbacks.wasm", 1, """callbacks.wasm: refused: CallbackType
  export `proxy_on_tick` has type () -> nothing; wanted is (i32) -> nothing.
  export `proxy_on_done` has type (i32) -> nothing; wanted is (i32) -> i32.
  Do: give it that type, or export it under another name.
  imports: none
  callbacks
    proxy_on_tick
    proxy_on_done
    proxy_on_log
"""),
    ("imports.wasm", 1, """imports.wasm: refused: UnknownImport
  import env.abort of type () -> nothing, called by function 4 (exported as `proxy_abi_version_0_2_1`):
    It comes of AssemblyScript or of a C library that is not there. Link a libc (wasi-libc), or compile with --use abort=.
  import env.proxy_done of type (i32) -> i32, which nothing calls:
    Its type is (i32) -> i32; wanted is () -> i32. The SDK is for another version of the ABI, or its declaration is wrong.
""" + NO_NAMES + """  imports
    env.abort                        not linked
    env.proxy_http_call              works
    wasi_snapshot_preview1.fd_close  answers 52
    env.proxy_done                   not linked
  callbacks: none
"""),
    ("pages.wasm", 1, """pages.wasm: refused: PagesOverCap
  Its memory begins with 200 pages of 64 KiB, and its VM has 128.
  Do: set pages = 200 or more in the VM's table (256 at most). Or build with less: clang -Wl,--initial-memory=1048576 -Wl,-z,stack-size=65536; emcc -s INITIAL_MEMORY=1MB -s STACK_SIZE=64KB -s ALLOW_MEMORY_GROWTH=1.
""" + NONE),
    ("--pages 200 pages.wasm", 0, "pages.wasm: " + ACCEPTED),
    ("outside.wasm", 1, """outside.wasm: refused: DataOutside
  Data segment 0 (offset 61 of the file) is put at 65535 and has 2 bytes; the memory begins with 65536.
  Do: begin with more memory: clang -Wl,--initial-memory=N.
""" + NONE),
    ("cut.wasm", 1, """cut.wasm: refused: Truncated 52
  offset 52 (0x34): it ends inside an item: it was cut, or is still being written.
  Do: build it again, or copy it again.
"""),
    ("text.wasm", 1, """text.wasm: refused: BadHeader 0
  offset 0 (0x0): it does not begin with \\0asm: this is no WebAssembly module in binary form
  Do: This looks like the text format: wat2wasm (wabt) makes a module of it.
"""),
    ("streams.wasm", 0, "streams.wasm: accepted\n  imports: none\n  callbacks\n    proxy_on_new_connection: called with tcp alone\n"),
    ("names.wasm", 0, """names.wasm: accepted
  imports
    env.proxy_get_property  works
  callbacks
    proxy_on_request_body
    proxy_on_foreign_function: never called
    no allocator: a call that hands over bytes answers 10. Export malloc or proxy_on_memory_allocate.
    with a callback for bodies, a body goes on in chunks, without its content-length
  properties that its data names, and that are not there (proxy_get_property answers 1)
    plugin_root_id: A VM's plug-ins have no root ids here: a plug-in is found by its place in the configuration, and plugin_name has its name. An SDK that finds its factory by plugin_root_id finds the one that is registered under the empty name, or ends the VM: register the filter under "", or give the id with tools/fit --root-id.
    source.address
"""),
    ("good.toml", 0, "good.toml: accepted: ok workers 1 vms 1 plugins 1 routes 1\ngood.toml:3: vm a, module good.wasm: " + ACCEPTED),
    ("fuel.toml", 1, "fuel.toml:9: vm.1.fuel: the value is of another type, past its bounds or of another form\n  | fuel = 0\n  Allowed: a number from 1 to 1000000000000.\n"),
    ("missing.toml", 1, "missing.toml:4: plugin.0.vm: a key is missing\n  | [[plugin]]\n  Wanted: vm = the name of a [[vm]].\n"),
    ("unknown.toml", 1, "unknown.toml:9: route.0.filter: the key is unknown\n  | filter = [\"p\"]\n  Known here: filters, path.\n"),
    ("top.toml", 1, "top.toml:1: worker: the key is unknown\n  | worker = 2\n  Known here: gateway, vm, plugin, route.\n"),
    ("noname.toml", 1, "noname.toml:6: plugin.0.vm: nothing has this name\n  | vm = \"b\"\n  Names of [[vm]]: \"a\".\n"),
    ("nofilter.toml", 1, "nofilter.toml:9: route.0.filters: nothing has this name\n  | filters = [\"p\", \"q\"]\n  Names of [[plugin]]: \"p\".\n"),
    ("tcp.toml", 1, "tcp.toml:2: gateway.tcp: nothing has this name\n  | tcp = [\"p\", \"q\"]\n  Names of [[plugin]]: \"p\".\n"),
    ("both.toml", 1, "both.toml:2: gateway.tcp: the value is of another type, past its bounds or of another form\n  | tcp = [\"p\"]\n"
     "  Allowed: a list of 1 to 16 names of [[plugin]]s, and no [[route]] beside it.\n"),
    ("twice.toml", 1, "twice.toml:5: vm.1.name: the name is there twice\n  | name = \"a\"\n"),
    ("route.toml", 1, "route.toml:11: route.1.path: the router does not take this path\n  | path = \"/\"\n  It is no route of the crate matchit, or conflicts with one before it: "
     "two routes that differ in the name of a parameter alone, as /a/{x} and /a/{y}, or one path twice.\n"),
    ("gateway.toml", 1, "gateway.toml:3: gateway.listen: the value is of another type, past its bounds or of another form\n  | listen = \"localhost:80\"\n"
     "  Allowed: an address: four numbers from 0 to 255 with dots, a colon and a port from 1 to 65535, as in \"127.0.0.1:8080\".\n"),
    ("dotted.toml", 1, "dotted.toml:1: gateway.workers: the value is of another type, past its bounds or of another form\n  | gateway.workers = 9\n  Allowed: a number from 1 to 8.\n"),
    ("quoted.toml", 1, "quoted.toml:1: note: the key is unknown\n  | note = 1\n  Known here: gateway, vm, plugin, route.\n"),
    ("notoml.toml", 1, "notoml.toml:4: the file: the text is no TOML: Expected '=' after a key in a key/value pair (at line 4, column 6)\n  | fuel 5\n"),
    ("nofile.toml", 1, "nofile.toml:3: vm a, module gone.wasm: the file FOLDER/gone.wasm cannot be read: No such file or directory\n"
     "  The path of a module is taken from the folder in which the program runs, FOLDER.\n"),
    ("refused.toml", 1, None),
    ("nothing.toml", 2, ""),
    ("", 2, ""),
    ("--pages 0 good.wasm", 2, ""),
]


def loaded():
    loader = importlib.machinery.SourceFileLoader("why", WHY)
    why = importlib.util.module_from_spec(importlib.util.spec_from_loader("why", loader))
    loader.exec_module(why)
    return why


def type_bytes(signature):
    return b"\x60" + vector([bytes([t]) for t in signature[0]]) + vector([bytes([t]) for t in signature[1]])


def verdict(gate, temp, data):
    """What `check` says of a module: ok, or its cause."""
    path, config = os.path.join(temp, "probe.wasm"), os.path.join(temp, "probe.toml")
    with open(path, "wb") as file:
        file.write(data)
    with open(config, "w") as file:
        file.write('[[vm]]\nname = "m"\nmodule = "%s"\n' % path)
    done = subprocess.run([gate, "check", config], capture_output=True, text=True)
    return "ok" if done.returncode == 0 else done.stderr.split()[-1]


def importing(module, name, signature):
    types = b"\1" + sized(vector([type_bytes(signature), h("60 00 00")]))
    return HEADER + types + imports((module, name, 0)) + h("03 02 01 01") + exports((ABI, 0, 1)) + EMPTY


def exporting(name, signature):
    body = b"\0" + b"".join(b"\x41\0" if t == 0x7F else b"\x42\0" for t in signature[1]) + b"\x0b"
    types = b"\1" + sized(vector([type_bytes(signature), h("60 00 00")]))
    return HEADER + types + h("03 03 02 00 01") + exports((name, 0, 0), (ABI, 0, 1)) + bodies(body, b"\0\x0b")


def probed(gate, temp):
    """Where tools/why and the program differ on imports and callbacks."""
    why = loaded()
    i32, wrong, count = 0x7F, [], 0
    probes = []
    for name, signature in why.HOST.items():
        probes.append((importing("env", name, signature), "ok", name))
        other = (signature[0] + (i32,), signature[1])
        probes.append((importing("env", name, other), "ImportType", name + " of another type"))
    for module in why.WASI_MODULES:
        for name, signature in why.WASI.items():
            probes.append((importing(module, name, signature), "ok", name))
            probes.append((importing(module, name, (signature[0] + (i32,), signature[1])), "ImportType", name + " of another type"))
        probes.append((importing(module, "fd_close", ((i32, 0x7E), (i32,))), "ok", "an unbuilt call of WASI"))
        probes.append((importing(module, "fd_close", ((i32,), ())), "UnknownImport", "an unbuilt call of WASI without a result"))
    for name in [name for name in why.UNBUILT if name not in why.HOST] + ["proxy_anything"]:
        probes.append((importing("env", name, ((i32,), (i32,))), "ok", name + " is unbuilt"))
        probes.append((importing("env", name, ((i32, i32), (i32,))), "ok", name + " is unbuilt, of another type"))
        probes.append((importing("env", name, ((i32,), ())), "UnknownImport", name + " without a result"))
    probes.append((importing("env", "proxy_anything", ((i32,) * 16, (i32,))), "ok", "16 parameters"))
    probes.append((importing("env", "proxy_anything", ((i32,) * 17, (i32,))), "UnknownImport", "17 parameters"))
    probes.append((importing("env", "abort", ((), ())), "UnknownImport", "another import"))
    probes.append((importing("env", "emscripten_notify_memory_growth", ((i32,), ())), "ok", "notify"))
    for name, signature in why.CALLBACKS.items():
        probes.append((exporting(name, signature), "ok", name))
        probes.append((exporting(name, (signature[0] + (i32,), signature[1])), "CallbackType", name + " of another type"))
    for data, wanted, what in probes:
        got = verdict(gate, temp, data)
        count += got == wanted
        if got != wanted:
            wrong.append("%s: check says %s, and not %s" % (what, got, wanted))
    return count, wrong


def main():
    gate = os.path.abspath(sys.argv[1])
    environment = dict(os.environ, WASMGATE=gate)
    right, wrong = 0, []
    with tempfile.TemporaryDirectory() as temp:
        temp = os.path.realpath(temp)
        for name, data in MODULES.items():
            with open(os.path.join(temp, name), "wb") as file:
                file.write(data)
        for name, text in CONFIGURATIONS.items():
            with open(os.path.join(temp, name), "w") as file:
                file.write(text)
        for words, status, wanted in WANTED:
            done = subprocess.run([WHY] + words.split(), capture_output=True, text=True, cwd=temp, env=environment)
            got = done.stdout.replace(temp, "FOLDER")
            if wanted and "SIZES" in wanted:
                before, after = wanted.split("SIZES")
                same = got.startswith(before) and got.endswith(after)
            elif wanted is None:
                same = "good.wasm: accepted" in got and "refused.toml:6: vm b, module float.wasm: refused: FloatOutOfProfile 16" in got
            else:
                same = got == wanted
            if same and done.returncode == status and (status != 2 or done.stderr):
                right += 1
            else:
                wrong.append("%s: status %d\n%s%s" % (words, done.returncode, got, done.stderr))
        # From another folder: the module lies beside the configuration.
        done = subprocess.run([WHY, os.path.join(temp, "beside.toml")], capture_output=True, text=True, cwd="/", env=environment)
        if done.returncode == 1 and "It is beside the configuration: run the program in %s, or write %s/good.wasm." % (temp, temp) in done.stdout:
            right += 1
        else:
            wrong.append("beside: " + done.stdout + done.stderr)
        done = subprocess.run([WHY, os.path.join(temp, "good.wasm")], capture_output=True, text=True, env=dict(os.environ, WASMGATE="/no/such/program"))
        if done.returncode == 2 and done.stderr.startswith("why: the program does not run"):
            right += 1
        else:
            wrong.append("no program: " + done.stderr)
        count, other = probed(gate, temp)
    for line in wrong + other:
        print("FAIL " + line)
    print("why: %d passed, %d failed: texts, and imports and callbacks as the program has them" % (right + count, len(wrong) + len(other)))
    return 1 if wrong or other else 0


if __name__ == "__main__":
    sys.exit(main())
