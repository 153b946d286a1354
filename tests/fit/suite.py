"""The WebAssembly suite through tools/fit.

    suite.py WASMGATE FOLDER [FILE.wast ..]

FOLDER has the suite's files; without names all are taken. For each module, the assertions of results become one function `run all`, added to the module. It
makes the calls in their order and counts those whose result is not what the suite says, bit for bit (a NaN as the suite's words canonical or arithmetic
have it). node runs it on the module as it is, and the program (`wasmgate invoke`) on what tools/fit makes of it. An assertion of a trap is a call of each of the two.

Prints a row for each file, and what was refused. Ends with 1 where a result differs.
Needs wast2json (wabt), node and python3.
"""
import json
import os
import re
import subprocess
import sys
import tempfile
from collections import Counter

sys.dont_write_bytecode = True
sys.path.insert(0, os.path.dirname(os.path.realpath(__file__)))
from assemble import code, const, u, with_function  # noqa: E402
from both import fit, in_node, in_wasmgate  # noqa: E402

TYPES = {0x7F: "i32", 0x7E: "i64", 0x7D: "f32", 0x7C: "f64"}
CANONICAL = {"f32": 0x7FC00000, "f64": 0x7FF8000000000000}

# Assertions that do not hold here for a reason that is not of tools/fit.
PAGES = "memory grows past the 128 pages that invoke allows"
KNOWN = {("call.wast", 304, 1): PAGES, ("call_indirect.wast", 574, 1): PAGES, ("memory_grow.wast", 48, 2): PAGES, ("resizing.wast", 45, 1): PAGES}


def modern(text):
    """The suite's text with older forms of assertions in the form of today."""
    text = re.sub(r"\(assert_return_canonical_nan\s+(\(invoke .*\))\)", r"(assert_return \1 (f32.const nan:canonical))", text)
    return re.sub(r"\(assert_return(?:_arithmetic)?_nan\s+(\(invoke .*\))\)", r"(assert_return \1 (f32.const nan:arithmetic))", text)


def bits(value):
    """The bits of a value in wast2json's form."""
    return CANONICAL[value["type"]] if value["value"].startswith("nan") else int(value["value"])


def checked(value, result):
    """Code that makes of a result on the stack 1 where it differs from what is wanted."""
    wanted, wide = value["value"], result[1:] == "64"
    i = "i64" if wide else "i32"
    out = b""
    if result[0] == "f":
        out = code("i64.reinterpret_f64" if wide else "i32.reinterpret_f32")
        if wanted.startswith("nan:"):
            quiet = CANONICAL[result]
            mask = (0x7FFFFFFFFFFFFFFF if wide else 0x7FFFFFFF) if wanted == "nan:canonical" else quiet
            return out + const(i, mask) + code(i + ".and") + const(i, quiet) + code(i + ".ne")
    return out + const(i, int(wanted)) + code(i + ".ne")


class Suite:
    def __init__(self, gate, folder, temp):
        self.gate, self.folder, self.temp = gate, folder, temp
        self.refusals, self.wrong, self.made = Counter(), [], 0

    def commands(self, name):
        """The commands of a file as wast2json reads them, or None and why it does not."""
        text = modern(open(os.path.join(self.folder, name)).read())
        path = os.path.join(self.temp, "t.wast")
        convert = ["wast2json", "--enable-all", path, "-o", os.path.join(self.temp, "t.json")]
        for _ in range(2):
            with open(path, "w") as file:
                file.write(text)
            made = subprocess.run(convert, capture_output=True, text=True)
            wide = re.findall(r":(\d+):\d+: error: type mismatch for result \d+ of action. got f32, expected f64", made.stderr)
            if not wide:
                break
            lines = text.split("\n")  # the older forms do not say of which type a NaN is
            for number in wide:
                lines[int(number) - 1] = re.sub(r"\(f32\.const (nan:[ac])", r"(f64.const \1", lines[int(number) - 1])
            text = "\n".join(lines)
        if made.returncode:
            return None, made.stderr.splitlines()[0].split("error: ")[-1]
        return json.load(open(os.path.join(self.temp, "t.json")))["commands"], None

    def file(self, name):
        """[equal, refused, not run, differing] of one file's assertions."""
        commands, why = self.commands(name)
        if commands is None:
            return None, why
        groups, current = [], None
        for c in commands:
            if c["type"] == "module":
                current = {"file": c["filename"], "does": [], "name": c.get("name")}
                groups.append(current)
            elif c["type"] in ("assert_return", "assert_trap", "action") and current is not None:
                other = c["action"].get("module")
                next((g for g in groups if other and g["name"] == other), current)["does"].append(c)
        self.counts, self.jobs, self.name = [0, 0, 0, 0], [], name
        self.linked = any(c["type"] == "register" for c in commands)  # its modules use one another
        for g in groups:
            if any(c["type"] != "action" for c in g["does"]):
                self.group(os.path.join(self.temp, g["file"]), g["does"])
        while self.jobs:
            jobs, self.jobs = self.jobs, []
            for job, own in zip(jobs, in_node([j["call"] for j in jobs])):
                self.judge(job, own)
        return self.counts, None

    def judge(self, job, own):
        """Counts what node and the program make of one call."""
        ours, more = in_wasmgate(self.gate, job["out"], job["call"][1], job["call"][2])
        entries, traps = job["entries"], job["traps"]
        if own != ("trap" if traps else "i64 0"):
            self.counts[2] += entries
            if self.linked:
                self.refusals["%s: node finds other results where a module is by itself" % self.name] += entries
            else:
                self.wrong.append("%s: node has %s of the module as it is (%s)" % (self.name, own, job["call"][1]))
        elif own == ours:
            self.counts[0] += entries
        elif not traps and more == "wasmgate: invoke fuel" and len(job["does"]) > 1:
            half = len(job["does"]) // 2  # more than the units that invoke gives
            for part in (job["does"][:half], job["does"][half:]):
                self.group(job["path"], part)
        elif traps or not ours.startswith("i64 "):
            self.differ(entries, job["does"][0]["line"], "%s: %s, and not %s" % (job["call"][1], more if isinstance(more, str) else ours, own))
        else:
            differ, last = int(ours[4:]) >> 32, int(ours[4:]) & 0xFFFFFFFF
            self.counts[0] += entries - differ
            self.differ(differ, last, "%d results differ, the last of them here" % differ)

    def differ(self, count, line, what):
        """Counts what differs, unless the reason is known."""
        known = KNOWN.get((self.name, line, count))
        self.counts[2 if known else 3] += count
        if known:
            self.refusals["%s: up to line %d: %s" % (self.name, line, known)] += count
        else:
            self.wrong.append("%s: line %d: %s" % (self.name, line, what))

    def group(self, path, does):
        """Makes the driver of one module, and the calls that are wanted."""
        data = open(path, "rb").read()
        try:
            m = fit.Module(data)
        except (fit.Beyond, fit.Malformed) as f:
            self.counts[1] += sum(1 for c in does if c["type"] != "action")
            self.refusals["%s: %s" % (self.name, getattr(f, "what", getattr(f, "why", "")))] += 1
            return
        exported = {n: i for _, n, kind, i in m.exports if kind == 0}
        body, entries, traps, apart = bytearray(), 0, [], 0
        for c in does:
            a = c["action"]
            index = exported.get(a["field"]) if a["type"] == "invoke" else None
            params, results = m.signature(index) if index is not None else ((), (0,))
            if any(t not in TYPES for t in params + results):
                apart += c["type"] != "action"
            elif c["type"] == "assert_trap":
                traps.append(c)
            else:
                for value, kind in zip(a["args"], params):
                    body += const(TYPES[kind], bits(value))
                body += b"\x10" + u(index)
                if c["type"] == "action":
                    body += code("drop") * len(results)
                    continue
                entries += 1
                for value, kind in reversed(list(zip(c["expected"], results))):
                    body += checked(value, TYPES[kind]) + code("local.get 2 i32.or local.set 2")
                body += code("local.get 2 if - local.get 0 i32.const 1 i32.add local.set 0 i32.const %d local.set 1 end i32.const 0 local.set 2" % c["line"])
        body += code("local.get 0 i64.extend_i32_u i64.const 32 i64.shl local.get 1 i64.extend_i32_u i64.or")
        self.made += 1
        driver, out = os.path.join(self.temp, "driver%d.wasm" % self.made), os.path.join(self.temp, "out%d.wasm" % self.made)
        made = with_function(data, len(m.functions), "run all", ["i64"], ["i32", "i32", "i32"], bytes(body))
        with open(driver, "wb") as file:
            file.write(made)
        self.counts[2] += apart
        count = entries + len(traps)
        try:
            fitted = fit.fitted(made)[0]
        except fit.Refused as r:
            reason = re.sub(r"^.*?offset \d+ \(0x[0-9a-f]+\): ", "", r.faults[0]).strip()
            self.refusals["%s: %s" % (self.name, re.sub(r", called by .*|, which nothing calls", "", reason))] += count
            self.counts[1] += count
            return
        if m.imports:
            self.refusals["%s: fit takes it, but it imports %s.%s, which invoke does not offer" % (self.name, m.imports[0][1], m.imports[0][2])] += count
            self.counts[2] += count
            return
        with open(out, "wb") as file:
            file.write(fitted)
        job = {"path": path, "out": out, "does": [c for c in does if c["type"] != "assert_trap"], "entries": entries, "traps": False, "call": (driver, "run all", [])}
        if entries:
            self.jobs.append(job)
        for c in traps:
            call = (driver, c["action"]["field"], [(v["type"], bits(v)) for v in c["action"]["args"]])
            self.jobs.append(dict(job, does=[c], entries=1, traps=True, call=call))


def main():
    gate, folder = sys.argv[1:3]
    names = sys.argv[3:] or sorted(n for n in os.listdir(folder) if n.endswith(".wast"))
    totals = [0, 0, 0, 0]
    with tempfile.TemporaryDirectory() as temp:
        suite = Suite(gate, folder, temp)
        print("%-24s %7s %8s %8s %7s" % ("file", "equal", "refused", "not run", "differ"))
        for name in names:
            counts, why = suite.file(name)
            if counts is None:
                print("%-24s not tried: wast2json: %s" % (name, why))
                continue
            if any(counts):
                print("%-24s %7d %8d %8d %7d" % ((name,) + tuple(counts)), flush=True)
            totals = [a + b for a, b in zip(totals, counts)]
        print("%-24s %7d %8d %8d %7d" % (("all",) + tuple(totals)))
        for reason, count in sorted(suite.refusals.items()):
            print("refused or not run: %s (%d)" % (reason, count))
        print("suite: %d passed, %d failed, assertions" % (totals[0], max(totals[3], len(suite.wrong))))
        for line in suite.wrong:
            print("FAIL " + line)
    return 1 if suite.wrong else 0


if __name__ == "__main__":
    sys.exit(main())
