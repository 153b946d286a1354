"""Calls functions of a module in node, and of what tools/fit makes of it by `wasmgate invoke`. For the scripts beside it."""
import importlib.machinery
import importlib.util
import json
import os
import subprocess
import sys

HERE = os.path.dirname(os.path.realpath(__file__))
sys.dont_write_bytecode = True
sys.path.insert(0, os.path.join(HERE, "..", "..", "tools"))
_loader = importlib.machinery.SourceFileLoader("fit", os.path.join(HERE, "..", "..", "tools", "fit"))
fit = importlib.util.module_from_spec(importlib.util.spec_from_loader("fit", _loader))
_loader.exec_module(fit)


def in_node(calls):
    """The answers of node to calls (path, export, [(type, bits)])."""
    lines = "".join(json.dumps([path, name] + ["%s:%d" % a for a in args]) + "\n" for path, name, args in calls)
    done = subprocess.run(["node", os.path.join(HERE, "calls.js")], input=lines, capture_output=True, text=True)
    answers = done.stdout.split("\n")[:-1]
    if len(answers) != len(calls):
        raise SystemExit("node answered %d of %d calls: %s" % (len(answers), len(calls), done.stderr[-300:]))
    return answers


def in_wasmgate(gate, path, name, args):
    """The answer of `wasmgate invoke` in the same words, and the units of fuel; a trap as `trap` and a word of its own: the cause."""
    words = ["%d" % bits for _, bits in args]
    done = subprocess.run([gate, "invoke", path, name] + words, capture_output=True, text=True)
    if done.returncode == 4 and done.stderr.endswith(" NoExport\n"):
        done = subprocess.run([gate, "invoke", path, name + ".bits"] + words, capture_output=True, text=True)
    lines = done.stdout.split("\n")
    if done.returncode == 0:
        fuel = int(lines[-2].split()[1])
        return (lines[0] if len(lines) > 2 else ""), fuel
    return ("trap" if done.returncode == 10 and "fuel" not in done.stderr else "status %d" % done.returncode), done.stderr.strip()
