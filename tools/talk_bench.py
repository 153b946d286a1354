"""Tests of filters for `tools/talk test`, and what filters do for `tools/talk calls` and `fuel`. docs/TESTING_A_FILTER.md has the form of test files.

Host calls are told by copies of the modules that record them (talk_copies.py). Fuel is searched: a case is played with less and less fuel, as long as its
outcome stays the same. Of one callback it is searched with a copy that first goes round a loop in that callback, so that no other one is dearer.
"""
import collections
import json
import os
import re
import subprocess
import sys
import tempfile
import xml.sax.saxutils

import talk_copies as copies

talk = None  # The module `talk`, which sets it.
FUEL, MOST_FUEL = 10_000_000, 10**12
STREAMS = ("up", "down", "upbody", "downbody", "log", "out", "call", "callback")
OF_MODULE = {"configuration": ("plugin", "configuration"), "fail": ("plugin", "fail"), "vm_configuration": ("vm", "configuration"),
             "fuel": ("vm", "fuel"), "pages": ("vm", "pages")}
OF_GATEWAY = ("workers", "deadline_ms", "log_level")


class Refused(Exception):
    """The program did not play: what it wrote on standard error."""


# ---------------------------------------------------------------- Configurations


def toml_value(value):
    """A text, number or list of texts as TOML."""
    if isinstance(value, list):
        return "[" + ", ".join(toml_value(it) for it in value) + "]"
    return json.dumps(value, ensure_ascii=False).replace("\x7f", "\\u007f")


def toml_of(config):
    """The TOML of a configuration as `read_config` gives it."""
    lines = []
    for name, table in [("[gateway]", config.get("gateway", {}))] + [
        ("[[%s]]" % name, table) for name in ("vm", "plugin", "route") for table in config.get(name, [])
    ]:
        lines.append(name)
        lines += ["%s = %s" % (key, toml_value(value)) for key, value in table.items()]
    return "\n".join(lines) + "\n"


def plain_config(modules, is_tcp=False):
    """The configuration that `replay SCRIPT MODULE..` plays over, or one of connections that are streams of bytes."""
    names = ["m%d" % (at + 1) for at in range(len(modules))]
    return {
        "gateway": {"tcp": names} if is_tcp else {},
        "vm": [{"name": name, "module": os.path.abspath(path)} for name, path in zip(names, modules)],
        "plugin": [{"name": name, "vm": name} for name in names],
        "route": [{"path": path, "filters": names} for path in ("/", "/{*rest}") if not is_tcp],
    }


def read_config(path, folder="."):
    """The configuration in a file, with its modules' paths from `folder`."""
    try:
        import tomllib
    except ImportError:
        raise talk.Fault("%s: a configuration needs a python from 3.11 on" % path) from None
    try:
        with open(path, "rb") as file:
            config = tomllib.load(file)
        for vm in config.get("vm", []):
            vm["module"] = os.path.join(os.path.abspath(folder), vm["module"])
    except (AttributeError, KeyError, TypeError, ValueError) as fault:
        raise talk.Fault("%s: no configuration (`wasmgate check` says why): %s" % (path, fault)) from None
    return config


# ---------------------------------------------------------------- What comes of a script


def bodies(data, is_response):
    """The bodies of the messages in bytes that went one way, each as text with escapes. One that goes on to the end of the connection is the last."""
    out = []
    while True:
        head, end, rest = data.partition(b"\r\n\r\n")
        if not end:
            return out
        fields = head.lower().split(b"\r\n")[1:]
        status = head.split(b" ")[1:2]
        length = [int(it.partition(b":")[2]) for it in fields if it.startswith(b"content-length:")]
        body = b""
        if b"transfer-encoding: chunked" in fields:
            while True:
                size, _, rest = rest.partition(b"\r\n")
                count = int(size or b"0", 16)
                if not count:
                    break
                body, rest = body + rest[:count], rest[count + 2 :]
            while rest and not rest.startswith(b"\r\n"):
                rest = rest.partition(b"\r\n")[2]
            rest = rest[2:]
        elif length:
            body, rest = rest[: length[0]], rest[length[0] :]
        elif is_response and status and status[0][:1] != b"1" and status[0] not in (b"204", b"304"):
            body, rest = rest, b""
        out.append(talk.escaped(body))
        data = rest


class Outcome:
    """What `replay` printed: lines, and streams of text by their name, worker and connection."""

    def __init__(self, lines):
        self.lines, self.sent, self.log, self.records = [], collections.defaultdict(bytes), [], []
        worker = 1
        for line in lines:
            words = line.split(" ")
            if words[0] == "log":
                text = bytes.fromhex("".join(words[2:]))
                record = copies.record_of(text)
                if record:
                    self.records.append(record)
                    continue
                self.log.append("%s: %s" % (words[1], talk.escaped(text)))
            elif words[0] == "on":
                worker = int(words[1])
            elif words[0] in ("up", "down"):
                self.sent[words[0], worker, int(words[1])] += bytes.fromhex(words[2])
            self.lines.append(line)

    def text(self):
        return list(talk.text_of(self.lines))

    def told(self):
        """All of it that does not depend on how lines of the output are cut."""
        rest = [line for line in self.lines if line.split(" ")[0] not in ("up", "down", "on")]
        return dict(self.sent), rest

    def stream(self, name, worker, line):
        """The lines of a stream."""
        if name in ("up", "down"):
            parts = self.sent.get((name, worker, line), b"").split(b"\r\n")
            return [talk.escaped(part) for part in (parts if parts[-1] else parts[:-1])]
        if name in ("upbody", "downbody"):
            return bodies(self.sent.get((name[:-4], worker, line), b""), name == "downbody")
        return self.log if name == "log" else self.text()


Callback = collections.namedtuple("Callback", "vm name answer calls")


class Play:
    """A script over a configuration, and what comes of it. The copies of its modules lie in a folder of its own."""

    def __init__(self, script, config):
        self.script, self.config = script, config
        self.folder = tempfile.TemporaryDirectory()
        self.modules = []
        for vm in config.get("vm", []):
            with open(vm["module"], "rb") as file:
                self.modules.append(file.read())
        self.outcome = self.played({})
        self.callbacks_, self.units_ = None, {}

    def played(self, changes):
        """The outcome with other keys of VMs, by their places."""
        vms = [dict(vm, **changes.get(at, {})) for at, vm in enumerate(self.config.get("vm", []))]
        path = os.path.join(self.folder.name, "gate.toml")
        with open(path, "w", encoding="utf-8") as file:
            file.write(toml_of(dict(self.config, vm=vms)))
        done = subprocess.run([talk.program(), "replay", "--config", path, "-"], input=self.script, capture_output=True, text=True)
        if done.returncode:
            raise Refused(done.stderr.strip() or "status %d" % done.returncode)
        return Outcome(done.stdout.splitlines())

    def copy(self, name, data):
        """The path of a copy."""
        path = os.path.join(self.folder.name, name)
        with open(path, "wb") as file:
            file.write(data)
        return path

    def fuel(self, at):
        return self.config["vm"][at].get("fuel", FUEL)

    def callbacks(self):
        """The callbacks that were made, in order, each with its host calls and their answers."""
        if self.callbacks_ is not None:
            return self.callbacks_
        changes, names = {}, []
        for at, data in enumerate(self.modules):
            copy, calls, callbacks = copies.watched(data, at)
            names.append((calls, callbacks))
            changes[at] = {"module": self.copy("watched%d.wasm" % at, copy), "fuel": min(MOST_FUEL, self.fuel(at) * 20 + 1_000_000)}
        outcome = self.played(changes)
        if outcome.told() != self.outcome.told():
            raise talk.Fault("a copy that records its calls does something else (does the filter use up its fuel, or most of its log?)")
        out, inside, before = [], {}, collections.defaultdict(list)
        for record in outcome.records:
            calls, callbacks = names[record.vm]
            vm = self.config["vm"][record.vm]["name"]
            if record.kind == copies.CALLED:
                name = calls[record.index]
                inside.get(record.vm, before[record.vm]).append((name.text, record.value if name.gives else None))
            elif record.kind == copies.ENTERED:
                # A callback that was entered and never left has ended its VM.
                inside[record.vm] = made = []
                out.append(Callback(vm, callbacks[record.index].text, "died", made))
            else:
                name = callbacks[record.index]
                made = inside.pop(record.vm, [])
                place = max(at for at, it in enumerate(out) if it.calls is made)
                out[place] = out[place]._replace(answer=record.value if name.gives else None)
        self.callbacks_ = out
        return out

    def least(self, at, changes, low, high):
        """The least fuel of the VM at a place, above `low` and up to `high`, with the same outcome."""
        while high - low > 1:
            middle = (low + high) // 2
            if self.played({at: dict(changes, fuel=middle)}).lines == self.outcome.lines:
                high = middle
            else:
                low = middle
        return high

    def is_spent(self, at):
        """Whether a VM died since its fuel was spent."""
        return any(line == "critical: vm %s died: fuel" % self.config["vm"][at]["name"] for line in self.outcome.log)

    def names(self, at):
        """The callbacks of a VM that were made, each once."""
        return list(dict.fromkeys(it.name for it in self.callbacks() if it.vm == self.config["vm"][at]["name"]))

    def units(self, at, callback=None):
        """The least fuel of a VM with the same outcome, or what the dearest call of a callback that was made takes."""
        if (at, callback) not in self.units_:
            if callback is None:
                found = self.least(at, {}, 0, self.fuel(at))
            else:
                least = self.units(at)
                # The loop alone takes as much as every other callback.
                copy, units = copies.slowed(self.modules[at], callback, least // 6 + 1)
                changes = {"module": self.copy("slowed.wasm", copy)}
                found = self.least(at, changes, units, min(MOST_FUEL, units + least)) - units
            self.units_[at, callback] = found
        return self.units_[at, callback]


def shown_calls(play):
    several = len(play.modules) > 1
    for callback in play.callbacks():
        yield (callback.vm + " " if several else "") + with_answer(callback.name, callback.answer)
        for name, status in callback.calls:
            yield "    " + with_answer(name, status)


def with_answer(name, answer):
    return name if answer is None else "%s %s" % (name, answer)


def shown_fuel(play):
    for at, vm in enumerate(play.config.get("vm", [])):
        if play.is_spent(at):
            yield "%s spends its fuel, %d units" % (vm["name"], play.fuel(at))
            continue
        yield "%s least fuel %d" % (vm["name"], play.units(at))
        for name in sorted(play.names(at), key=lambda name: -play.units(at, name)):
            yield "    %s %d" % (name, play.units(at, name))


def show(what, script, words, is_tcp):
    """`tools/talk calls` and `tools/talk fuel`."""
    try:
        play = Play(script, read_config(words[1]) if words[:1] == ["--config"] else plain_config(words, is_tcp))
        for line in (shown_calls if what == "calls" else shown_fuel)(play):
            print(line)
        return 0
    except (Refused, copies.Malformed) as fault:
        sys.stderr.write("talk: %s\n" % fault)
        return 1


# ---------------------------------------------------------------- Test files


class Want:
    """What a line `wants` of a test file asks for."""

    def __init__(self, text, number, worker, line, folder):
        self.text, self.number, self.worker, self.line = text, number, worker, line
        words = text.split(" ", 2)[1:]
        self.is_none = words[:1] == ["no"]
        if self.is_none:
            words = (words[1] if len(words) > 1 else "").split(" ", 1)
        self.stream, rest = (words + ["", ""])[:2]
        if self.stream == "text" and not self.is_none:
            self.rest = os.path.join(folder, rest)
            return
        if self.stream == "fuel" and not self.is_none:
            found = re.fullmatch(r"(?:([a-z_]+) )?<= ([0-9]+)", rest)
            if not found:
                raise talk.Fault("line %d: wants fuel [CALLBACK] <= NUMBER" % number)
            self.callback, self.most = found.group(1), int(found.group(2))
            return
        if self.stream not in STREAMS:
            raise talk.Fault("line %d: wants one of %s, text and fuel" % (number, ", ".join(STREAMS)))
        self.is_pattern = rest.startswith("~ ")
        self.rest = rest[2:] if self.is_pattern else rest.rstrip()
        if self.is_pattern:
            try:
                self.pattern = re.compile(self.rest)
            except re.error as fault:
                raise talk.Fault("line %d: %s" % (number, fault)) from None

    def takes(self, line):
        if self.is_pattern:
            return self.pattern.search(line) is not None
        return not self.rest or line.rstrip() == self.rest


class Case:
    """A case of a test file."""

    def __init__(self, name, number, modules, gateway, config, is_tcp):
        self.name, self.number = name, number
        self.modules, self.gateway, self.config, self.is_tcp = [dict(it) for it in modules], dict(gateway), config, is_tcp
        self.lines, self.wants, self.owns_modules = [""] * number, [], False

    def configuration(self):
        if self.config:
            return read_config(self.config, os.path.dirname(self.config) or ".")
        config = plain_config([it["module"] for it in self.modules], self.is_tcp)
        config["gateway"].update(self.gateway)
        for at, settings in enumerate(self.modules):
            for key, value in settings.items():
                if key in OF_MODULE:
                    table, name = OF_MODULE[key]
                    config[table][at][name] = value
        return config


def cases_of(path):
    """The cases of a test file."""
    folder = os.path.dirname(path)
    first = Case("", 0, [], {}, None, False)
    cases, case, worker, line = [], first, 1, 1
    for number, text in enumerate(talk.lines_of(path), 1):
        word, _, rest = text.partition(" ")
        case.lines.append("")
        try:
            if word == "case":
                case = Case(rest.strip() or "line %d" % number, number, first.modules, first.gateway, first.config, first.is_tcp)
                cases.append(case)
                worker = line = 1
            elif word == "module":
                if case is not first and not case.owns_modules:
                    case.modules, case.owns_modules = [], True
                case.modules.append({"module": os.path.join(folder, rest)})
            elif word == "config":
                case.config = os.path.join(folder, rest)
            elif text.split() == ["tcp"]:
                case.is_tcp = True
            elif word in OF_MODULE:
                if not case.modules:
                    raise talk.Fault("no module is named before")
                value = int(rest) if word in ("fuel", "pages") else talk.unescaped(rest).decode()
                case.modules[-1][word] = value
            elif word in OF_GATEWAY:
                case.gateway[word] = rest if word == "log_level" else int(rest)
            elif case is first:
                if text.strip() and not text.startswith("#"):
                    raise talk.Fault("a line before the first case that names no module or setting")
            elif word == "wants":
                case.wants.append(Want(text, number, worker, line, folder))
            else:
                case.lines[-1] = text
                if word == "line":
                    line = int(rest)
                elif word == "on":
                    worker = int(rest)
        except (ValueError, talk.Fault) as fault:
            raise talk.Fault("%s: %s" % (path, fault if str(fault).startswith("line ") else "line %d: %s" % (number, fault))) from None
    if not cases:
        raise talk.Fault("%s: no case" % path)
    for case in cases:
        if not case.wants:
            raise talk.Fault("%s: line %d: the case wants nothing" % (path, case.number))
    return cases


def fault_of(want, play, places):
    """Why what a want asks for did not come, in lines, or None. `places` has how far each stream was looked at."""
    if want.stream == "text":
        with open(want.rest, encoding="utf-8") as file:
            wanted = file.read().splitlines()
        got = play.outcome.text()
        return None if got == wanted else ["the whole outcome is"] + got
    if want.stream == "fuel":
        if want.callback and not any(want.callback in play.names(at) for at in range(len(play.modules))):
            return ["no call of %s was made" % want.callback]
        for at, vm in enumerate(play.config["vm"]):
            if play.is_spent(at):
                return ["%s spends its fuel, %d units" % (vm["name"], play.fuel(at))]
            if want.callback in [None] + play.names(at) and play.units(at, want.callback) > want.most:
                return ["%s takes %d units" % (vm["name"], play.units(at, want.callback))]
        return None
    if want.stream == "callback":
        lines = [with_answer(it.name, it.answer) for it in play.callbacks()]
    elif want.stream == "call":
        lines = [with_answer(*call) for it in play.callbacks() for call in it.calls]
    else:
        lines = play.outcome.stream(want.stream, want.worker, want.line)
    if want.is_none:
        found = [line for line in lines if want.takes(line)]
        return ["there is"] + found if found else None
    key = want.stream, want.worker, want.line
    first = places.get(key, 0)
    for at in range(first, len(lines)):
        if want.takes(lines[at]):
            places[key] = at + 1
            return None
    return ["what is left of `%s` is" % want.stream] + lines[first:]


def judged(case, options):
    """The faults of a case as lines, and remarks."""
    faults, remarks, places = [], [], {}
    try:
        script = "".join(line + "\n" for line in talk.script_of(case.lines))
        play = Play(script, case.configuration())
        for want in case.wants:
            fault = fault_of(want, play, places)
            if fault:
                faults += ["line %d: %s" % (want.number, want.text)] + ["    " + line for line in fault]
        if "--calls" in options:
            remarks += shown_calls(play)
        if "--fuel" in options:
            remarks += shown_fuel(play)
    except (Refused, copies.Malformed, talk.Fault) as fault:
        faults.append(str(fault))
    except OSError as fault:
        faults.append("%s: %s" % (fault.filename, fault.strerror))
    return faults, remarks


def junit(results):
    """The results as JUnit's XML."""
    quoted = xml.sax.saxutils.quoteattr
    lines = ['<?xml version="1.0" encoding="UTF-8"?>']
    lines.append('<testsuite name="talk" tests="%d" failures="%d">' % (len(results), sum(bool(faults) for _, _, faults in results)))
    for path, name, faults in results:
        lines.append("<testcase classname=%s name=%s>" % (quoted(path), quoted(name)))
        if faults:
            lines.append("<failure message=%s>%s</failure>" % (quoted(faults[0]), xml.sax.saxutils.escape("\n".join(faults))))
        lines.append("</testcase>")
    return "\n".join(lines + ["</testsuite>"]) + "\n"


def test(words):
    """`tools/talk test`: 0 where each case is as wanted, 1 where one is not, 2 where a file is of no form or cannot be read."""
    options, paths, out = [it for it in words if it in ("--calls", "--fuel")], [], None
    words = [it for it in words if it not in options]
    while words:
        word = words.pop(0)
        if word == "--junit" and words:
            out = words.pop(0)
        elif word.startswith("-"):
            sys.stderr.write(talk.__doc__)
            return 2
        else:
            paths.append(word)
    if not paths:
        sys.stderr.write(talk.__doc__)
        return 2
    try:
        cases = [(path, case) for path in paths for case in cases_of(path)]
    except talk.Fault as fault:
        sys.stderr.write("talk: %s\n" % fault)
        return 2
    print("TAP version 13\n1..%d" % len(cases))
    results = []
    for at, (path, case) in enumerate(cases, 1):
        faults, remarks = judged(case, options)
        results.append((path, case.name, faults))
        print("%s %d - %s" % ("not ok" if faults else "ok", at, case.name.replace("#", "\\#")))
        for line in remarks + faults:
            print("# " + line)
        sys.stdout.flush()
    if out:
        with open(out, "w", encoding="utf-8") as file:
            file.write(junit(results))
    return 1 if any(faults for _, _, faults in results) else 0
