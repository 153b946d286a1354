#!/usr/bin/env python3
"""The host calls, made by modules: runs each of cases/ and compares what the program writes. README.md tells the form of a case.

    run.py [CASE ..]      runs the cases of these names, or all
    run.py program FILE   the program of a case, as the module reads it

WASMGATE names another program in place of the launcher. It exits with 1 where an answer differs, or where no case gives a status of a call.
"""
import difflib
import importlib.machinery
import importlib.util
import os
import pathlib
import re
import subprocess
import sys
import tempfile

HERE = pathlib.Path(__file__).resolve().parent
GATE = os.environ.get("WASMGATE") or str(HERE.parents[1] / "wasmgate")
SILENT = {"set", "return", "trap", "forever", "fresh", "proc_exit"}
PLAIN = """[[vm]]
name = "a"
module = "calls.wasm"
fuel = 1000000000
configuration = PROGRAM
[[plugin]]
name = "p"
vm = "a"
[[route]]
path = "/{*rest}"
filters = ["p"]
"""
TCP = PLAIN.partition("[[route]]")[0].replace("[[vm]]", '[gateway]\ntcp = ["p"]\n[[vm]]', 1).replace("calls.wasm", "streams.wasm")
# the calls that take no place and no range of memory
WITHOUT_PLACES = {
    "proxy_set_tick_period_milliseconds", "proxy_set_effective_context", "proxy_done", "proxy_continue_stream", "proxy_close_stream",
    "proxy_increment_metric", "proxy_record_metric", "environ_get", "args_get",
}


def talk_tool():
    """tools/talk as a module."""
    path = str(HERE.parents[1] / "tools" / "talk")
    loader = importlib.machinery.SourceFileLoader("talk", path)
    module = importlib.util.module_from_spec(importlib.util.spec_from_loader("talk", loader))
    sys.dont_write_bytecode = True
    loader.exec_module(module)
    return module


def parts_of(text):
    """The parts of a case: each heading with its lines."""
    parts, lines = {}, []
    for line in text.splitlines():
        if line.startswith("== "):
            lines = parts.setdefault(line[3:].strip(), [])
        else:
            lines.append(line)
    return parts


def stretched(line):
    """A line with each {TEXT*N} as N times TEXT."""
    return re.sub(r"\{([^{}*]+)\*(\d+)\}", lambda found: found.group(1) * int(found.group(2)), line)


def letters_of(form):
    """The letters that calls.c gives its calls, statements or callbacks, by their names."""
    return {name: letter for letter, name in re.findall(form + r"\('(.)', (\w+)", (HERE / "calls.c").read_text())}


STATEMENTS = {**letters_of("CALL"), **letters_of("DO")}
CALLBACKS = letters_of("AT")


def statement_of(line):
    """A statement as the module reads it: a letter, the length of the text in four digits, the text."""
    text = stretched(line.split(" => ")[0].rstrip())
    words = text.split()
    letter = STATEMENTS[words[2] if words[0] == "times" else words[0]]
    if words[0] == "times":
        letter, text = "*", letter + text[6:]
    return "%s%04x%s" % (letter, len(text), text)


def program_of(lines):
    """The program as the module reads it: whether it has paths, and its sections, each with a letter, what fits, and its length."""
    sections = []
    for line in lines:
        if line.startswith("["):
            words = line[1:-1].split()
            fits = "" if len(words) == 1 else words[1] if words[1][0] == "/" else "#" + words[1]
            sections.append((CALLBACKS[words[0]] + fits, []))
        elif line and line[0] not in "#~+":
            sections[-1][1].append(statement_of(line))
    out = "/" if any(head[1:2] == "/" for head, _ in sections) else "-"
    for head, statements in sections:
        body = "".join(statements)
        out += "%s:%04x%s" % (head, len(body), body)
    return out


def reports_of(lines, name=""):
    """What each section of a program is to log, by the section's heading."""
    sections, section = {}, None
    for line in lines:
        if line.startswith("["):
            section = sections.setdefault(name + line.strip(), [])
        elif line.startswith("~ "):
            section.append(stretched(line[2:]))
        elif line.startswith("+ "):
            section.append(name + line[2:])
        elif line and not line.startswith("#"):
            statement, _, result = line.partition(" => ")
            words = statement.split()
            word = words[2] if words[0] == "times" else words[0]
            if result == "!":
                continue  # it does not return
            if result:
                section.append(stretched("log critical: %s %s" % (word, result)))
            elif word not in SILENT:
                raise SystemExit("no result: " + line)
    return sections


def put_in(lines, sections):
    """Lines in which each heading of a section stands for its reports."""
    for line in lines:
        named = re.match(r"(\w+: )?\[", line)
        repeated = re.match(r"\* (\d+) (.*)", line)
        if named:
            yield from put_in(sections[line.strip()], sections)
        elif repeated:
            yield from [repeated.group(2)] * int(repeated.group(1))
        else:
            yield stretched(line)


class Case:
    def __init__(self, path):
        self.name = path.name
        parts = parts_of(path.read_text())
        self.config = "\n".join(parts.get("config") or (TCP if "tcp" in parts else PLAIN).splitlines()) + "\n"
        if "module big" in parts:
            self.config = self.config.replace("calls.wasm", "big.wasm").replace('"streams.wasm', '"big_streams.wasm')
        sections = {}
        for heading, lines in parts.items():
            words = heading.split()
            if words[0] == "program":
                name = words[1] + ": " if len(words) > 1 else ""
                sections.update(reports_of(lines, name))
                place = "PROGRAM" + ("_" + words[1] if len(words) > 1 else "")
                self.config = re.sub(r"\b%s\b" % place, lambda _: "'''\n" + program_of(lines) + "'''", self.config)
        self.talk = [stretched(line) for line in parts["talk"]]
        self.wanted = list(put_in([line for line in parts["text"] if line], sections))


def ran(case, talk, folder):
    """What the program writes, as text."""
    config = os.path.join(folder, "gate.toml")
    with open(config, "w", encoding="utf-8") as file:
        file.write(case.config)
    script = "".join(line + "\n" for line in talk.script_of(case.talk))
    done = subprocess.run([GATE, "replay", "--config", config, "-"], input=script, stdout=subprocess.PIPE, stderr=subprocess.PIPE,
                          text=True, cwd=HERE)
    return list(talk.text_of(done.stdout.splitlines())) + done.stderr.splitlines()


def lacking(cases):
    """The statuses of calls that no case has."""
    seen = set()
    for case in cases:
        for line in case.wanted:
            if line.startswith("log critical: "):
                words = line.split()
                seen |= {(words[2], int(word.split("*")[0])) for word in words[3:] if re.fullmatch(r"\d+(\*\d+)?", word)}
                if line == "log critical: vm a died: exit":
                    seen.add(("proc_exit", 0))
    for line in (HERE / "table.txt").read_text().splitlines():
        if line and not line.startswith("#"):
            module, name, _, own = line.split()
            statuses = {0} | ({int(n) for n in own.split(",")} if own != "-" else set())
            if name != "proc_exit":
                statuses |= {10 if module == "env" else 52} | (set() if name in WITHOUT_PLACES else {6 if module == "env" else 21})
            for status in sorted(statuses):
                if (name.replace("proxy_", ""), status) not in seen:
                    yield "%s %d" % (name, status)


def main(words):
    if words[:1] == ["program"]:
        for heading, lines in parts_of(pathlib.Path(words[1]).read_text()).items():
            if heading == "program":
                sys.stdout.write(program_of(lines))
        return 0
    talk = talk_tool()
    cases = [Case(path) for path in sorted((HERE / "cases").iterdir()) if not words or path.name in words]
    failed = 0
    with tempfile.TemporaryDirectory() as folder:
        for case in cases:
            got = ran(case, talk, folder)
            if got != case.wanted:
                failed += 1
                print("FAIL host_calls/%s" % case.name, flush=True)
                for line in list(difflib.unified_diff(case.wanted, got, "wanted", "got", lineterm=""))[:60]:
                    print("  " + line[:300])
    left = [] if words else list(lacking(cases))
    for line in left:
        print("no case gives %s" % line)
    print("host calls: %d passed, %d failed" % (len(cases) - failed, failed))
    return 1 if failed or left else 0


if __name__ == "__main__":
    sys.exit(main(sys.argv[1:]))
