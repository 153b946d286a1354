#!/usr/bin/env python3
"""Holds the table of host calls in the crates against the data of table.txt: names, parameters, and the statuses that the
documentation of each function tells. It exits with 1 where they differ."""
import pathlib
import re
import sys

ROOT = pathlib.Path(__file__).resolve().parents[2]
LETTERS = {"Number": "i", "Wide": "I", "Input": "ii", "Result": "i", "WideResult": "i", "Output": "ii"}
# statuses that a function's words give by pointing at another function's
ALIKE = {
    "proxy_replace_header_map_value": "proxy_add_header_map_value",
    "proxy_close_stream": "proxy_continue_stream",
}


def wanted():
    """The rows of the data file."""
    rows = {}
    for line in (ROOT / "tests/host_calls/table.txt").read_text().splitlines():
        if line and not line.startswith("#"):
            module, name, params, statuses = line.split()
            numbers = [] if statuses == "-" else [int(n) for n in statuses.split(",")]
            rows[module, name] = (params.strip("-"), numbers)
    return rows


def table():
    """The rows of the definitions: a name and its parameters' letters."""
    text = (ROOT / "crates/abi_model/specs/Table.antt").read_text()
    rows = {}
    for module, prefix in (("env", ""), ("wasi", "wasi_")):
        alias = "call" if module == "env" else "wasi"
        names = dict(re.findall(rf'^{prefix}name_of {alias}\.(\w+) = codes "(\w+)"', text, re.M))
        kinds = dict(re.findall(rf"^{prefix}row_of {alias}\.(\w+) = (.*)$", text, re.M))
        for variant, name in names.items():
            rows[module, name] = "".join(LETTERS[k] for k in re.findall(r"\w+", kinds[variant]))
    return rows


def told():
    """The statuses that the words before each public function tell."""
    rows = {}
    for crate in ("abi_maps", "abi_services"):
        for path in sorted((ROOT / "crates" / crate / "src").glob("*.rt")):
            for words, name in re.findall(r"((?:^///.*\n)+)pub fn (\w+)", path.read_text(), re.M):
                rows[name] = sorted({int(n) for n in re.findall(r"(?<![\d,])(\d+): ", words)})
    return rows


def main():
    want, rows, words = wanted(), table(), told()
    faults = [f"{key}: only one of table and data has it" for key in want.keys() ^ rows.keys()]
    for (module, name), (params, statuses) in want.items():
        if rows.get((module, name), params) != params:
            faults.append(f"{name}: parameters {rows[module, name]}, wanted {params}")
        function = name if module == "env" else f"wasi_{name}"
        if function == "wasi_proc_exit":
            continue
        own = [n for n in words.get(ALIKE.get(function, function), [-1]) if n not in (6, 21)]
        if own != statuses:
            faults.append(f"{name}: statuses {own}, wanted {statuses}")
    for fault in faults:
        print(fault)
    print(f"{len(want)} host calls, {len(faults)} differences")
    return 1 if faults else 0


if __name__ == "__main__":
    sys.exit(main())
