#!/usr/bin/env python3
"""Runs the programs of docs/LIBRARY.md as a reader would: writes each file that the page names, runs each block of
commands in turn, and compares what it prints with the comment that ends the block.

    page_programs.py PAGE TOP

TOP is the folder in which `bindings` lies. Commands whose program isn't there are passed over, and named; so are those of
node where there is no module for it.
"""

import pathlib
import re
import shutil
import subprocess
import sys
import tempfile

NEEDS = {"cc": "cc", "python3": "python3", "cargo": "cargo", "node": "node"}
MODULE = "bindings/web/out/dnsnames_c32.wasm"


def blocks(page: str):
    """The page's blocks: ('file', name, text) and ('commands', None, text)."""
    pattern = r"(?:^`(?P<name>[\w./]+)`:\n\n)?^```(?P<kind>\w+)\n(?P<text>.*?)^```$"
    for block in re.finditer(pattern, page, re.MULTILINE | re.DOTALL):
        if block["kind"] == "sh":
            yield "commands", None, block["text"]
        elif block["name"]:
            yield "file", block["name"], block["text"]


def main() -> int:
    page, top = map(pathlib.Path, sys.argv[1:])
    failed = ran = 0
    settings = ""
    with tempfile.TemporaryDirectory() as folder:
        (pathlib.Path(folder) / "bindings").symlink_to((top / "bindings").resolve())
        for kind, name, text in blocks(page.read_text()):
            if kind == "file":
                target = pathlib.Path(folder) / name
                target.parent.mkdir(parents=True, exist_ok=True)
                target.write_text(text)
                continue
            lines = text.splitlines()
            commands = [line for line in lines if not line.startswith("# ")]
            wanted = "".join(line[2:] + "\n" for line in lines if line.startswith("# "))
            missing = [tool for word, tool in NEEDS.items() if re.search(rf"\b{word}\b", text) and not shutil.which(tool)]
            if re.search(r"\bnode\b", text) and not (top / MODULE).exists():
                missing.append(MODULE)
            if missing:
                print(f"passed over, for want of {', '.join(missing)}: {commands[0]}")
                continue
            settings += "".join(line + "\n" for line in commands if line.startswith("export "))
            script = "set -e\n" + settings + "\n".join(line for line in commands if not line.startswith("export "))
            run = subprocess.run(["sh", "-c", script], cwd=folder, capture_output=True, text=True, check=False)
            ran += 1
            if run.returncode != 0 or run.stdout != wanted:
                failed += 1
                print(f"{text}status {run.returncode}, and this was printed:\n{run.stdout}{run.stderr}")
    print(f"{ran} blocks of commands, {failed} failed")
    return 1 if failed or not ran else 0


sys.exit(main())
