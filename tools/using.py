#!/usr/bin/env python3
"""Makes the repository that docs/USING.md tells of, from that page alone, and runs its program before it is proved.

    tools/using.py

It compares crates.txt and what the program prints with the page, and ends with 1 where one differs.
"""
import os
import re
import subprocess
import sys
import tempfile
from pathlib import Path

TOP = Path(__file__).resolve().parent.parent
BLOCK = re.compile(r"^<!-- own: (\S+) -->\n```[^\n]*\n(.*?)^```$", re.M | re.S)


def main():
    page = dict(BLOCK.findall((TOP / "docs/USING.md").read_text(encoding="utf-8")))
    program = next(name for name in page if name.endswith("main.rt"))
    with tempfile.TemporaryDirectory() as where:
        env = dict(os.environ, DELUMORAFY=str(TOP))
        subprocess.run(["sh", "-e"], input=page["commands"].encode(), cwd=where, env=env, check=True, stdout=subprocess.DEVNULL)
        mine = Path(where) / "mine"
        (mine / program).write_text(page[program])
        ran = subprocess.run(["rt", "try", "--steps", "1"], cwd=(mine / program).parent.parent, capture_output=True, text=True)
        got = {"crates.txt": (mine / "crates.txt").read_text(), "output": ran.stdout}
    for name, text in got.items():
        if text != page[name]:
            print(f"using: {name} is\n{text}and not\n{page[name]}{ran.stderr}")
            return 1
    print("using: the repository of docs/USING.md prints what it says")
    return 0


if __name__ == "__main__":
    sys.exit(main())
