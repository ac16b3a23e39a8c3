"""Prints each public function of the crates that has a `requires`, and ends with 1 if there is one.

A method of a public trait counts as public.
"""
import pathlib
import re
import sys

ITEM = re.compile(r"^\s*(pub(\([^)]*\))?\s+)?(impl|trait)\b|^(\s*)(pub(\([^)]*\))?\s+)?(const\s+)?fn\s+(\w+)")


def offenders(path):
    in_public_trait = False
    name, public = None, False
    for number, line in enumerate(path.read_text().splitlines(), 1):
        item = ITEM.match(line)
        if item and item.group(3):
            in_public_trait = item.group(3) == "trait" and bool(item.group(1))
            name = None
        elif item:
            name = item.group(8)
            public = item.group(5) is not None and item.group(6) is None
            public = public or (in_public_trait and bool(item.group(4)))
        elif name and public and re.match(r"\s*requires\b", line):
            yield f"{path}:{number}: {name}"


found = [o for p in sorted(pathlib.Path(sys.argv[1]).glob("*/src/**/*.rt")) for o in offenders(p)]
print("\n".join(found))
sys.exit(1 if found else 0)
