"""Writes each proof file that a check offers, from the check's output, where the file is not there yet."""
import os, re, sys

path, lines = None, []


def flush():
    global path, lines
    if path and not os.path.exists(path):
        os.makedirs(os.path.dirname(path), exist_ok=True)
        while lines and not lines[-1].strip():
            lines.pop()
        with open(path, "w", encoding="utf-8") as f:
            f.write("\n".join(lines) + "\n")
        print("wrote", path)
    path, lines = None, []


with open(sys.argv[1], encoding="utf-8") as f:
    for line in f.read().split("\n"):
        offer = re.match(r"help: write (\S+) with these lines", line)
        if offer:
            flush()
            path = offer.group(1)
        elif path is not None:
            if line.startswith("    ") or line == "":
                lines.append(line[4:])
            else:
                flush()
flush()
