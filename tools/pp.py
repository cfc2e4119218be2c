"""Shows the goals and errors of a check shortly: what was loaded and proved is left out, and so are offered files and module prefixes."""
import re, sys

out, offered = [], False
with open(sys.argv[1], encoding="utf-8") as f:
    for line in f.read().split("\n"):
        if re.match(r"(statements|library|logic|axioms) \S+: |checked \S+, |fn \S+: proved$|rt: chose ", line):
            continue
        if re.match(r"help: write (\S+) with these lines", line):
            offered = True
            continue
        if offered:
            if line.startswith("    ") or line == "":
                continue
            offered = False
        out.append(line)
text = "\n".join(out)
text = re.sub(r"\b(mathlib|Prim|native|lib|borrow|denote|mir|contract|Rattle)(\.[^\s().,{}]+)*\.(?=[^\s().{}])", "", text)
print(text[:int(sys.argv[2]) if len(sys.argv) > 2 else 12000])
