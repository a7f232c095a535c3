#!/usr/bin/env python3
"""What the functions of a built crate weigh: bench/weights.py CRATE [HOW MANY], at the top of the repository.

It reads what is built of the crate (`bench/linkfrom.py` links it), so it takes no check and a second of time. For each
function: MB of the modules that the kit makes of it, and KB of its code. The code grows with each value that is let go
in pieces in it; the modules, beyond it, with each owned enum that is alive. Neither is seconds: they put the functions
of a crate in order, and `Tie` over trees stands in neither. Derived drops, most of types of crates below and proved
anew here, are summed up first.
"""
import collections
import json
import os
import re
import sys

# What is made of one function, beside its name.
MADE = re.compile(r"(Answers|Carried|Code|Given|Goals|Invariants|Join|Key|Kinds|Layout|Lts|Met|Named|Proof|Reads|Statement|Symbol|TheLink|Tie|View)\b")


def function_of(module):
    words = []
    for word in module.split("/")[1:]:
        if MADE.match(word):
            break
        words.append(word)
    return "::".join(words) or "(the crate)"


def main():
    if len(sys.argv) not in (2, 3):
        sys.exit(__doc__)
    name, count = sys.argv[1], int(sys.argv[2]) if len(sys.argv) == 3 else 20
    built = f"crates/{name}/out/rlib/{name}.rlib/toolchain"
    if not os.path.exists(built):
        sys.exit(f"{name} isn't built here")
    made, code = collections.Counter(), collections.Counter()
    with open(f"{built}/made.json", encoding="utf-8") as rows:
        for module, _, size, *_ in map(json.loads, rows):
            if module.startswith("proofs/"):
                made[function_of(module)] += size
    with open(f"{built}/mir.json", encoding="utf-8") as text:
        for function, body in json.load(text):
            code[function.removeprefix(name + "::")] = len(json.dumps(body.get("body")))
    drops = [it for it in code if it.endswith("Destruct::drop")]
    of_drops = sum(size for it, size in made.items() if "+Destruct" in it or it.startswith("+") and it.endswith("-drop"))
    print(f"{sum(made.values()) / 1e6:7.1f} MB {sum(code.values()) / 1e3:7.1f} KB  {len(code)} functions")
    print(f"{of_drops / 1e6:7.1f} MB {sum(code[it] for it in drops) / 1e3:7.1f} KB  {len(drops)} derived drops")
    for function, size in made.most_common(count):
        print(f"{size / 1e6:7.1f} MB {code.get(function, 0) / 1e3:7.1f} KB  {function}")


main()
