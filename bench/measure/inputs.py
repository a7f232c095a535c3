#!/usr/bin/env python3
"""inputs.py: the generated files of bench/renames.py with 1, 3, 16 and 256 renames of a local (gl..) or a field (gf..),
each in a folder of $ROOM/work, with what the files hold in the end."""
import json, os
room, here = os.environ["ROOM"], os.path.dirname(os.path.abspath(__file__))
text = open(f"{here}/../renames.py").read()
text = text[:text.rindex("\nmain()")]
names = {"__name__": "bench"}
exec(compile(text, "renames", "exec"), names)
for short, make in (("gl", "a_generated_local_in_each"), ("gf", "a_generated_field_in_each")):
    files, steps, wanted = names[make](256)
    for count in (1, 3, 16, 256):
        folder = f"{room}/work/{short}{count}"
        os.makedirs(folder + "/want", exist_ok=True)
        os.makedirs(folder + "/out", exist_ok=True)
        changed = list(files)[:count]
        for name, held in files.items():
            open(f"{folder}/{name}", "w").write(held)
            open(f"{folder}/want/{name}", "w").write(wanted[name] if name in changed else held)
        open(f"{folder}/args", "w").write(" ".join(files))
        json.dump(steps[:count], open(f"{folder}/s.json", "w"))
