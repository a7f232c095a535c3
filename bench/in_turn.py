#!/usr/bin/env python3
"""bench/in_turn.py COMMAND ..: runs the command when its turn comes among all that wait on this machine: first come first served, at most so
many at once as /tmp/queue-slots says (else 3), and only with 3 GB free. Q_FIRST=1 in the environment goes before those that wait."""
import os, subprocess, sys, time
ROOM = "/tmp/queue"
os.makedirs(ROOM, exist_ok=True)
def slots():
    try: return int(open("/tmp/queue-slots").read())
    except Exception: return 3
def free():
    for line in open("/proc/meminfo"):
        if line.startswith("MemAvailable"): return int(line.split()[1]) / 1e6
mine = f"{0 if os.environ.get('Q_FIRST') else 1}-{time.time():.3f}-{os.getpid()}"
open(f"{ROOM}/{mine}", "w").close()
def live():
    out = []
    for name in os.listdir(ROOM):
        pid = name.split("-")[2].replace(".run", "")
        if os.path.exists(f"/proc/{pid}"): out.append(name)
        else:
            try: os.remove(f"{ROOM}/{name}")
            except OSError: pass
    return sorted(out)
try:
    while True:
        all_of = live()
        running = [n for n in all_of if n.endswith(".run")]
        waiting = [n for n in all_of if not n.endswith(".run")]
        if len(running) < slots() and waiting and waiting[0] == mine and free() > 3:
            os.rename(f"{ROOM}/{mine}", f"{ROOM}/{mine}.run"); mine += ".run"; break
        time.sleep(1)
    begun = time.time()
    status = subprocess.run(sys.argv[1:]).returncode
    print(f"q: {time.time()-begun:.0f} s", file=sys.stderr)
finally:
    try: os.remove(f"{ROOM}/{mine}")
    except OSError: pass
sys.exit(status)
