#!/usr/bin/env python3
"""run.py PROGRAM WORK..: least of three, ms of a processor, and whether all is as wanted"""
import os,subprocess,sys,json,filecmp,shutil
prog=os.path.realpath(sys.argv[1])
for w in sys.argv[2:]:
    d=os.environ['ROOM']+f'/work/{w}'
    files=open(f'{d}/args').read().split()
    best=None
    for _ in range(int(os.environ.get('N','3'))):
        shutil.rmtree(f'{d}/out'); os.mkdir(f'{d}/out')
        with open(f'{d}/report','wb') as r:
            p=subprocess.Popen([prog,'run','--out','out','s.json',*files],cwd=d,stdout=r)
            _,st,u=os.wait4(p.pid,0); p.returncode=os.waitstatus_to_exitcode(st)
        done=0
        if p.returncode in(0,1): done=sum(x['reply']=='refactored' for x in json.load(open(f'{d}/report')))
        same=all(open(f'{d}/out/{n}' if os.path.exists(f'{d}/out/{n}') else f'{d}/{n}').read()==open(f'{d}/want/{n}').read() for n in files)
        t=1000*(u.ru_utime+u.ru_stime)
        r=(t,u.ru_maxrss//1024,done,same,p.returncode)
        if best is None or r<best: best=r
    print(f'{w}: {best[0]:.0f} ms, {best[0]/len(files):.2f} ms a step, {best[1]} MiB, done {best[2]} of {len(files)}, same {best[3]}, status {best[4]}',flush=True)
