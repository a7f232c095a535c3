#!/usr/bin/env python3
"""tree.py SCRIPT ROOT [MINPERCENT] [DEPTH]: inclusive call tree below ROOT, percent of all samples below the first root"""
import sys,re,collections
stacks=[];cur=[]
for line in open(sys.argv[1]):
    line=line.rstrip('\n')
    if not line.strip():
        if cur: stacks.append(cur[::-1]); cur=[]
        continue
    p=line.split(None,1)
    cur.append(re.sub(r'::<.*','',p[1] if len(p)>1 else p[0]))
if cur: stacks.append(cur[::-1])
root=sys.argv[2]; minp=float(sys.argv[3]) if len(sys.argv)>3 else 1; depth=int(sys.argv[4]) if len(sys.argv)>4 else 12
base=sum(1 for s in stacks if any('Session::rename' in f for f in s))
kids=collections.Counter()
sub=[]
for s in stacks:
    for i,f in enumerate(s):
        if re.search(root,f): sub.append(s[i:]); break
print('all',len(stacks),'in rename',base,'below root',len(sub))
def show(st,d,prefix):
    groups=collections.defaultdict(list)
    selfs=0
    for s in st:
        if len(s)>1: groups[s[1]].append(s[1:])
        else: selfs+=1
    for k,v in sorted(groups.items(),key=lambda kv:-len(kv[1])):
        p=100*len(v)/base
        if p>=minp:
            print(f"{p:6.1f} {'  '*d}{k}")
            if d<depth: show(v,d+1,prefix)
    if 100*selfs/base>=minp: print(f"{100*selfs/base:6.1f} {'  '*d}(self)")
show(sub,0,'')
