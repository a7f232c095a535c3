#!/usr/bin/env python3
"""edits_fit.py CLONE [CRATE..]: each edit's old text stands once in its file"""
import glob,os,sys
root=sys.argv[1]; chosen=sys.argv[2:]
bad=0;n=0
for e in sorted(glob.glob(root+'/crates/*/must-fail/*.edit')):
    crate=e.split('/')[-3]
    if chosen and crate not in chosen: continue
    file=None; texts={}
    old=None
    for l in open(e).read().split('\n'):
        if l.startswith('file: '): file=l[6:].strip()
        elif l.startswith('old: '): old=l[5:]
        elif l.startswith('new: '):
            p=f'{root}/crates/{crate}/{file}'
            if p not in texts: texts[p]=open(p).read()
            c=texts[p].count(old); n+=1
            if c!=1: print(crate,os.path.basename(e),c,old[:80]); bad+=1
            texts[p]=texts[p].replace(old,l[5:])
print(n,'pairs',bad,'bad')
