#!/usr/bin/env python3
"""strip.py IN.ll OUT.ll [prof]: what rt try's checks add is taken out: the filling of locals with 0xaa, the calls of checks, asan.
prof: frames can be unwound, and the project's functions stand by themselves"""
import re,sys
prof=len(sys.argv)>3
with open(sys.argv[1]) as f, open(sys.argv[2],'w') as g:
    for line in f:
        if 'call void @llvm.memset' in line and ', i8 -86,' in line: continue
        if 'call void @"rattle-llvm-checks::' in line: continue
        if line.startswith('attributes #'):
            line=line.replace(' sanitize_address','')
            if prof and line.startswith('attributes #0'):
                g.write(line.replace('{ ','{ uwtable ').replace('#0','#900'))
                g.write(line.replace('{ ','{ uwtable noinline ').replace('#0','#901'))
                line=line.replace('{ ','{ uwtable ')
        elif prof and line.startswith('define '):
            m=re.search(r'@"?(jr_\w+::[^"(]*)',line)
            if m or 'Destruct::drop' in line:
                line=re.sub(r'#0 \{',r'#901 {',line)
        g.write(line)
