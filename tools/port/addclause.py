#!/usr/bin/env python3
"""Writes the impossible clauses that `rt check` asks for in lemmas ("write the clause .."), and checks again: for the port alone.

usage: addclause.py CRATE [ROOT]
"""
import re,sys,subprocess,os
crate,root=sys.argv[1],sys.argv[2] if len(sys.argv)>2 else '/work/main'
d=f'{root}/crates/{crate}'
for it in range(12):
    out=subprocess.run(['rt','check'],cwd=d,capture_output=True,text=True)
    t=out.stdout+out.stderr
    open(f'/tmp/check-{crate}.log','w').write(t)
    n=0; seen=set()
    found=[(m[1],int(m[2]),m[3],[m[4]]) for m in re.finditer(r"(?m)^\./(\S+?):(\d+):\d+: error: `([^`]+)`: write the clause `([^\n]*?)`(?=$|:| \(|,|\n)",t)]
    for m in re.finditer(r"(?m)^\./(\S+?):(\d+):\d+: error: `([^`]+)`: write the clauses\n((?:  [^\n]*\n)*)",t):
        found.append((m[1],int(m[2]),m[3],[l.strip() for l in m[4].split('\n') if re.search(r' = elim \S+ \[ \]$',l)]))
    for f,line,name,cl in sorted(found,key=lambda x:-x[1]):
        cls=cl
        if (f,name) in seen: continue
        seen.add((f,name))
        if not cl: continue
        head=cl[0].split()[0]
        if head!=name and not re.match(r'[({]',head):
            p=os.path.join(d,f); ls=open(p).read().split('\n')
            o=line-1
            ind0=len(ls[o])-len(ls[o].lstrip())
            sites=[k for k in range(o,min(o+400,len(ls))) if re.match(r'\s*'+re.escape(head)+r' (\{[^}]*\} )*: ',ls[k])]
            stop=next((k for k in range(o+1,len(ls)) if ls[k].strip() and len(ls[k])-len(ls[k].lstrip())<=ind0 and re.match(r'\s*\S+ (\{[^}]*\} )*: ',ls[k])),len(ls))
            sites=[k for k in sites if k<stop]
            if len(sites)!=1: print('by hand',f,line,name,cl); continue
            line=sites[0]+1; name=head
            while re.match(r'\s*'+re.escape(head)+r'(\s|$)',ls[line]) is None: line+=1
            line+=1
        p=os.path.join(d,f); ls=open(p).read().split('\n')
        i=line-1
        while i>=0 and not re.match(r'\s*'+re.escape(name)+r'(\s|$)',ls[i]): i-=1
        if i<0: print('cannot place',f,name); continue
        ind=re.match(r'\s*',ls[i])[0]
        # last clause
        last=i; j=i
        while j<len(ls):
            if re.match(re.escape(ind)+re.escape(name)+r'(\s|$)',ls[j]): last=j
            elif ls[j].strip()=='' or not (ls[j].startswith(ind+' ') or ls[j][len(ind):len(ind)+1] in list('})]')): 
                if not re.match(re.escape(ind)+re.escape(name)+r'(\s|$)',ls[j]): break
            j+=1
        e=last+1
        while e<len(ls) and ls[e].strip() and (ls[e].startswith(ind+' ') or ls[e][len(ind):len(ind)+1] in '})]'): e+=1
        ls[e:e]=[ind+c for c in cls]
        open(p,'w').write('\n'.join(ls)); n+=1
        print('added',f,cls)
    if n==0: break
print('\n'.join(l[:int(os.environ.get('W','500'))] for l in t.split('\n') if re.search(r'error|^fn.*(no proof|not)|must prove|logic=',l)))
