#!/usr/bin/env python3
"""Puts the clauses that rt check prints after "write the clauses" into the lemma files.

usage: clauses.py LOG     in the crate folder; LOG is what rt check printed
"""
import re,sys,collections
log=open(sys.argv[1],encoding='utf-8').read().split('\n')
todo=[]
i=0
while i<len(log):
    m=re.match(r'(\./\S+\.antt):(\d+):\d+: error: .*write the clauses',log[i])
    if m:
        j=i+1; cl=[]
        while j<len(log) and log[j].startswith('  '):
            if ' = ' in log[j] and not log[j].strip().startswith('no clause'): cl.append(log[j].strip())
            j+=1
        todo.append((m.group(1),int(m.group(2)),cl)); i=j
    else: i+=1
byfile=collections.defaultdict(list)
for f,l,c in todo: byfile[f].append((l,c))
for f,items in byfile.items():
    lines=open(f,encoding='utf-8').read().split('\n')
    for l,cl in sorted(items,reverse=True):
        if not cl: print('none',f,l); continue
        name=cl[0].split(' ')[0]
        # find the block: signature line with `name :` nearest to l (at or before/after)
        k=l-1
        cand=[x for x in range(len(lines)) if re.match(r'\s*(?:pub |abbrev |unfoldable )*'+re.escape(name)+r' :',lines[x])]
        after=[x for x in cand if x<=l-1]
        start=after[-1] if after else cand[0]
        # last clause
        last=None
        ind=len(lines[start])-len(lines[start].lstrip())
        x=start+1
        inclause=False
        while x<len(lines):
            t=lines[x]
            if t.strip()=='' : 
                # maybe end
                nxt=next((y for y in range(x,len(lines)) if lines[y].strip()),None)
                if nxt is None or not re.match(' '*ind+re.escape(name)+r' ',lines[nxt]): break
                x=nxt; continue
            tind=len(t)-len(t.lstrip())
            if tind<ind: break
            if tind==ind and not t.lstrip().startswith(name+' ') and not t.lstrip().startswith('unfolding'): break
            last=x
            x+=1
        new=[' '*ind+c for c in cl]
        lines[last+1:last+1]=new
        print(f,l,name,len(new))
    # constructors that the file doesn't import
    text='\n'.join(lines)
    for mod,name in set(re.findall(r'(Rattle\.[\w.]+\.TheVariants)\.(\w+)',re.sub(r'(?m)^use .*$','',text))):
        text=re.sub(r'(?<![\w.])'+re.escape(mod+'.'+name)+r'(?!\w)',name,text)
        if re.search(r'(?m)^use '+re.escape(mod)+r'\.\{',text): text=re.sub(r'(?m)^(use '+re.escape(mod)+r'\.\{)',r'\1'+name+', ',text)
        else: text=re.sub(r'(?m)^use ',lambda m:'use '+mod+'.{'+name+'}\nuse ',text,count=1)
    open(f,'w',encoding='utf-8').write(text)
