import os,re,sys
MAX=160
OPS={'→','×','≡','⊎','↔','++','∷','≤','<','≢','+','∙','>>','*','-','∸','&&','||','then','else','in','∉','∈'}
def depth_breaks(s):
    """positions of spaces with their bracket depth, outside of strings"""
    d=0;out=[];i=0;instr=False
    while i<len(s):
        c=s[i]
        if instr:
            if c=='\\': i+=2; continue
            if c=='"': instr=False
        elif c=='"': instr=True
        elif c in '([{': d+=1
        elif c in ')]}': d-=1
        elif c==' ' : out.append((i,d))
        i+=1
    return out
def wrap_ghost(line,cont):
    """wraps a contract line at spaces; continuation lines are indented by cont"""
    out=[];cur=line;first=True
    while len(cur)>MAX:
        ind=len(cur)-len(cur.lstrip(' '))
        br=[(i,d) for i,d in depth_breaks(cur) if ind+40<i<=MAX and cur[i+1:i+2] not in ('}',')') ]
        if not br: break
        best=None
        for i,d in br:
            nxt=cur[i+1:].split(' ',1)[0]
            prev=cur[:i].rsplit(' ',1)[-1]
            score=-d*30 + i*0.6
            if nxt in ('→','×','⊎','↔'): score+=40
            elif nxt in OPS: score+=14
            elif nxt.startswith('('): score+=10
            if prev in OPS or prev.endswith('.') and prev.startswith('λ') : score-=12
            if prev in ('λ','∀','if','let','(λ'): score-=100
            if re.search(r'\(?λ( [^ .]+)*$',cur[:i]): score-=200
            if prev=='{' or prev=='ensures' or prev=='requires': score-=60
            if best is None or score>best[0]: best=(score,i)
        i=best[1]
        out.append(cur[:i].rstrip()); cur=' '*cont+cur[i+1:].lstrip()
    out.append(cur)
    return out
def wrap_use(line):
    m=re.match(r'^(\s*)(pub )?(ghost )?use ([^{]*)\{(.*)\}(;?)$',line)
    if not m: return [line]
    ind,pub,gh,path,items,semi=m.groups()
    pub=pub or '';gh=gh or ''
    its=[x.strip() for x in items.split(',')]
    head=f"{ind}{pub}{gh}use {path}{{"
    out=[];cur=[]
    for x in its:
        t=head+', '.join(cur+[x])+'}'+semi
        if cur and len(t)>MAX: out.append(head+', '.join(cur)+'}'+semi);cur=[x]
        else: cur.append(x)
    out.append(head+', '.join(cur)+'}'+semi)
    return out
def wrap_rt(path):
    L=open(path).read().split('\n');out=[];n=0;left=[]
    for l in L:
        if len(l)<=MAX: out.append(l);continue
        s=l.strip()
        if s.startswith(('ghost use','use ')): w=wrap_use(l)
        elif s.startswith(('ensures','requires','ghost view','ghost invariant','(λ','→','ghost ')) : w=wrap_ghost(l,(len(l)-len(l.lstrip()))+4)
        elif s.startswith('//'):
            w=[l]
        else: w=wrap_ghost(l,(len(l)-len(l.lstrip()))+4) if not '"' in l and not s.startswith('#[') else [l]
        if len(w)>1: n+=1
        if any(len(x)>MAX for x in w): left.append(l[:100])
        out+=w
    if n: open(path,'w').write('\n'.join(out))
    return n,left
def wrap_antt(path):
    L=open(path).read().split('\n');out=[];n=0;left=[]
    for l in L:
        if len(l)<=MAX: out.append(l);continue
        s=l.strip()
        if s.startswith(('use ','pub use ')): w=wrap_use(l)
        elif s.startswith('--'):
            ind=len(l)-len(l.lstrip()); words=s[3:].split(' ');w=[];cur=' '*ind+'--'
            for x in words:
                if len(cur)+1+len(x)>MAX: w.append(cur);cur=' '*ind+'-- '+x
                else: cur+=' '+x
            w.append(cur)
        else: w=wrap_ghost(l,(len(l)-len(l.lstrip()))+4)
        if len(w)>1: n+=1
        if any(len(x)>MAX for x in w): left.append(l[:100])
        out+=w
    if n: open(path,'w').write('\n'.join(out))
    return n,left
if __name__=='__main__':
    tot=0
    for r,d,fs in os.walk(sys.argv[1]):
        if '/out' in r: continue
        for f in fs:
            p=os.path.join(r,f)
            if f.endswith('.rt') and '/src' in r: n,left=wrap_rt(p)
            elif f.endswith('.antt') and '/specs' in r and len(sys.argv)>2: n,left=wrap_antt(p)
            else: continue
            tot+=n
            for x in left: print('LEFT',p,x)
    print(tot)
