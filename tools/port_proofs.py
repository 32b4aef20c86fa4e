#!/usr/bin/env python3
"""Turns the files proofs/F/Proof.antt of a crate, which close a proof by Tie and Need, into Invariants.antt and Answers.antt.

usage: rt check --generated FOLDER --old-names     in the crate's folder, which has to be spelled as today's Rattle asks
       tools/port_proofs.py CRATE_FOLDER FOLDER/names.json

Proof.antt stays beside them as Proof.old, to look at. It prints what it could not turn; the check says the rest."""
import json,os,re,sys
crate=os.path.abspath(sys.argv[1]); name=os.path.basename(crate)
J=json.load(open(sys.argv[2]))
W=r"[\w'′₀-₉≢≡-]+"
def signatures(root):
    """the parameters and the names of the clauses of each function, by its path"""
    out={}
    for d,ds,fs in os.walk(os.path.join(root,'crates')):
        if '/src' not in d: continue
        for f in fs:
            if not f.endswith('.rt'): continue
            path=os.path.join(d,f); rel=os.path.relpath(path,os.path.join(root,'crates')).split('/')
            mod=[x for x in rel[2:]]; mod[-1]=mod[-1][:-3]
            if mod[-1] in('lib','main','mod'): mod=mod[:-1]
            t=open(path).read()
            for m in re.finditer(r"^( *)(?:pub )?(?:unsafe )?(?:extern \"C\" )?fn (\w+)\(",t,re.M):
                i=m.end(); depth=1; j=i
                while depth:
                    if t[j]=='(' : depth+=1
                    if t[j]==')' : depth-=1
                    j+=1
                ps=[x.strip().split(':')[0].replace('mut ','').strip() for x in re.split(r",(?![^<(\[]*[>)\]])",t[i:j-1]) if x.strip()]
                k=re.search(r"^"+m[1]+r"\{",t[j:],re.M)
                head=t[j:j+(k.start() if k else 0)]
                cl=lambda w:[x or None for x in re.findall(r"^\s+"+w+r"(?: (\w+))? \{",head,re.M)]
                out['::'.join([rel[0]]+mod+[m[2]])]=(ps,cl('requires'),cl('ensures'))
    return out
SIG=signatures(os.path.dirname(os.path.dirname(crate)))
def tail_tuple(b):
    """the position of a tuple that ends the term b, if b is lets and then a tuple"""
    t=b.rstrip()
    if not t.endswith(')'): return None
    depth=0
    for i in range(len(t)-1,-1,-1):
        if t[i] in ')]}': depth+=1
        if t[i] in '([{': depth-=1
        if depth==0: break
    before=t[:i].rstrip()
    if before and not re.search(r"(?<![\w.'-])in$",before): return None
    inner=t[i+1:-1]; parts=[];depth=0;cur=''
    for ch in inner:
        if ch in '([{': depth+=1
        if ch in ')]}': depth-=1
        if ch==',' and depth==0: parts.append(cur); cur=''; continue
        cur+=ch
    if cur.strip(): parts.append(cur)
    return t[:i],parts
def as_record(b,names):
    """an answer to several clauses"""
    if len(names)<2: return b
    tt=tail_tuple(b)
    while tt and len(tt[1])<len(names):
        more=tail_tuple(tt[1][-1].strip())
        if not more or more[0].strip(): break
        tt=(tt[0],tt[1][:-1]+more[1])
    if tt and len(tt[1])==len(names):
        return tt[0]+'record { '+'; '.join(f"{n} = {p.strip()}" for n,p in zip(names,tt[1]))+' }'
    if tt and len(tt[1])>len(names):
        k=len(names)-1
        ps=[p.strip() for p in tt[1][:k]]+['('+', '.join(p.strip() for p in tt[1][k:])+')']
        return tt[0]+'record { '+'; '.join(f"{n} = {p}" for n,p in zip(names,ps))+' }'
    m=re.match(r"^(.*?)((?:(?<=in)\s+|^\s*)rw (?:\((?:[^()]|\([^()]*\))*\)|[\w.'-]+))\s+(\(.*\))\s*$",b.rstrip(),re.S)
    if m:
        tt=tail_tuple(m[3])
        if tt and not tt[0].strip() and len(tt[1])==len(names):
            return m[1]+'\n    record { '+'; '.join(f"{n} = {m[2].strip()} {('('+p.strip()+')') if ' ' in p.strip() else p.strip()}" for n,p in zip(names,tt[1]))+' }'
    body=b.strip()
    return f"\n    let whole = {body} in\n    record {{ "+'; '.join(f"{n} = whole.{i}" for i,n in enumerate(names))+' }'
def norm(s):
    s=s.replace('_','-')
    s=re.sub(r'^overflow-','',s)
    s=re.sub(r'^slice-bounds-','part-',s)
    s=s.replace('loop-holds','loop-init').replace('loop-less','loop-smaller').replace('loop-again','loop-preserved').replace('same-length','shape-of')
    return s
def blocks(text):
    """top-level chunks: comment lines attach to the next"""
    out=[];cur=[]
    for l in text.split('\n'):
        if l and not l[0].isspace() and not l.startswith('unfolding') :
            starts = True
        else: starts=False
        if l.strip()=='' :
            if cur: out.append('\n'.join(cur)); cur=[]
            continue
        cur.append(l)
    if cur: out.append('\n'.join(cur))
    return out
CYC=[False]
SOURCE=['\n'.join(open(os.path.join(d,f)).read() for d,ds,fs in os.walk(os.path.join(crate,'src')) for f in fs if f.endswith('.rt'))]
class Place:
    pass
def resolver(e):
    places={}
    for p in e['places']:
        places.setdefault(p[0],[]).append(p)
    return places
def split_args(s):
    """splits top-level arguments of an application"""
    args=[];depth=0;cur=''
    for ch in s:
        if ch in '([{': depth+=1
        if ch in ')]}': depth-=1
        if ch.isspace() and depth==0:
            if cur: args.append(cur); cur=''
            continue
        cur+=ch
    if cur: args.append(cur)
    return args
def rewrite_body(body,e,placeidx,var='c'):
    """rewrites paths c.before.. in body. placeidx: index in e['places'] of the need"""
    pl=e['places']
    parent={}
    # parents by old name: take nearest earlier entry of that name
    def find(nm,before):
        for i in range(before-1,-1,-1):
            if pl[i][0]==nm: return i
        for i in range(len(pl)):
            if pl[i][0]==nm: return i
        return None
    env={var:placeidx}
    steps={}
    # steps by (place idx)
    def parents(i):
        return find(pl[i][1],i) if pl[i][1] else None
    notes=[]
    def path(m):
        full=m[0]
        parts=full.split('.')
        root=parts[0]
        if root not in env: return full
        i=env[root]; k=1
        while k<len(parts) and parts[k]=='before':
            i2=parents(i)
            if i2 is not None: i=i2
            k+=1
        rest=parts[k:]
        if not rest:
            if full==var: return full
            chain=[];q=placeidx
            while q is not None: chain.append(q); q=parents(q)
            return var+'.before'*(chain.index(i) if i in chain else 0)
        f=rest[0]
        if f=='requires' and CYC[0]:
            if rest[1:2]==['0']: return '.'.join([var,'decreases']+rest[2:])
            if rest[1:2]==['1']: return '.'.join([var,'requires']+rest[2:])
            if len(rest)==1: return '\x01requires'
        if f in('args','requires','ranges','well-formed','well_formed','utf8'):
            return '.'.join([var,f.replace('-','_')]+rest[1:])
        # the step of that name nearest to the depth that the path says
        chain=[];q=placeidx
        while q is not None: chain.append(q); q=parents(q)
        want=chain.index(i) if i in chain else 0
        fn=norm(re.sub(r'^Is','',f).lower() if f.startswith('Is') else f)
        hits=[(abs(chain.index(q)-want),q) for q in chain if norm(pl[q][2][0])==fn]
        if not hits: hits=[(abs(chain.index(q)-want),q) for q in chain if norm(pl[q][2][0])==re.sub(r'-lem$','',fn)]
        if hits:
            q=min(hits)[1]
            rest2=fix_new(rest[1:],pl[q][3],e)
            arm=e['arms'][q] if q<len(e.get('arms',[])) else None
            if arm:
                best=None
                for nf,ostep,opath in arm[2]:
                    if rest2[:len(opath)]==opath and (best is None or len(opath)>len(best[1])): best=(nf,opath)
                if best and best[0]:
                    return '.'.join([var,arm[0],best[0]]+rest2[len(best[1]):])
            steps['.'.join([var,pl[q][2][1]])]=pl[q][3]
            callee=pl[q][3]
            if rest2==['ensures'] and callee in SIG and len(SIG[callee][2])>1:
                return '('+', '.join('.'.join([var,pl[q][2][1],'ensures',n]) for n in SIG[callee][2])+')'
            return '.'.join([var,pl[q][2][1]]+rest2)
        notes.append('field '+f+' of place '+pl[i][0]+' has step '+pl[i][2][0])
        return '.'.join([var]+rest)
    # process lets that bind places: iterate textually
    out='';pos=0
    rx=re.compile(r"(?<![\w.'′-])("+W+r")((?:\."+W+r")*)")
    def sub_all(t): return rx.sub(lambda m: path(m) if m[1] in env else m[0],t)
    # sequentially handle "let X = PATH in"
    letrx=re.compile(r"let\s+("+W+r")\s*(?::\s*[^=]*?)?=\s*("+W+r"(?:\.before)*)\s+in\b\s*")
    while True:
        m=letrx.search(body,pos)
        if not m: break
        rhs=m[2]
        root=rhs.split('.')[0]
        if root in env and all(x=='before' for x in rhs.split('.')[1:]):
            i=env[root]
            for _ in rhs.split('.')[1:]:
                i2=parents(i)
                if i2 is not None: i=i2
            out+=sub_all(body[pos:m.start()])
            env[m[1]]=i
            pos=m.end()
        else:
            out+=sub_all(body[pos:m.start()])
            # emit the let head unchanged but with path
            out+=sub_all(body[m.start():m.end()])
            pos=m.end()
    out+=sub_all(body[pos:])
    for m in list(re.finditer(r"let ("+W+r") = ("+re.escape(var)+r"\."+W+r") in",out)):
        if m[2] in steps and steps[m[2]]:
            callee=steps[m[2]]
            def fx(mm):
                r=fix_new(mm[2].strip('.').split('.'),callee,e)
                if r==['ensures'] and callee in SIG and len(SIG[callee][2])>1:
                    return '('+', '.join(mm[1]+'.ensures.'+n for n in SIG[callee][2])+')'
                return mm[1]+'.'+'.'.join(r)
            out=re.sub(r"(?<![\w.-])("+re.escape(m[1])+r")((?:\."+W+r")+)",fx,out)
    nots=set(m[1] for m in re.finditer(r"let ("+W+r") = "+re.escape(var)+r"\.if-not-"+W+r" in",out))
    alias=dict((m[1],m[2]) for m in re.finditer(r"let ("+W+r") = "+re.escape(var)+r"\.if-not-("+W+r") in",out))
    def unnot(m):
        root=m[3].split('.')
        step=re.search(r"\.if-not-("+W+")",m[3])
        step=step[1] if step else alias.get(root[0],'')
        # a test of a field keeps its `not`
        if step and re.search(r"!\s*"+re.escape(re.sub(r"-.*$","",step))+r"\.\w",SOURCE[0]): return m[0]
        if '.if-not-' in m[3] or root[0] in nots: return m[3]
        return m[0]
    out=re.sub(r"(?<![\w.-])not-(true|false)\s+("+W+r"(?:\."+W+r")*|_)\s+("+W+r"(?:\."+W+r")*\.(?:true|false))",unnot,out)
    # a variable that stands for the whole requires of a member of a cycle
    while True:
        m=re.search(r"let ("+W+r") = \x01requires in",out)
        if not m: break
        v=m[1]
        rest=out[m.end():]
        rest=re.sub(r"(?<![\w.'-])"+re.escape(v)+r"\.0(?![\w'-])",var+'.decreases',rest)
        rest=re.sub(r"(?<![\w.'-])"+re.escape(v)+r"\.1(?![\w'-])",v,rest)
        out=out[:m.start()]+f"let {v} = {var}.requires in"+rest
    out=out.replace('\x01requires',var+'.requires')
    # what a callee ensures at the variant that it returned
    def given(m):
        return f"let {m[1]} = {var}.{m[2]}.ensures in"
    while True:
        m=re.search(r"let ("+W+r") = rw "+re.escape(var)+r"\.(in-"+W+r")\.is\s+at\s+(\(("+re.escape(var)+r"\."+W+r"\.ensures\."+W+r"(?:,\s*)?)+\)|"+re.escape(var)+r"\."+W+r"\.ensures(?!\."+W+r")) in",out)
        if not m: break
        names=re.findall(r"\.ensures\.("+W+r")",m[3])
        rest=out[m.end():]
        v=m[1]
        if names:
            for i,n in enumerate(names):
                rest=re.sub(r"(?<![\w.'-])"+re.escape(v)+rf"\.{i}(?![\w'-])",f"{v}.{n}",rest)
            rest=re.sub(r"(?<![\w.'-])"+re.escape(v)+r"(?![\w.'-])",'('+', '.join(f"{v}.{n}" for n in names)+')',rest)
        out=out[:m.start()]+f"let {v} = {var}.{m[2]}.ensures in"+rest
    out=re.sub(r"rw "+re.escape(var)+r"\.(in-"+W+r")\.is\s+at\s+\(((?:"+re.escape(var)+r"\."+W+r"\.ensures\."+W+r"(?:,\s*)?)+)\)",
        lambda m: '('+', '.join(f"{var}.{m[1]}.ensures.{n}" for n in re.findall(r"\.ensures\.("+W+r")",m[2]))+')',out)
    out=re.sub(r"rw "+re.escape(var)+r"\.(in-"+W+r")\.is\s+at\s+"+re.escape(var)+r"\."+W+r"\.ensures(?![\w.'-])",lambda m: f"{var}.{m[1]}.ensures",out)
    if '\0' in out:
        notes.append('place itself used')
        out=re.sub('\0\\d+',var,out)
    return out,notes
def fix_new(rest,callee,e):
    if rest and rest[0]=='ensures' and callee in SIG and len(SIG[callee][2])>1 and len(rest)>1 and rest[1].isdigit():
        names=SIG[callee][2]; n=int(rest[1])
        if n<len(names)-1 or (n==len(names)-1): return ['ensures',names[n]]+rest[2:]
    if rest and rest[0]in('new','auto') and len(rest)>1 and rest[1] in('0','1') and callee and callee in e.get('params',{}):
        n=0;k=1
        while k<len(rest) and rest[k]=='1': n+=1;k+=1
        if k<len(rest) and rest[k]=='0':
            ps=e['params'][callee]
            if n<len(ps): return [rest[0],ps[n]]+rest[k+1:]
    return rest
def imports_used(uselines,body):
    toks=set(re.findall(r"[^\s(){}\[\],;.λ]+",body))
    out=[]
    for l in uselines:
        m=re.match(r"use ([^\s{]+)\.\{(.*)\}$",l)
        if m:
            keep=[]
            for x in m[2].split(','):
                x=x.strip()
                nm=x.split(' as ')[-1].strip()
                ps=[p for p in nm.split('◌') if p]
                if nm=='[]':
                    if '[]' in body: keep.append(x)
                    continue
                if all(any(p==t or (not p[0].isalnum() and p in t) for t in toks) for p in ps): keep.append(x)
            if keep: out.append(f"use {m[1]}.{{{', '.join(keep)}}}")
        else:
            m=re.match(r"use \S+ as (\S+)$",l)
            if m:
                if m[1] in toks: out.append(l)
            else: out.append(l)
    return out
def subst_names(body,mp):
    rx=re.compile(r"(?<![\w.'′₀-₉-])("+"|".join(sorted(map(re.escape,mp),key=len,reverse=True))+r")(?![\w'′₀-₉-])")
    def f(m):
        end=m.end()
        rest=body[end:end+3]
        if re.match(r"\s*=(?!=)",body[end:end+6]) : # a record's label
            before=body[:m.start()].rstrip()
            if before.endswith(('{',';')) : return m[0]
        return mp[m[1]]
    return rx.sub(f,body)
report=[]
def convert(path):
    folder=os.path.dirname(path)
    rel=os.path.relpath(folder,os.path.join(crate,'proofs'))
    mod=rel.replace('/','.')
    text=open(path).read()
    key=f"Rattle-{name}-proofs.{mod}.Lts"
    cyc='+' in rel
    CYC[0]=cyc
    keys=[k for k in J if k==key] if not cyc else [k for k in J if k.startswith(f"Rattle-{name}-proofs.{mod}.Lts")]
    if not keys: report.append((rel,'no names')); return
    bl=blocks(text)
    uses=[];defs=[];head=[]
    for b in bl:
        ls=b.split('\n')
        rest=[]
        for l in ls:
            if l.startswith('use '): uses.append(l)
            else: rest.append(l)
        if rest:
            if not defs and all(x.startswith('--') for x in rest): head+=rest
            else: defs.append('\n'.join(rest))
    uses=[u for u in uses if not re.search(r"\.Statement\.\{|\.Tie\b|\.Lts\b|\.Lts-|\.Reads as|\.Kinds as|borrow\.Fn\.(Kinds|PlainCycle)|\+[\w-]*\.\{statement\}",u)]
    inv=[];ans=[];other=[];allnotes=[];helpers=[]
    def unhelp(b,hs):
        for h in hs:
            b=re.sub(r"(?<![\w.'-])"+re.escape(h[0])+r"(?:\s+t)?\s+c(?:\.before)*(?![\w.'-])",h[0],b)
            b=b.replace('('+h[0]+')',h[0])
        return b
    def inlined(b,unf):
        b=unhelp(b,helpers)
        need=[]
        def add(t):
            for h in helpers:
                if re.search(r"(?<![\w.'-])"+re.escape(h[0])+r"(?![\w'-])",t) and h not in need:
                    add(h[1]+' '+h[2]); need.append(h)
        add(b)
        us=set(unf.split()[1:]) if unf else set()
        for h in need:
            us|=set(h[3].split()[1:])
        pre=''.join(f"\n    let {n} : ({t}) = ({d}) in" for n,t,d,_ in need)
        return (pre+'\n    '+b.strip() if pre else b), ('unfolding '+' '.join(sorted(us))+'\n' if us else '')
    def entry(fn):
        if not cyc: return J[keys[0]]
        for k in keys:
            if k.endswith('.Lts-'+fn) : return J[k]
        return None
    fns=[None] if not cyc else [k.rsplit('.Lts-',1)[-1] if '.Lts-' in k else '' for k in keys]
    done=set()
    prefixes={}
    if cyc:
        for k in keys:
            fn=k.rsplit('.Lts',1)[1].lstrip('-')
            prefixes[fn.replace('_','-')]=k
    def lam(s):
        m=re.match(r"^\((λ .*)\)$",s.strip(),re.S)
        return m
    for d in defs:
        comment=[l for l in d.split('\n') if l.startswith('--')]
        code='\n'.join(l for l in d.split('\n') if not l.startswith('--'))
        m=re.match(r"(abbrev |unfoldable )?(pub )?(\S+) :\s+([^\n]*(?:\n\s+[^\n]*)*)\n((?:unfolding [^\n]*\n)?)(.*)$",code,re.S)
        if not m:
            other.append(d); allnotes.append('unparsed: '+code[:60]); continue
        ab,pub,dn,ty,unf,body=m.groups()
        # which function
        ml=re.search(r"\(c : (?:tie|[\w-]+-lts)\.([\w'-]+)(?:[^()]|\([^()]*\))*\)",ty)
        if ml and not re.search(r"(?:tie|[\w-]+-lts)\.(invariant|decreases|Need)-",ty.split('→')[0]):
            k=keys[0]
            if cyc:
                owner=re.search(r"\(c : ([\w-]+)-lts\.",ty)
                k=prefixes.get(owner[1].replace('_','-')) if owner else k
            e=J[k]
            i=next((i for i,p in enumerate(e['places']) if norm(p[0])==norm(ml[1])),None)
            mdef=re.match(re.escape(dn)+r"\s*(.*?)\s*=(?!=)\s*(.*)$",body,re.S)
            if i is not None and mdef:
                ty2=ty[ty.index(ml[0])+len(ml[0]):].strip()
                ty2=re.sub(r"^→\s*","",ty2)
                ty2,n1=rewrite_body(ty2,e,i,'c')
                b2,n2=rewrite_body(mdef[2],e,i,'c'); allnotes+=n1+n2
                helpers.append((dn,unhelp(ty2,helpers),unhelp(b2,helpers),unf))
                continue
        mk=re.search(r"(?:tie|[\w-]+-lts)\.(invariant|decreases|Need)-([\w'-]+)",ty)
        mm=re.search(r": Measures \d+ ",': '+ty)
        if mk:
            kind=mk[1]; what=mk[2]
            k=keys[0]
            if cyc:
                owner=re.search(r"([\w-]+)-lts\.",ty)[1]
                k=prefixes.get(owner.replace('_','-'))
                if k is None: allnotes.append('no owner '+owner); other.append(d); continue
            e=J[k]
            pre=''
            if cyc:
                fnname=k.rsplit('.Lts',1)[1].lstrip('-')
                pre=fnname+'-' if len(keys)>1 or True else ''
            mdef=re.match(re.escape(dn)+r"\s*(.*?)\s*=(?!=)\s*(.*)$",body,re.S)
            if not mdef: allnotes.append('no equation '+dn); other.append(d); continue
            params=mdef[1].split(); rhs=mdef[2]
            if kind in('invariant','decreases'):
                li=None
                for i,(ln,vars_) in enumerate(e['loops']):
                    if norm(ln[0])==norm(what) or norm(ln[1])==norm(what): li=i
                if li is None: allnotes.append('loop? '+what); other.append(d); continue
                ln,vars_=e['loops'][li]; ch=e['changed'][li]
                seq=[('l.initial.'+v if c else 'l.'+v) for v,c in zip(vars_,ch)]+['l.'+v for v,c in zip(vars_,ch) if c]
                if len(seq)!=len(params): allnotes.append(f'invariant {dn}: {len(params)} params for {len(seq)}')
                b=subst_names(rhs,dict(zip(params,seq)))
                newname=f"{kind}-{ln[1]}"
                if cyc: newname=f"{kind}-{fnname}-{ln[1]}" if len(keys)>1 else newname
                inv.append((comment,f"abbrev pub {newname} : goal.{newname}\n{unf}{newname} l ={' ' if not b.startswith(chr(10)) else ''}{b}"))
            else:
                ni=None
                for i,(o,n) in enumerate(e['needs']):
                    if norm(o)==norm(what): ni=i;break
                if ni is None:
                    for i,(o,n) in enumerate(e['needs']):
                        if norm(n)==norm(what): ni=i;break
                if ni is None: allnotes.append('need? '+what); other.append(d); continue
                nn=e['needs'][ni][1]
                at=e['asked_at'][ni][0]
                pidx=None
                # the place by old name; several may share: use new name too
                for i,p in enumerate(e['places']):
                    if p[0]==at and e['places_by_name'][i]==e['asked_at'][ni][1]: pidx=i
                if pidx is None:
                    for i,p in enumerate(e['places']):
                        if p[0]==at: pidx=i
                ps=params
                if cyc and ps and ps[0]=='t': ps=ps[1:]
                v=ps[0] if ps else 'c'
                if pidx is None:
                    allnotes.append('place? '+at); b=rhs
                else:
                    b,n=rewrite_body(rhs,e,pidx,v); allnotes+= [dn+': '+x for x in n]
                extra=[x for x in ps[1:] if x!='κs']
                newname=nn if not (cyc and len(keys)>1) else f"{fnname}-{nn}"
                done.add((k,ni))
                b,unf=inlined(b,unf)
                own='::'.join([name]+[x for x in mod.split('.') if not x.startswith('+')]) if not cyc else '::'.join([name]+[x for x in mod.split('.') if not x.startswith('+')]+[fnname])
                if own in SIG:
                    if nn.startswith('returns'): b=as_record(b,SIG[own][2])
                    m2=re.match(r"(.+)-requires(-|$)",nn)
                callee=e['places'][pidx][3] if pidx is not None else None
                lhs=' '.join(([ 't'] if cyc else [])+[v]+extra)
                ans.append((comment,f"pub {newname} : goal.{newname}\n{unf}{newname} {lhs} ={' ' if not b.startswith(chr(10)) else ''}{b}",dn))
        elif mm:
            owner=re.search(r": Measures \d+ ([\w-]+)-kinds",': '+ty)[1]
            k=prefixes.get(owner.replace('_','-')); fnname=k.rsplit('.Lts',1)[1].lstrip('-')
            mdef=re.match(re.escape(dn)+r"\s*(.*?)\s*=\s*(.*)$",body,re.S)
            rhs=mdef[2]
            e=J[k]
            args=SIG.get('::'.join([name]+[x for x in mod.split('.') if not x.startswith('+')]+[fnname]),([],))[0]
            def pa(mo):
                n=mo[1].count('.1'); 
                return f"l.{args[n]}" if n<len(args) else mo[0]
            b=re.sub(r"\ba((?:\.1)*)\.0(?![\d.]*\d)",pa,rhs)
            newname=f"decreases-{fnname}"
            inv.append((comment,f"abbrev pub {newname} : goal.{newname}\n{newname} l = {b}"))
        elif re.search(r"PlainCycle|In \d+ |Claims\b|-lts\.Claims",ty):
            continue
        elif re.search(r"statement M",ty):
            # lambda arguments
            if not cyc:
                mt=re.search(r"tie\.spec\b(.*)\)\s*$",body,re.S)
                if mt:
                    a=split_args(mt[1])
                    e=J[keys[0]]
                    a=a[2*len(e['loops']):]
                    # measures and invariants come in pairs
                    if len(a)!=len(e['needs']): allnotes.append(f"spec has {len(a)} args for {len(e['needs'])} needs")
                    for i,x in enumerate(a):
                        mm2=re.match(r"^\(λ ([\w\u2080-\u2089]+)((?: κs)?)((?: [^.]*)?)\.\s*(.*)\)$",x,re.S)
                        if mm2 and i<len(e['needs']):
                            b=mm2[4]
                            if re.fullmatch(r"search rules",b.strip()): continue
                            nn=e['needs'][i][1]
                            at=e['asked_at'][i]
                            pidx=None
                            for q,p in enumerate(e['places']):
                                if p[0]==at[0] and e['places_by_name'][q]==at[1]: pidx=q
                            if pidx is None:
                                allnotes.append('place? '+str(at)); continue
                            b,n=rewrite_body(b,e,pidx,mm2[1]); allnotes+=n
                            ans.append(([],f"pub {nn} : goal.{nn}\n{nn} {mm2[1]}{mm2[3]} = {b}",nn))
                else: allnotes.append('no tie.spec')
            else:
                allnotes.append('cycle spec lambdas not read: '+str([x for x in re.findall(r"\(λ c[^.]*\. (?!search rules\))[^\n]*",body)][:5]))
        else:
            other.append(d)
    # order answers as needs
    def order(it):
        nm=re.search(r"pub (\S+) :",it[1])[1]
        for k in keys:
            for i,(o,n) in enumerate(J[k]['needs']):
                if nm==n or nm.endswith('-'+n): return i
        return 999
    base=f"Rattle.{name}.proofs.{mod}"
    if inv:
        body='\n\n'.join('\n'.join(c+[t]) for c,t in inv)
        if re.search(r"\bl\.initial|.",body):
            u=imports_used(uses,body)
            hd=[h for h in head]
            open(os.path.join(folder,'Invariants.antt'),'w').write('\n'.join(hd+u+[f"use {base}.Given as goal",''])+'\n'+body+'\n')
    if ans:
        body='\n\n'.join(other+['\n'.join(c+[t]) for c,t,_ in ans])
        # references to renamed answers by old names
        for c,t,dn in ans:
            pass
        u=imports_used(uses,body)
        hd=head if not inv else [head[0]] if head else []
        open(os.path.join(folder,'Answers.antt'),'w').write('\n'.join(hd+u+[f"use {base}.Goals as goal",''])+'\n'+body+'\n')
    os.rename(path,path.replace('Proof.antt','Proof.old'))
    if allnotes: report.append((rel,allnotes))
for d,ds,fs in os.walk(os.path.join(crate,'proofs')):
    if 'Proof.antt' in fs: convert(os.path.join(d,'Proof.antt'))
for r in report: print(r)
