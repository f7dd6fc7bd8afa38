#!/usr/bin/env python3
"""Writes the judge of logs and the crates below it as plain Rust, so that the search can be tried in seconds.

as_rust.py FOLDER: writes FOLDER/src. Then `rustc --edition 2024 -C opt-level=2 -C overflow-checks=on -o FOLDER/observe FOLDER/src/main.rs`.
The program reads logs, each with a line `=` behind it, and prints each answer with a line `=` behind it; with any argument it prints
witnesses too. FOLDER/src/checks.rs, compiled so, judges traces, each with a line `=` behind it, and prints a line for each. Contracts are left out, and memory is never refused: rstd.rs has the vectors and maps that stand in for the proved ones.
"""
import glob
import os
import re
import shutil
import sys

HERE = os.path.dirname(os.path.abspath(__file__))
SRC = HERE + "/../../crates"
OUT = sys.argv[1] + "/src"
CR='ulfm_laws ulfm_model ulfm_numbers ulfm_judge ulfm_script ulfm_lines ulfm_observed ulfm_graph ulfm_study ulfm_search'.split()
SKIP={'ulfm_laws':{'meanings'},'ulfm_model':{'laws','trace_laws','rounds','says_'},'ulfm_script':{'laws','call_script','engine','interpreter','machine','buffers','header_kind_'},'ulfm_lines':{'laws','step_machine','teller'},'ulfm_search':{'observing'}}
OP='{([';CL='})]'
def balanced(s,i):
    # i at opening brace; skip comments
    d=0
    while i<len(s):
        if s.startswith('//',i):
            i=s.index('\n',i); continue
        c=s[i]
        if c in OP: d+=1
        elif c in CL:
            d-=1
            if d==0: return i+1
        i+=1
    raise Exception('unbalanced')
def strip(s):
    out=[];i=0
    pat=re.compile(r'(?m)^[ \t]*(//[^\n]*)|"(?:\\.|[^"\\])*"|(?<![\w.])(ghost|requires|ensures|invariant)\b')
    while True:
        m=pat.search(s,i)
        if not m: out.append(s[i:]); break
        if m.group(2) is None:
            out.append(s[i:m.end()]); i=m.end(); continue
        kw=m.group(2)
        out.append(s[i:m.start()])
        j=m.end()
        if kw=='ghost':
            d=0
            while True:
                c=s[j]
                if c in OP: j=balanced(s,j); continue
                if c in ';,': j+=1; break
                if c in CL: break
                j+=1
        else:
            m2=re.compile(r'\s*[\w ]*\s*').match(s,j)
            j=s.index('{',j)
            j=balanced(s,j)
        i=j
    return ''.join(out)
def conv(c,name,s):
    s=strip(s)
    s=re.sub(r'(?m)^//!','//',s)
    s=re.sub(r'(?m)^\s*///.*$','',s)
    s=re.sub(r'#!\[tactic.*\]','',s)
    s=re.sub(r'#\[tactic.*\]','',s)
    s=re.sub(r'#\[error\(.*\)\]','',s)
    s=re.sub(r'(?m)^use thiserror::Error;','',s)
    def der(m):
        xs=[x.strip() for x in m.group(1).split(',')]
        xs=[x for x in xs if x not in('Drop','Error','Model')]
        return '#[derive(%s)]'%', '.join(xs) if xs else ''
    s=re.sub(r'#\[derive\(([^)]*)\)\]',der,s)
    s=re.sub(r'\+ Drop\b','',s); s=re.sub(r'\bDrop \+ ','',s); s=re.sub(r': Drop\b','',s)
    s=re.sub(r'(?<![\w:$])crate::','crate::%s::'%c,s)
    s=s.replace('$crate::','crate::%s::'%c)
    # a macro for other crates is one of its module here, and is passed on by its crate's
    s=re.sub(r'(?ms)^#\[macro_export\]\n(macro_rules! (\w+) \{\n.*?^\}\n)',r'\1pub(crate) use \2;\n',s)
    s=re.sub(r'(?<![\w:])(ulfm_\w+)::',r'crate::\1::',s)
    s=re.sub(r'\bstd::alloc::',r'crate::rstd::alloc::',s)
    s=s.replace('std::collections::HashMap','crate::rstd::HashMap')
    s=s.replace('use std::hash::{BuildHasherDefault, FoldHasher, Hash}','use crate::rstd::{BuildHasherDefault, FoldHasher}; use std::hash::Hash')
    s=re.sub(r'vec!\[in ([^;]+); ([^;]+); (.+?)\]\?',r'crate::rstd::filled(\1, \2, \3)?',s)
    s=s.replace('.collect(','.collect_in(')
    s=re.sub(r'(?m)^const _: \(\) = prove!\(.*\);$','',s)
    s=re.sub(r'prove!\(.*?\);','',s)
    s=s.replace('use std::marker::Model;','').replace('use std::marker::{Model, PhantomData};','use std::marker::PhantomData;').replace('fmt<W: Write>','fmt').replace('Formatter<W>','Formatter')
    s=s.replace('use itoa::Buffer;','use crate::rstd::Buffer;')
    s=s.replace('use std::sync::ArcSlice;','use crate::rstd::ArcSlice;').replace('use std::ops::DerefSlice;','use std::ops::Deref;')
    s=re.sub(r'\bDerefSlice for (\S+) \{\s*type Elem = (\w+);',r'Deref for \1 { type Target = [\2];',s)
    s=re.sub(r'impl(?:<[^{>]*>)? Model for [A-Za-z<>]+ \{\s*\}','',s)
    s=re.sub(r'(fn clone\(&self\) -> )Result<Self, AllocError>\s*\{\s*Ok\(\*self\)\s*\}',r'\1Self { *self }',s)
    if name=='lib':
        for k in SKIP.get(c,()):
            s=re.sub(r'(?m)^(pub )?mod %s;'%k,'',s); s=re.sub(r'(?m)^pub use %s::.*;'%k,'',s)
    return '#![allow(unused)]\nuse crate::rstd::prelude::*;\n'.replace('#![allow(unused)]\n','')+s
for c in CR:
    d=OUT+'/'+c; os.makedirs(d,exist_ok=True)
    for f in glob.glob(d+'/*.rs'): os.remove(f)
    macros=[]
    for f in glob.glob(f'{SRC}/{c}/src/*.rt'):
        n=os.path.basename(f)[:-3]
        if n in SKIP.get(c,()): continue
        text=open(f).read()
        macros+=['pub(crate) use %s::%s;\n'%(n,m) for m in re.findall(r'(?m)^#\[macro_export\]\nmacro_rules! (\w+)',text)]
        open(d+'/'+('mod' if n=='lib' else n)+'.rs','w').write(conv(c,n,text))
    open(d+'/mod.rs','a').writelines(macros)
for f in ('rstd.rs','main.rs','checks.rs'):
    shutil.copy(HERE+'/'+f,OUT+'/'+f)
