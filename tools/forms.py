#!/usr/bin/env python3
"""Counts the places of each point of docs/DESIGN-PASS.md in crates/*/src, lowest crate first. usage: tools/forms.py [ROOT]"""
import re,sys,glob,os,collections
root=sys.argv[1] if len(sys.argv)>1 else '.'
order=[l.split(':')[0].strip() for l in open(f'{root}/crates.txt') if l.strip() and not l.startswith('#')]
src={c:{f:open(f).read() for f in sorted(glob.glob(f'{root}/crates/{c}/src/*.rt'))} for c in order}
def each(rx,flags=re.M):
    out=[]
    for c in order:
        for f,t in src[c].items():
            for m in re.finditer(rx,t,flags):
                out.append((c,os.path.basename(f),t.count('\n',0,m.start())+1,m.group(0)))
    return out
def show(title,ls,full=True):
    by=collections.Counter(x[0] for x in ls)
    print(f'## {title}: {len(ls)}  ('+', '.join(f'{c} {by[c]}' for c in order if by[c])+')')
    if full:
        for c,f,l,g in ls: print(f'   {c}/{f}:{l} {g.strip().splitlines()[0][:110]}')
# 1
enums=each(r'^(pub(\(crate\))? )?enum (\w+) \{\n(?:.*\n)*?^\}')
opt=[];res=[];kind=[];other=[]
for e in enums:
    body=e[3]
    vs=re.findall(r'^    (\w+)',body,re.M)
    name=re.search(r'enum (\w+)',body).group(1)
    pay=re.findall(r'^    (\w+)[ ]?[\(\{]',body,re.M)
    if set(vs)=={'None','Some'} or name in('Pair','PeerTimes','Inner') : opt.append(e)
    elif ('Value' in vs) or name in('Written','Gate','Heard','Found','ExchangeChange','PeerChange','PartAnswer','Reading','WireAnswer','Carried'): res.append(e)
    elif not pay: kind.append(e)
    else: other.append(e)
show('1a own enums of the shape of Option',opt)
show('1b own enums of the shape of Result',res)
show('1c plain enums (derives, number())',kind)
show('1d other enums with payload (stay, with derives)',other)
show('1e fields `bool` with a value beside / `go`',each(r'^    (pub )?(go|first|last|reset|link_local): bool,?'))
show('1f numbers for kinds or refusals: fn .. -> u8 that match self or number()==n',each(r'number\(\) == \d|fn number\(self\) -> u8|state\.number\(\)|(left|entered) == \d'))
show('1g match on 0/1/2.. to make an enum (TryFrom)',each(r'^\s+(0|1|2|3|8|9|10|11|12|13) => (Kind|MaybeContext|MaybeState|Body|tell|tell_packet|tell_answer|own)'))
# match of a shape answer: arms
show('1h matches over MaybeX/..Answer (arms)',each(r'(Maybe\w+|TimeAnswer|DurationAnswer|WordsAnswer|ReadAnswer|WireAnswer|TimerAnswer|MessageAnswer|CorrectionAnswer|Carried|PartAnswer|Pair|PeerTimes|Written|Gate|Heard|Found|Inner)::\w+(\(\w*\)| \{[^}]*\})? =>'),False)
# 2
show('2 twins: with_*',each(r'^    pub fn with_\w+'))
show('2 twins: keep_*',each(r'fn keep_\w+'))
show('2 twins: same_*/is_*ing',each(r'fn (same_\w+|peer_is_\w+|is_measuring|is_empty|slave_is|is_slave)'))
show('2 twins: sync_/delay_/peer handlers',each(r'fn (two_step_sync|one_step_sync|followed_up|delay_answered|delay_stamped|peer_stamped|peer_responded\w*|follow_up_taken|response_taken|measure_sync|measure_delay|measure_peer)'))
show('2 twins: get_uN/put_uN',each(r'fn (get|put)_u\d+|fn (get|put)_(timestamp|identity)'))
show('2 twins: record_*/laying',each(r'fn (record_\w+|\w+_size)\('))
show('2 twins: maybe_*, marked_*',each(r'fn (maybe_\w+|marked_\w+)'))
show('2 twins: tell_* of programs',each(r'fn tell_\w+'))
show('2 twins: entries of port',each(r'    pub fn (handle_\w+|set_state)\(self'),False)
# 3
show('3 index loops: while',each(r'^\s*while [^\n]*'))
show('3 recursion by hand for digits/spell',each(r'let (next|before) = (width|digits|hex_cut|spell)\('))
# 4
show('4 equality by hand',each(r'fn same_\w+|same_identity\('),False)
show('4 same_* fns',each(r'fn same_\w+'))
show('4 Struct copy by hand {..self}',each(r'\.\.(self|ids|noted)\b'))
show('4 conversion by hand `as u64` etc.',each(r' as (u8|u16|u32|u64|usize|isize)\b'),False)
show('4 helper casts fn wide/size/byte',each(r'fn (wide|size|byte|least|numeral)\(x?'))
show('4 printing by hand: text::/values:: calls',each(r'(text|values|io)::(put|copy|decimal|hex|bytes|marked_\w+|identity|write_all|print_decimal|print_hex)\('),False)
# 5
fns=each(r'^ *(pub(\(crate\))? )?fn \w+\([^{]*?\n?\{',re.M|re.S)
sig=each(r'^ *(pub(\(crate\))? )?fn \w+\(([^)]*)\)',re.M|re.S)
tr=[s for s in sig if 'out: &mut [u8]' in s[3] and re.search(r'(at|to): usize',s[3])]
show('5 out: &mut [u8], at: usize travel together',tr,False)
tr=[s for s in sig if re.search(r'found: Port',s[3])]
show('5 found: Port, port: Port',tr)
tr=[s for s in sig if len(re.findall(r': ',s[3]))>=5]
show('5 functions with five parameters or more',tr)
req=each(r'requires (?:\w+ )?\{ (.*?) \}$')
cc=collections.Counter()
for r in req:
    for p in re.split(r' × ',re.search(r'\{ (.*) \}$',r[3].strip()).group(1)):
        cc[re.sub(r'[()]','',p).strip()]+=1
print('## 5 facts in requires, 3 or more times:',[(k,v) for k,v in cc.most_common(30) if v>=3], 'requires in all',len(req))
ens=each(r'ensures (?:\w+ )?\{ Wrote ')
show('5 ensures Wrote ..',ens,False)
# 6
show('6 buffers with a length/parallel arrays',each(r'\[u8; \d+\]|\[u64; 24\]|digests|start: usize|len: usize|have: usize'))
# 7
show('7 switches on step/style: match style/kind/letter',each(r'match (style|kind|letter|mechanism|part|rest|stop)\b'))
print('lines of src',sum(t.count('\n') for c in src for t in src[c].values()))
