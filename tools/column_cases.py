# Writes the stored cases of text_cases by a reading of 01 of its own. Run at the root of the repository.
W=[4,8,9,9,21]
LINE=sum(W)+1
MOST=99999999 # the greatest line, and the greatest column
def line(k,s,l,c,v): return ''.join(str(x).rjust(w) for x,w in zip([k,s,l,c,v],W))+'\n'
D=lambda n,f=1: line(1,n,0,0,f)
# example of 01: file 2, f (text 3, position 1 10), parameter x (text 4): if x return end
ex=D(8,2)+line(14,7,1,10,3)+line(40,1,1,11,4)+line(25,5,0,0,0)+line(42,4,0,0,0)+line(30,1,2,6,4)+line(43,2,0,0,0)+line(21,1,3,5,0)
def const(kind,v): # document, function, 25, constant
    return D(4)+line(14,3,1,1,5)+line(25,2,0,0,0)+line(kind,1,MOST,MOST,v)
cases=[]
def add(name,f,room,exp): cases.append((name,f,room,exp))
ok=lambda f,last: (0,0,len(f)//LINE,last,1)
ref=lambda n,p: (n,p,0,0,1)
add('the example, room to spare',ex,256,ok(ex,0)); add('the example, just room',ex,32,ok(ex,0))
add('the example, a word short',ex,31,ref(9,0)); add('the example, no room',ex,0,ref(9,0))
for k,v,w in [(33,-2**63,2**63),(33,2**63-1,2**63-1),(33,-1,2**64-1),(33,0,0),(34,0x7FF8000000000001,0x7FF8000000000001),(34,0xFFF0000000000001,0xFFF0000000000001),(34,2**64-1,2**64-1)]:
    f=const(k,v); add(f'kind {k}, value {v}',f,64,ok(f,w))
for k,v in [(33,-2**63-1),(33,2**63),(33,'-0'),(33,'007'),(33,'+7'),(33,'- 7'),(33,'7 '),(33,''),(33,'-'),(34,2**64),(34,-1),(34,'99999999999999999999'),(33,'1a')]:
    f=const(k,v); add(f"kind {k}, value '{v}'",f,64,ref(1,4))
add('no newline at the end',ex[:-1],256,ref(1,8)); add('a byte behind the last line',ex+'x',256,ref(1,9)); add('an empty file',"",256,ref(3,0)); add('a newline alone','\n',256,ref(1,1))
add('an empty line',ex[:LINE*3]+'\n'+ex[LINE*3:],256,ref(1,4))
add('a document alone',D(1,1),256,(0,0,1,1,1))
add('a span past the end',D(2),256,ref(3,0)); add('a span past the end, no room',D(2),0,ref(3,0))
add('kind 99',D(2)+line(99,1,0,0,0),256,ref(3,1)); add('kind 99, no room',D(2)+line(99,1,0,0,0),4,ref(3,1))
at=lambda l,c: D(3)+line(14,2,l,c,5)+line(21,1,0,0,0)
place=lambda l,c: f'line {l}, column {c}'
# each half at its limit; past it row 3 at the record, with room and without; ten digits are row 1
for l,c in [(MOST,MOST),(0,MOST),(MOST,0),(65536,65536)]: add(place(l,c),at(l,c),64,ok(at(l,c),0))
for l,c in [(MOST+1,0),(0,MOST+1),(999999999,999999999),(MOST,999999999)]:
    add(place(l,c),at(l,c),64,ref(3,1)); add(place(l,c)+', no room',at(l,c),3,ref(3,1))
for l,c in [(1000000000,0),(0,1000000000)]: add(place(l,c),at(l,c),64,ref(1,2))
f=at(MOST+1,0); add('row 1 before row 3',f[:-2]+'x\n',64,ref(1,3))
f=D(3)+line(14,2,1,1,0)+line(21,1,0,MOST+1,0); add('two faults, in record order',f,64,ref(3,1))
# fields of six, as they were before
old=lambda f: ''.join(l[:12]+l[15:21]+l[24:] for l in f.splitlines(True))
add('positions in fields of six',old(ex),256,ref(1,1)); add('26 lines of 46 bytes, 23 of 52',old(D(1,2))*26,256,ref(1,1))
f=D(2)+line(14,1,0,0,1048575); add('text 1048575',f,64,ok(f,1048575))
f=D(2)+line(14,1,0,0,1048576); add('text 1048576',f,64,ref(3,1))
f=D(2)+'0014'+line(14,1,0,0,5)[4:]; add("kind '0014'",f,64,ref(1,2))
# levels: document, function, then 38s nested under 25: level 65 at its index
def deep(n):
    k=n-3 # prefixes and a leaf at levels 4..
    recs=[(1,n,0,0,1),(14,n-1,0,0,5),(25,n-2,0,0,0)]
    for i in range(k-1): recs.append((38,k-i,0,0,0))
    recs.append((31,1,0,0,0))
    return ''.join(line(*r) for r in recs)
add('level 64',deep(64),512,ok(deep(64),0)); add('level 65',deep(65),512,ref(4,64)); add('level 65, no room',deep(65),8,ref(4,64)); add('level 64, no room',deep(64),8,ref(9,0))
def words(f):
    out=[]
    for i in range(0,len(f),LINE):
        l=f[i:i+LINE]; k,sp,li,c,v=[int(l[sum(W[:j]):sum(W[:j+1])]) for j in range(5)]
        out+= [k,sp,li*2**32+c,v%2**64]
    return out
lines=lambda f: ''.join(str(w).rjust(21)+'\n' for w in words(f))
# a case: its label, the size and the words of room, the file; a part of the program: its name, then its cases and what each must write
given,wanted='',''
def part(name,those):
    global given,wanted
    given+=f'part {name}\n'; wanted+=f'part {name}\n'
    for label,f,room,says in those:
        given+=f'{label}: {len(f)} {room}\n{f}\n'; wanted+=f'{label}: {says}'
part('files',[(name,f,room,' '.join(map(str,exp))+'\n') for name,f,room,exp in cases])
# then one record more than the buffers of these two hold
part('records',[('the example',ex,0,'0 0 8\n'+lines(ex)),('a record too many',D(1,2)*1261,0,'9 0 0\n')])
f=const(33,-2**63)
part('columns',[('the smallest integer',lines(f),0,'0 0 4\n'+f),('a record too many',lines(D(1,2)*745),0,'9 0 0\n')])
for name,text in (('stdin',given),('stdout',wanted)): open('crates/text_cases/'+name,'w',newline='').write(text)
print(len(cases)+4,'cases')
