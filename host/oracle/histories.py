#!/usr/bin/env python3
"""The oracle's answers to the scripts of crates/histories, compared with what the program must print (its file `stdout`)."""
import os
import sys

import oracle

HERE = os.path.dirname(os.path.abspath(__file__))
ROOT = os.path.join(HERE, "..", "..", "crates", "histories")
D = ROOT + "/data/"
P=2**56-5; out=[]
def standing(reg):
    if len(reg)>=4: out.append("cases %d events %d"%(int.from_bytes(reg[:2],'big'),int.from_bytes(reg[2:4],'big')))
    out.append("sum %d"%(int.from_bytes(reg,'big')%P))
def submit(sub,track,year,quarter):
    global reg
    a,num,r,acc,dis,reg,ans,place=oracle.submit(sub,int(track),int(year),int(quarter),reg,bytes(lst))
    out.append("file %d %d records %d accepted %d discarded %d"%(a,num,r,acc,dis))
    if a==6 or place: out.append("place %d"%place)
    for i in range(r): out.append("%d %d"%(i+1,ans[i]))
    standing(reg)
def report(sub,lent,track,year,quarter):                     # C5: as many as fit, and the others stay
    global reg
    a,*counts,reg,_,place=oracle.submit(sub,int(track),int(year),int(quarter),reg,bytes(lst))
    told=(counts+[place])[:int(lent)]; out.append("answer %d"%a); out.append("report "+" ".join(map(str,told+[77]*(8-len(told))))); standing(reg)
def key(region,asl,when,ident): return region.encode(),asl.encode(),when.encode(),(ident*88 if len(ident)==1 else ident).encode()
for name in open(ROOT+'/args').read().split():
    out.append(name+":"); reg=bytes(4); lst=512; before=after=b""; length=0      # before, after: the output of the last `cancel`
    for line in open(D+name).read().splitlines():
        out.append("> "+line); w=line.split(' ')
        if w[0]=='rows': reg=bytes(4+oracle.ROW*int(w[1]))
        elif w[0]=='bytes': reg=bytes(int(w[1]))
        elif w[0]=='load': reg=open(D+w[1],'rb').read()
        elif w[0]=='list': lst=int(w[1])
        elif w[0] in('submit','padded'):
            n=None
            if w[0]=='padded': n=int(w.pop(1))
            sub=open(D+w[4],'rb').read()
            if n: sub=sub.ljust(n)
            submit(sub,*w[1:4])
        elif w[0]=='report': report(open(D+w[5],'rb').read(),*w[1:5])
        elif w[0]=='sound': out.append("answer %d"%oracle.sound(reg))
        elif w[0]=='empty':
            a,reg=oracle.empty(reg); out.append("answer %d"%a); standing(reg)
        elif w[0]=='find':
            a,p=oracle.find(reg,*key(*w[1:5])); out.append("answer %d place %d"%(a,p))
        elif w[0]=='cancel':
            before=bytes(i%251 for i in range(int(w[1])))
            a,length,after=oracle.cancel_file(reg,*key(*w[2:6]),int(w[6]),int(w[7]),before); out.append("answer %d length %d"%(a,length))
        elif w[0]=='text':                                   # the file's bytes, and behind them what stood there
            text=open(D+w[1],'rb').read(); out.append("same" if after==text+before[len(text):] and length==len(text) else "differs")
        elif w[0]=='undo': submit(after[:length],2,*w[1:3])
        elif w[0]=='evaluation':
            a,fields=oracle.evaluation(reg,*key(*w[1:5]),w[5].encode()); out.append("evaluation "+" ".join(map(str,[a,*fields])))
        elif w[0]=='convert':                                # a new register of bytes 77, held where it is made
            a,new=oracle.convert(reg,bytes([77])*int(w[1]))
            if a==0: reg=new; out.append("convert 0")
            else: out.append("convert %d %s"%(a,"same" if new==bytes([77])*int(w[1]) else "differs"))
        elif w[0]!='#': sys.exit("histories: no such command: "+line)
said = "".join(l + "\n" for l in out)
with open(ROOT + "/stdout") as f:
    same = f.read() == said
print("histories: no difference" if same else "histories: DIFFERENCE")
sys.exit(not same)

