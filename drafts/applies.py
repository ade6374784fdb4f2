import os,sys
sys.path.insert(0,'gate')
import edit_files
bad=0;n=0
for c in sorted(os.listdir('crates')):
    d=f'crates/{c}/must-fail'
    if not os.path.isdir(d): continue
    texts={}
    for sub in ('src','specs','proofs'):
        for r,_,fs in os.walk(f'crates/{c}/{sub}'):
            for f in fs:
                p=os.path.join(r,f)
                try: texts[os.path.relpath(p,f'crates/{c}')]=open(p).read()
                except Exception: pass
    for f in sorted(os.listdir(d)):
        n+=1
        try:
            e=edit_files.read(c,f,open(f'{d}/{f}').read())
            edit_files.replaced(texts,e)
        except edit_files.BadEdit as x:
            bad+=1; print(c,f,x)
print(n,'edits',bad,'bad')
