import re,sys
for path in sys.argv[1:]:
    t=open(path).read()
    t=re.sub(r'<<<<<<< [^\n]*\n(.*?)=======\n(.*?)>>>>>>> [^\n]*\n',lambda m:m.group(1),t,flags=re.S)
    open(path,'w').write(t)
