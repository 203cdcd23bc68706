%table made(f1,f2) 11
made :- f1.
