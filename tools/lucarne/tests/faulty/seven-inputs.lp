%table made(a,b,c,d,e,f,g) 1111111
h :- made.
