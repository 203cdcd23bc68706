%table made(f1,f2,f3) 11- 11
a :- made.
