%table made(f1,f2,f3) 11- 1x1
a :- made.
