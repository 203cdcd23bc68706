%table made(f1,f2) 11
%table made(f1,f3) 11
a :- made.
