%table made(f1,f2) 11
%given made
a :- made.
