% A sum over what it drives, which needs helpers that only rise.
{ d(1..6) }.
c(X) :- d(X).
c(X) :- a, X = 1..12.
a :- 5 { c(1..12) }.
