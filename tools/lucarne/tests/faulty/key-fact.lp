d(1..2).
#external k(X) : d(X).
k(1).
{ a(X) : k(X) }.
