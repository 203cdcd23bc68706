d(1..3).
p(X) :- not d(X).
