{ b; c }.
a :- b, not c
