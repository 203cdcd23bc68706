{ b; c }.
a :- b c.
