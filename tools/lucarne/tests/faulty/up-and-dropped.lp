{ b }.
a :- b, not c, not b.
