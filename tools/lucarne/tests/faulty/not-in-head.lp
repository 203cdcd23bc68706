not a :- b.
