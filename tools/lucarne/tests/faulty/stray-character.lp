a :- b & c.
d :- €.
