% One position, with all relays dropped.
a :- b.
b :- a.
