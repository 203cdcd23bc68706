#external k. [on]
a :- k.
