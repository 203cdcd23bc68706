a :- k.
#external k. [true
