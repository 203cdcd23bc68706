lock(3 :- not free.
