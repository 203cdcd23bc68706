a :- not a.
