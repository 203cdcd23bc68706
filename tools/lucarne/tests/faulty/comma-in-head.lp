a, b :- not c.
