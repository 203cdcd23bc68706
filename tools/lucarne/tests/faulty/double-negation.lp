{ a }.
b :- not not a.
