a :- b
c :- not d.
