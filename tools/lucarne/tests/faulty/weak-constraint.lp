{ a }.
:~ a. [1@2]
b :- not a.
