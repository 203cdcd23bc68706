% Both signs of one relay, each driven: never up together. One of three, by a choice with bounds.
{ a; b }.
-a :- b, not c.
c :- a, not d.
d ; e.
1 { x; y; z } 1 :- e.
#external k. [free]
f :- k, x.
