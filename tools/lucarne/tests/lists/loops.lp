% Relays that hold each other or themselves up, a table that reads what it drives, and a key.
%name b "B R"
#external k. [true]
#external m.
%table two(p,q,r) 11- 1-1 -11
a :- b, k.
b :- a.
c :- b.
d :- d.
{ e }.
f ; g :- e.
f :- h.
h :- f.
p :- two. q :- two. r :- two.
:- e, d.
:- m, p.
