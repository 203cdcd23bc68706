% No position: two constraints leave none.
{ a; b }.
%unit above
c :- a, not b.
:- c.
:- not c.
