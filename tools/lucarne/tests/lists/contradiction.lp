% Three of the four constraints together leave no position.
{ x; y }.
z :- x.
z :- y.
:- x, y.
:- not z.
:- z, not x.
:- x.
