r :- k2, not k3.
s :- not two, r.
:- two, not made.
%table made(k2,k3) 01 11
:- made.
