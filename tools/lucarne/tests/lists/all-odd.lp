% No constraint is to blame.
#external k. [true]
r :- k, not r.
:- s.
s :- not t.
t :- not s.
