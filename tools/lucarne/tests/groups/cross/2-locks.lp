q :- p1, not p2.
:- p3, not q.
:- q, not p3.
:- p4, not q.
:- q, not p4.
:- p5, not q.
:- q, not p5.
:- p6, not q.
:- q, not p6.
:- p7, not q.
:- q, not p7.
:- p8, not q.
:- q, not p8.
:- p9, not q.
:- q, not p9.
