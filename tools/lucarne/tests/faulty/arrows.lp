{ tr2; tr3 }.
tr1 <- tr2.
tr4 = tr3.
tr5 <= tr2.
tr6 :- tr2, tr3 = 1.
lock(3) == lock(4) :- tr2.
