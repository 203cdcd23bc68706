{ tr1; tr2 }.
gr :- tr1, not tr3.
