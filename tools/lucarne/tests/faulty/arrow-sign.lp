{ tr2 }.
tr1 ← tr2.
