tr2 -> tr1.
