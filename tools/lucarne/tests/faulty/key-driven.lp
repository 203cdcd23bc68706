#external annett.
annett :- not b.
