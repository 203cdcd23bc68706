% helper relays do not show
{ a; b }.
c :- a, not b.
d :- c.
#show a/0.
#show d/0.
