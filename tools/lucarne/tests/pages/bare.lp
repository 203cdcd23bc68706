% Positions of which nothing shows.
{ a; b }.
#show.
