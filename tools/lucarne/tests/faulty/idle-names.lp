{ tr1; tr2 }.
#external annett.
%given anett
gr :- tr1, annett.
#show gr/0. #show tr/1. #show tr1/0. #show tr22/0.
