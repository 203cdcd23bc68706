{ tr1 }.
#show tr1.
