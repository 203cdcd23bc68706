{ tr1 }.
%name tr1 101 TR
