{ tr1; tr2 }.
%name tr1 "101 TR"
%name tr2 "101 TR"
