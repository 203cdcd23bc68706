{ tr1 }.
%nmae tr1 "101 TR"
%names tr1 "101 TR"
%unti two
