tr1 :- not tr2.
%name tr3 "103 TR"
