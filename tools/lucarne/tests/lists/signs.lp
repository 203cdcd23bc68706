% A relay with an opposite, and names with brackets.
{ a; -a; at(1,2) }.
b :- -a.
#external k.
:- k, b.
