% Two sheets drive one relay, and a contact table with its inputs written against their order on the sheets.
{ k1; k2; k3 }.
r :- k1, two.
%table two(k3,k1,k2) 110 011
