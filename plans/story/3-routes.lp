% Sheet 3: signal 1, routes A (101 normal, platform) and B (101 reverse, loop).
%name lever_a "1A LR"
%name lever_b "1B LR"
%name rlr_a "1A RLR"
%name rlr_b "1B RLR"
%name nur "1 NUR"
{ lever_a; lever_b }.
:- lever_a, lever_b.
rlr_a :- lever_a, nwkr, not gfk.
rlr_b :- lever_b, rwkr, not gfk.
nur :- not rlr_a, not rlr_b.                % no route is set
