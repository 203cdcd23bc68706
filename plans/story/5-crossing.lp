% Sheet 5: level crossing X on TC, and signal 1.
%name xkey "X KEY"
%name xr "X R"
%name xup "X UP"
%name xmv "X MV"
%name xdn "X DN"
%name xwr "X WR"
%name hr_a "1A HR"
%name hr_b "1B HR"
%name rgr "1 RGR"
#external xkey.
xr :- xkey.                                 % ordered shut by hand,
xr :- not nur.                              % by a route,
xr :- tor.                                  % or by a train
xup :- not xr.
xmv ; xdn :- xr.                            % the barriers still move, or are down
:- xmv, not tc_tr.                          % no train meets a barrier that moves
xwr :- not xup.                             % road lights
hr_a :- rlr_a, not asr, tcr, td_tr, xdn.
hr_b :- rlr_b, not asr, tcr, xdn.
rgr :- not hr_a, not hr_b.
