% Marl Halt, sheet 1: track circuits TA (approach), TB (points 101), TC (crossing and platform), TD. Up = clear. Nine relays.
%name ta_tr "TA TR"
%name tb_tr "TB TR"
%name tc_tr "TC TR"
%name td_tr "TD TR"
%name tb_tpr "TB TPR"
%name tc_tpr "TC TPR"
%name tor "T OR"
%name tcr "T CR"
%name jr "1 JR"
{ ta_tr; tb_tr; tc_tr; td_tr }.
:- not ta_tr, not tc_tr.                    % one short train: on one track, or on two that meet
:- not ta_tr, not td_tr.
:- not tb_tr, not td_tr.
tb_tpr :- tb_tr, not jr.                    % repeat of TB, picked up over a back contact of 1 JR (sheet 4)
tc_tpr :- tc_tr.
tor :- not tb_tr.                           % a train is past signal 1
tor :- not tc_tr.
tcr :- tb_tpr, tc_tpr.                      % the line is clear to the platform
