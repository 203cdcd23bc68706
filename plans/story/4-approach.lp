% Sheet 4: approach stick 1 ASR (up = free), its timer, and the lock of points 101.
%name asr "1 ASR"
%name ajr "1 AJR"
%name wlr "101 WLR"
asr :- nur, ta_tr.                          % nothing approaches
asr :- nur, not tb_tr.                      % the train has passed the signal
asr :- nur, ajr.                            % or the timer has run
ajr :- nur, not ta_tr, tb_tr, nwkr.
ajr :- nur, not ta_tr, tb_tr, not lever_a.
ajr ; jr :- nur, not ta_tr, tb_tr, rwkr, lever_a.   % lever 1A against 101 reverse starts the timer anew: it has run, or it runs
wlr :- asr, nur, tb_tpr, not gfk.
