%name tr "T TR"
%name jr "T JR"
{ tr; lr }.                 % a track relay and a lever relay
tpr :- tr.                  % front contact
or :- not tr.               % back contact
gr :- lr, tpr, not key.     % series
xr :- lr.                   % parallel
xr :- or.
sr :- lr, tr.               % stick circuit: picked up by the lever,
{ sr } :- tr.               % or held by its own contact
runs ; jr :- or.            % timer
#external key.              % key
kr :- key, not lr.
