% Sheet 2: points 101, lie and detection; the ground frame's key.
%name n101 "101 N"
%name r101 "101 R"
%name nwkr "101 NWKR"
%name rwkr "101 RWKR"
%name gfk "GF KEY"
#external gfk.
n101 ; r101.
nwkr :- n101.
rwkr :- r101, not gfk.
:- gfk, r101.                               % with the key out 101 cannot lie reverse
