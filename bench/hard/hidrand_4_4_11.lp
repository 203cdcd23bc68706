% also --no-gamma
t0 :- not a14, a20, not a28, not a61.
t0 :- a14, a20, not a28, not a61.
t0 :- a14, not a20, a28, not a61.
t0 :- not a14, a20, a28, not a61.
t0 :- a14, a20, a28, not a61.
t0 :- not a14, not a20, not a28, a61.
t0 :- not a14, a20, not a28, a61.
t0 :- not a14, a20, a28, a61.
t0 :- a14, a20, a28, a61.
t1 :- not a3, not a23, a47, not a52.
t1 :- a3, a23, a47, not a52.
t1 :- a3, not a23, not a47, a52.
t1 :- not a3, a23, not a47, a52.
t1 :- a3, a23, a47, a52.
t2 :- a39, not a45, not a46, not a48.
t2 :- a39, a45, not a46, not a48.
t2 :- not a39, not a45, a46, not a48.
t2 :- a39, not a45, a46, not a48.
t2 :- a39, a45, a46, not a48.
t2 :- a39, not a45, not a46, a48.
t2 :- a39, not a45, a46, a48.
t2 :- not a39, a45, a46, a48.
t3 :- a24, not a31, not a62, not a63.
t3 :- not a24, a31, not a62, not a63.
t3 :- a24, not a31, a62, not a63.
t3 :- not a24, not a31, not a62, a63.
t3 :- not a24, a31, not a62, a63.
t3 :- a24, a31, not a62, a63.
t3 :- not a24, not a31, a62, a63.
t3 :- a24, not a31, a62, a63.
t3 :- a24, a31, a62, a63.
a21; a48.
 :- not a38, not t0, not t1, not t2, t3.
 :- not a38, t0, not t1, not t2, not t3.
 :- not a38, not t0, not t1, not t2, not t3.
a18; a31.
 :- not a38, not t0, t1, t2, t3.
a6; a52.
 :- not a38, t0, not t1, t2, not t3.
a3; a27.
a14; a54.
 :- not a38, not t0, not t1, t2, t3.
 :- not a38, t0, t1, t2, not t3.
 :- not a38, t0, not t1, not t2, t3.
a8; a45.
a28; a34.
 :- not a38, not t0, t1, t2, not t3.
a43; a62.
a20; a22.
 :- not a38, t0, t1, not t2, not t3.
 :- not a38, not t0, t1, not t2, not t3.
 :- not a38, t0, not t1, t2, t3.
a19; a46.
 :- not a38, not t0, not t1, t2, not t3.
a35; a47.
a60; a63.
 :- not a38, t0, t1, not t2, t3.
a32; a39.
a24; a55.
 :- not a38, t0, t1, t2, t3.
a13; a23.
 :- not a38, not t0, t1, not t2, t3.
a30; a61.
#show a3/0.
#show a6/0.
#show a8/0.
#show a13/0.
#show a14/0.
#show a18/0.
#show a19/0.
#show a20/0.
#show a21/0.
#show a22/0.
#show a23/0.
#show a24/0.
#show a27/0.
#show a28/0.
#show a30/0.
#show a31/0.
#show a32/0.
#show a34/0.
#show a35/0.
#show a39/0.
#show a43/0.
#show a45/0.
#show a46/0.
#show a47/0.
#show a48/0.
#show a52/0.
#show a54/0.
#show a55/0.
#show a60/0.
#show a61/0.
#show a62/0.
#show a63/0.
