% also --no-gamma
t0 :- a37, not a39, not a41, not a50, not a51.
t0 :- not a37, a39, not a41, not a50, not a51.
t0 :- not a37, not a39, a41, not a50, not a51.
t0 :- a37, a39, a41, not a50, not a51.
t0 :- not a37, not a39, not a41, a50, not a51.
t0 :- a37, a39, not a41, a50, not a51.
t0 :- a37, not a39, a41, a50, not a51.
t0 :- not a37, a39, a41, a50, not a51.
t0 :- not a37, not a39, not a41, not a50, a51.
t0 :- a37, a39, not a41, not a50, a51.
t0 :- a37, not a39, a41, not a50, a51.
t0 :- not a37, a39, a41, not a50, a51.
t0 :- a37, not a39, not a41, a50, a51.
t0 :- not a37, a39, not a41, a50, a51.
t0 :- not a37, not a39, a41, a50, a51.
t0 :- a37, a39, a41, a50, a51.
t1 :- a4, not a16, not a31, not a35, not a55.
t1 :- not a4, a16, not a31, not a35, not a55.
t1 :- not a4, not a16, a31, not a35, not a55.
t1 :- a4, a16, a31, not a35, not a55.
t1 :- not a4, not a16, not a31, a35, not a55.
t1 :- a4, a16, not a31, a35, not a55.
t1 :- a4, not a16, a31, a35, not a55.
t1 :- not a4, a16, a31, a35, not a55.
t1 :- not a4, not a16, not a31, not a35, a55.
t1 :- a4, a16, not a31, not a35, a55.
t1 :- a4, not a16, a31, not a35, a55.
t1 :- not a4, a16, a31, not a35, a55.
t1 :- a4, not a16, not a31, a35, a55.
t1 :- not a4, a16, not a31, a35, a55.
t1 :- not a4, not a16, a31, a35, a55.
t1 :- a4, a16, a31, a35, a55.
t2 :- a5, not a10, not a24, not a30, not a53.
t2 :- not a5, a10, not a24, not a30, not a53.
t2 :- not a5, not a10, a24, not a30, not a53.
t2 :- a5, a10, a24, not a30, not a53.
t2 :- not a5, not a10, not a24, a30, not a53.
t2 :- a5, a10, not a24, a30, not a53.
t2 :- a5, not a10, a24, a30, not a53.
t2 :- not a5, a10, a24, a30, not a53.
t2 :- not a5, not a10, not a24, not a30, a53.
t2 :- a5, a10, not a24, not a30, a53.
t2 :- a5, not a10, a24, not a30, a53.
t2 :- not a5, a10, a24, not a30, a53.
t2 :- a5, not a10, not a24, a30, a53.
t2 :- not a5, a10, not a24, a30, a53.
t2 :- not a5, not a10, a24, a30, a53.
t2 :- a5, a10, a24, a30, a53.
t3 :- a1, not a7, not a15, not a32, not a38.
t3 :- not a1, a7, not a15, not a32, not a38.
t3 :- not a1, not a7, a15, not a32, not a38.
t3 :- a1, a7, a15, not a32, not a38.
t3 :- not a1, not a7, not a15, a32, not a38.
t3 :- a1, a7, not a15, a32, not a38.
t3 :- a1, not a7, a15, a32, not a38.
t3 :- not a1, a7, a15, a32, not a38.
t3 :- not a1, not a7, not a15, not a32, a38.
t3 :- a1, a7, not a15, not a32, a38.
t3 :- a1, not a7, a15, not a32, a38.
t3 :- not a1, a7, a15, not a32, a38.
t3 :- a1, not a7, not a15, a32, a38.
t3 :- not a1, a7, not a15, a32, a38.
t3 :- not a1, not a7, a15, a32, a38.
t3 :- a1, a7, a15, a32, a38.
 :- not a46, t0, t1, t2, t3.
a10; a57.
 :- not a46, t0, not t1, t2, not t3.
 :- not a46, t0, not t1, not t2, not t3.
 :- not a46, not t0, not t1, t2, t3.
a4; a62.
a22; a37.
a15; a29.
a33; a55.
a16; a44.
 :- not a46, not t0, t1, not t2, not t3.
a3; a39.
 :- not a46, not t0, not t1, t2, not t3.
a7; a12.
 :- not a46, not t0, not t1, not t2, t3.
a5; a20.
a6; a30.
 :- not a46, t0, not t1, t2, t3.
a25; a35.
a24; a26.
a18; a41.
a1; a28.
a45; a50.
a53; a60.
a17; a32.
 :- not a46, not t0, t1, t2, t3.
a38; a43.
a51; a58.
a31; a61.
 :- not a46, t0, t1, t2, not t3.
 :- not a46, not t0, t1, t2, not t3.
 :- not a46, t0, t1, not t2, not t3.
 :- not a46, t0, t1, not t2, t3.
 :- not a46, not t0, not t1, not t2, not t3.
 :- not a46, t0, not t1, not t2, t3.
 :- not a46, not t0, t1, not t2, t3.
#show a1/0.
#show a3/0.
#show a4/0.
#show a5/0.
#show a6/0.
#show a7/0.
#show a10/0.
#show a12/0.
#show a15/0.
#show a16/0.
#show a17/0.
#show a18/0.
#show a20/0.
#show a22/0.
#show a24/0.
#show a25/0.
#show a26/0.
#show a28/0.
#show a29/0.
#show a30/0.
#show a31/0.
#show a32/0.
#show a33/0.
#show a35/0.
#show a37/0.
#show a38/0.
#show a39/0.
#show a41/0.
#show a43/0.
#show a44/0.
#show a45/0.
#show a50/0.
#show a51/0.
#show a53/0.
#show a55/0.
#show a57/0.
#show a58/0.
#show a60/0.
#show a61/0.
#show a62/0.
