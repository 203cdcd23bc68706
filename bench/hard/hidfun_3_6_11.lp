% also --no-gamma
t0 :- a9, not a13, not a26, not a29, not a52, not a60.
t0 :- not a9, a13, not a26, not a29, not a52, not a60.
t0 :- not a9, not a13, a26, not a29, not a52, not a60.
t0 :- a9, a13, a26, not a29, not a52, not a60.
t0 :- not a9, not a13, not a26, a29, not a52, not a60.
t0 :- a9, a13, not a26, a29, not a52, not a60.
t0 :- a9, not a13, a26, a29, not a52, not a60.
t0 :- not a9, a13, a26, a29, not a52, not a60.
t0 :- not a9, not a13, not a26, not a29, a52, not a60.
t0 :- a9, a13, not a26, not a29, a52, not a60.
t0 :- a9, not a13, a26, not a29, a52, not a60.
t0 :- not a9, a13, a26, not a29, a52, not a60.
t0 :- a9, not a13, not a26, a29, a52, not a60.
t0 :- not a9, a13, not a26, a29, a52, not a60.
t0 :- not a9, not a13, a26, a29, a52, not a60.
t0 :- a9, a13, a26, a29, a52, not a60.
t0 :- not a9, not a13, not a26, not a29, not a52, a60.
t0 :- a9, a13, not a26, not a29, not a52, a60.
t0 :- a9, not a13, a26, not a29, not a52, a60.
t0 :- not a9, a13, a26, not a29, not a52, a60.
t0 :- a9, not a13, not a26, a29, not a52, a60.
t0 :- not a9, a13, not a26, a29, not a52, a60.
t0 :- not a9, not a13, a26, a29, not a52, a60.
t0 :- a9, a13, a26, a29, not a52, a60.
t0 :- a9, not a13, not a26, not a29, a52, a60.
t0 :- not a9, a13, not a26, not a29, a52, a60.
t0 :- not a9, not a13, a26, not a29, a52, a60.
t0 :- a9, a13, a26, not a29, a52, a60.
t0 :- not a9, not a13, not a26, a29, a52, a60.
t0 :- a9, a13, not a26, a29, a52, a60.
t0 :- a9, not a13, a26, a29, a52, a60.
t0 :- not a9, a13, a26, a29, a52, a60.
t1 :- a14, not a15, not a27, not a40, not a48, not a56.
t1 :- not a14, a15, not a27, not a40, not a48, not a56.
t1 :- not a14, not a15, a27, not a40, not a48, not a56.
t1 :- a14, a15, a27, not a40, not a48, not a56.
t1 :- not a14, not a15, not a27, a40, not a48, not a56.
t1 :- a14, a15, not a27, a40, not a48, not a56.
t1 :- a14, not a15, a27, a40, not a48, not a56.
t1 :- not a14, a15, a27, a40, not a48, not a56.
t1 :- not a14, not a15, not a27, not a40, a48, not a56.
t1 :- a14, a15, not a27, not a40, a48, not a56.
t1 :- a14, not a15, a27, not a40, a48, not a56.
t1 :- not a14, a15, a27, not a40, a48, not a56.
t1 :- a14, not a15, not a27, a40, a48, not a56.
t1 :- not a14, a15, not a27, a40, a48, not a56.
t1 :- not a14, not a15, a27, a40, a48, not a56.
t1 :- a14, a15, a27, a40, a48, not a56.
t1 :- not a14, not a15, not a27, not a40, not a48, a56.
t1 :- a14, a15, not a27, not a40, not a48, a56.
t1 :- a14, not a15, a27, not a40, not a48, a56.
t1 :- not a14, a15, a27, not a40, not a48, a56.
t1 :- a14, not a15, not a27, a40, not a48, a56.
t1 :- not a14, a15, not a27, a40, not a48, a56.
t1 :- not a14, not a15, a27, a40, not a48, a56.
t1 :- a14, a15, a27, a40, not a48, a56.
t1 :- a14, not a15, not a27, not a40, a48, a56.
t1 :- not a14, a15, not a27, not a40, a48, a56.
t1 :- not a14, not a15, a27, not a40, a48, a56.
t1 :- a14, a15, a27, not a40, a48, a56.
t1 :- not a14, not a15, not a27, a40, a48, a56.
t1 :- a14, a15, not a27, a40, a48, a56.
t1 :- a14, not a15, a27, a40, a48, a56.
t1 :- not a14, a15, a27, a40, a48, a56.
t2 :- a23, not a30, not a34, not a36, not a46, not a58.
t2 :- not a23, a30, not a34, not a36, not a46, not a58.
t2 :- not a23, not a30, a34, not a36, not a46, not a58.
t2 :- a23, a30, a34, not a36, not a46, not a58.
t2 :- not a23, not a30, not a34, a36, not a46, not a58.
t2 :- a23, a30, not a34, a36, not a46, not a58.
t2 :- a23, not a30, a34, a36, not a46, not a58.
t2 :- not a23, a30, a34, a36, not a46, not a58.
t2 :- not a23, not a30, not a34, not a36, a46, not a58.
t2 :- a23, a30, not a34, not a36, a46, not a58.
t2 :- a23, not a30, a34, not a36, a46, not a58.
t2 :- not a23, a30, a34, not a36, a46, not a58.
t2 :- a23, not a30, not a34, a36, a46, not a58.
t2 :- not a23, a30, not a34, a36, a46, not a58.
t2 :- not a23, not a30, a34, a36, a46, not a58.
t2 :- a23, a30, a34, a36, a46, not a58.
t2 :- not a23, not a30, not a34, not a36, not a46, a58.
t2 :- a23, a30, not a34, not a36, not a46, a58.
t2 :- a23, not a30, a34, not a36, not a46, a58.
t2 :- not a23, a30, a34, not a36, not a46, a58.
t2 :- a23, not a30, not a34, a36, not a46, a58.
t2 :- not a23, a30, not a34, a36, not a46, a58.
t2 :- not a23, not a30, a34, a36, not a46, a58.
t2 :- a23, a30, a34, a36, not a46, a58.
t2 :- a23, not a30, not a34, not a36, a46, a58.
t2 :- not a23, a30, not a34, not a36, a46, a58.
t2 :- not a23, not a30, a34, not a36, a46, a58.
t2 :- a23, a30, a34, not a36, a46, a58.
t2 :- not a23, not a30, not a34, a36, a46, a58.
t2 :- a23, a30, not a34, a36, a46, a58.
t2 :- a23, not a30, a34, a36, a46, a58.
t2 :- not a23, a30, a34, a36, a46, a58.
a32; a40.
a8; a15.
 :- not a38, t0, t1, t2.
a34; a55.
a27; a59.
a30; a37.
a21; a36.
a39; a58.
 :- not a38, not t0, t1, t2.
a26; a57.
a6; a23.
 :- not a38, t0, not t1, t2.
a13; a47.
a29; a61.
 :- not a38, t0, t1, not t2.
a46; a53.
 :- not a38, t0, not t1, not t2.
a52; a63.
a11; a60.
 :- not a38, not t0, t1, not t2.
 :- not a38, not t0, not t1, not t2.
 :- not a38, not t0, not t1, t2.
a14; a16.
a9; a43.
a1; a48.
a28; a56.
#show a1/0.
#show a6/0.
#show a8/0.
#show a9/0.
#show a11/0.
#show a13/0.
#show a14/0.
#show a15/0.
#show a16/0.
#show a21/0.
#show a23/0.
#show a26/0.
#show a27/0.
#show a28/0.
#show a29/0.
#show a30/0.
#show a32/0.
#show a34/0.
#show a36/0.
#show a37/0.
#show a39/0.
#show a40/0.
#show a43/0.
#show a46/0.
#show a47/0.
#show a48/0.
#show a52/0.
#show a53/0.
#show a55/0.
#show a56/0.
#show a57/0.
#show a58/0.
#show a59/0.
#show a60/0.
#show a61/0.
#show a63/0.
