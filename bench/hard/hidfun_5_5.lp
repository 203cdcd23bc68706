% also --no-gamma
t0 :- a7, not a8, not a13, not a24, not a60.
t0 :- not a7, a8, not a13, not a24, not a60.
t0 :- not a7, not a8, a13, not a24, not a60.
t0 :- a7, a8, a13, not a24, not a60.
t0 :- not a7, not a8, not a13, a24, not a60.
t0 :- a7, a8, not a13, a24, not a60.
t0 :- a7, not a8, a13, a24, not a60.
t0 :- not a7, a8, a13, a24, not a60.
t0 :- not a7, not a8, not a13, not a24, a60.
t0 :- a7, a8, not a13, not a24, a60.
t0 :- a7, not a8, a13, not a24, a60.
t0 :- not a7, a8, a13, not a24, a60.
t0 :- a7, not a8, not a13, a24, a60.
t0 :- not a7, a8, not a13, a24, a60.
t0 :- not a7, not a8, a13, a24, a60.
t0 :- a7, a8, a13, a24, a60.
t1 :- a1, not a9, not a18, not a37, not a47.
t1 :- not a1, a9, not a18, not a37, not a47.
t1 :- not a1, not a9, a18, not a37, not a47.
t1 :- a1, a9, a18, not a37, not a47.
t1 :- not a1, not a9, not a18, a37, not a47.
t1 :- a1, a9, not a18, a37, not a47.
t1 :- a1, not a9, a18, a37, not a47.
t1 :- not a1, a9, a18, a37, not a47.
t1 :- not a1, not a9, not a18, not a37, a47.
t1 :- a1, a9, not a18, not a37, a47.
t1 :- a1, not a9, a18, not a37, a47.
t1 :- not a1, a9, a18, not a37, a47.
t1 :- a1, not a9, not a18, a37, a47.
t1 :- not a1, a9, not a18, a37, a47.
t1 :- not a1, not a9, a18, a37, a47.
t1 :- a1, a9, a18, a37, a47.
t2 :- a27, not a32, not a56, not a57, not a63.
t2 :- not a27, a32, not a56, not a57, not a63.
t2 :- not a27, not a32, a56, not a57, not a63.
t2 :- a27, a32, a56, not a57, not a63.
t2 :- not a27, not a32, not a56, a57, not a63.
t2 :- a27, a32, not a56, a57, not a63.
t2 :- a27, not a32, a56, a57, not a63.
t2 :- not a27, a32, a56, a57, not a63.
t2 :- not a27, not a32, not a56, not a57, a63.
t2 :- a27, a32, not a56, not a57, a63.
t2 :- a27, not a32, a56, not a57, a63.
t2 :- not a27, a32, a56, not a57, a63.
t2 :- a27, not a32, not a56, a57, a63.
t2 :- not a27, a32, not a56, a57, a63.
t2 :- not a27, not a32, a56, a57, a63.
t2 :- a27, a32, a56, a57, a63.
t3 :- a12, not a17, not a21, not a29, not a41.
t3 :- not a12, a17, not a21, not a29, not a41.
t3 :- not a12, not a17, a21, not a29, not a41.
t3 :- a12, a17, a21, not a29, not a41.
t3 :- not a12, not a17, not a21, a29, not a41.
t3 :- a12, a17, not a21, a29, not a41.
t3 :- a12, not a17, a21, a29, not a41.
t3 :- not a12, a17, a21, a29, not a41.
t3 :- not a12, not a17, not a21, not a29, a41.
t3 :- a12, a17, not a21, not a29, a41.
t3 :- a12, not a17, a21, not a29, a41.
t3 :- not a12, a17, a21, not a29, a41.
t3 :- a12, not a17, not a21, a29, a41.
t3 :- not a12, a17, not a21, a29, a41.
t3 :- not a12, not a17, a21, a29, a41.
t3 :- a12, a17, a21, a29, a41.
t4 :- a19, not a20, not a38, not a42, not a61.
t4 :- not a19, a20, not a38, not a42, not a61.
t4 :- not a19, not a20, a38, not a42, not a61.
t4 :- a19, a20, a38, not a42, not a61.
t4 :- not a19, not a20, not a38, a42, not a61.
t4 :- a19, a20, not a38, a42, not a61.
t4 :- a19, not a20, a38, a42, not a61.
t4 :- not a19, a20, a38, a42, not a61.
t4 :- not a19, not a20, not a38, not a42, a61.
t4 :- a19, a20, not a38, not a42, a61.
t4 :- a19, not a20, a38, not a42, a61.
t4 :- not a19, a20, a38, not a42, a61.
t4 :- a19, not a20, not a38, a42, a61.
t4 :- not a19, a20, not a38, a42, a61.
t4 :- not a19, not a20, a38, a42, a61.
t4 :- a19, a20, a38, a42, a61.
 :- not a28, not t0, not t1, t2, not t3, not t4.
 :- not a28, t0, t1, not t2, t3, t4.
a6; a60.
a10; a12.
 :- not a28, t0, not t1, not t2, not t3, t4.
 :- not a28, t0, not t1, t2, t3, t4.
 :- not a28, not t0, t1, not t2, not t3, not t4.
a24; a33.
 :- not a28, t0, t1, t2, t3, not t4.
 :- not a28, not t0, t1, not t2, t3, t4.
 :- not a28, t0, t1, t2, not t3, not t4.
 :- not a28, t0, t1, t2, not t3, t4.
a21; a36.
 :- not a28, t0, not t1, not t2, t3, not t4.
a52; a56.
a19; a22.
 :- not a28, not t0, not t1, not t2, t3, not t4.
 :- not a28, not t0, t1, t2, t3, not t4.
a18; a23.
a1; a26.
a17; a44.
 :- not a28, t0, not t1, t2, not t3, t4.
 :- not a28, t0, not t1, t2, t3, not t4.
a11; a37.
 :- not a28, t0, not t1, not t2, not t3, not t4.
 :- not a28, t0, t1, not t2, not t3, t4.
 :- not a28, not t0, not t1, not t2, t3, t4.
a2; a61.
 :- not a28, not t0, not t1, t2, t3, not t4.
a20; a59.
 :- not a28, not t0, t1, not t2, t3, not t4.
 :- not a28, not t0, not t1, t2, not t3, t4.
 :- not a28, t0, t1, not t2, not t3, not t4.
a25; a32.
 :- not a28, not t0, t1, t2, not t3, not t4.
a62; a63.
 :- not a28, t0, t1, t2, t3, t4.
 :- not a28, not t0, t1, t2, not t3, t4.
 :- not a28, not t0, t1, not t2, not t3, t4.
a42; a48.
a13; a51.
 :- not a28, t0, not t1, t2, not t3, not t4.
a29; a58.
 :- not a28, not t0, not t1, not t2, not t3, t4.
a9; a31.
 :- not a28, t0, t1, not t2, t3, not t4.
 :- not a28, t0, not t1, not t2, t3, t4.
 :- not a28, not t0, not t1, not t2, not t3, not t4.
a7; a14.
a45; a47.
a55; a57.
a5; a8.
a27; a35.
a41; a54.
 :- not a28, not t0, t1, t2, t3, t4.
 :- not a28, not t0, not t1, t2, t3, t4.
a38; a40.
#show a1/0.
#show a2/0.
#show a5/0.
#show a6/0.
#show a7/0.
#show a8/0.
#show a9/0.
#show a10/0.
#show a11/0.
#show a12/0.
#show a13/0.
#show a14/0.
#show a17/0.
#show a18/0.
#show a19/0.
#show a20/0.
#show a21/0.
#show a22/0.
#show a23/0.
#show a24/0.
#show a25/0.
#show a26/0.
#show a27/0.
#show a29/0.
#show a31/0.
#show a32/0.
#show a33/0.
#show a35/0.
#show a36/0.
#show a37/0.
#show a38/0.
#show a40/0.
#show a41/0.
#show a42/0.
#show a44/0.
#show a45/0.
#show a47/0.
#show a48/0.
#show a51/0.
#show a52/0.
#show a54/0.
#show a55/0.
#show a56/0.
#show a57/0.
#show a58/0.
#show a59/0.
#show a60/0.
#show a61/0.
#show a62/0.
#show a63/0.
