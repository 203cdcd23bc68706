% also --no-gamma
t0 :- a18, not a31, not a44, not a52.
t0 :- not a18, a31, not a44, not a52.
t0 :- not a18, not a31, a44, not a52.
t0 :- a18, a31, a44, not a52.
t0 :- not a18, not a31, not a44, a52.
t0 :- a18, a31, not a44, a52.
t0 :- a18, not a31, a44, a52.
t0 :- not a18, a31, a44, a52.
t1 :- a10, not a13, not a27, not a53.
t1 :- not a10, a13, not a27, not a53.
t1 :- not a10, not a13, a27, not a53.
t1 :- a10, a13, a27, not a53.
t1 :- not a10, not a13, not a27, a53.
t1 :- a10, a13, not a27, a53.
t1 :- a10, not a13, a27, a53.
t1 :- not a10, a13, a27, a53.
t2 :- a2, not a33, not a37, not a54.
t2 :- not a2, a33, not a37, not a54.
t2 :- not a2, not a33, a37, not a54.
t2 :- a2, a33, a37, not a54.
t2 :- not a2, not a33, not a37, a54.
t2 :- a2, a33, not a37, a54.
t2 :- a2, not a33, a37, a54.
t2 :- not a2, a33, a37, a54.
t3 :- a6, not a24, not a52, not a60.
t3 :- not a6, a24, not a52, not a60.
t3 :- not a6, not a24, a52, not a60.
t3 :- a6, a24, a52, not a60.
t3 :- not a6, not a24, not a52, a60.
t3 :- a6, a24, not a52, a60.
t3 :- a6, not a24, a52, a60.
t3 :- not a6, a24, a52, a60.
t4 :- a16, not a31, not a46, not a60.
t4 :- not a16, a31, not a46, not a60.
t4 :- not a16, not a31, a46, not a60.
t4 :- a16, a31, a46, not a60.
t4 :- not a16, not a31, not a46, a60.
t4 :- a16, a31, not a46, a60.
t4 :- a16, not a31, a46, a60.
t4 :- not a16, a31, a46, a60.
t5 :- a6, not a41, not a53, not a56.
t5 :- not a6, a41, not a53, not a56.
t5 :- not a6, not a41, a53, not a56.
t5 :- a6, a41, a53, not a56.
t5 :- not a6, not a41, not a53, a56.
t5 :- a6, a41, not a53, a56.
t5 :- a6, not a41, a53, a56.
t5 :- not a6, a41, a53, a56.
t6 :- a7, not a9, not a11, not a18.
t6 :- not a7, a9, not a11, not a18.
t6 :- not a7, not a9, a11, not a18.
t6 :- a7, a9, a11, not a18.
t6 :- not a7, not a9, not a11, a18.
t6 :- a7, a9, not a11, a18.
t6 :- a7, not a9, a11, a18.
t6 :- not a7, a9, a11, a18.
t7 :- a7, not a41, not a44, not a46.
t7 :- not a7, a41, not a44, not a46.
t7 :- not a7, not a41, a44, not a46.
t7 :- a7, a41, a44, not a46.
t7 :- not a7, not a41, not a44, a46.
t7 :- a7, a41, not a44, a46.
t7 :- a7, not a41, a44, a46.
t7 :- not a7, a41, a44, a46.
t8 :- a19, not a34, not a45, not a49.
t8 :- not a19, a34, not a45, not a49.
t8 :- not a19, not a34, a45, not a49.
t8 :- a19, a34, a45, not a49.
t8 :- not a19, not a34, not a45, a49.
t8 :- a19, a34, not a45, a49.
t8 :- a19, not a34, a45, a49.
t8 :- not a19, a34, a45, a49.
t9 :- a5, not a13, not a26, not a33.
t9 :- not a5, a13, not a26, not a33.
t9 :- not a5, not a13, a26, not a33.
t9 :- a5, a13, a26, not a33.
t9 :- not a5, not a13, not a26, a33.
t9 :- a5, a13, not a26, a33.
t9 :- a5, not a13, a26, a33.
t9 :- not a5, a13, a26, a33.
t10 :- a26, not a45, not a56, not a58.
t10 :- not a26, a45, not a56, not a58.
t10 :- not a26, not a45, a56, not a58.
t10 :- a26, a45, a56, not a58.
t10 :- not a26, not a45, not a56, a58.
t10 :- a26, a45, not a56, a58.
t10 :- a26, not a45, a56, a58.
t10 :- not a26, a45, a56, a58.
t11 :- a2, not a16, not a19, not a55.
t11 :- not a2, a16, not a19, not a55.
t11 :- not a2, not a16, a19, not a55.
t11 :- a2, a16, a19, not a55.
t11 :- not a2, not a16, not a19, a55.
t11 :- a2, a16, not a19, a55.
t11 :- a2, not a16, a19, a55.
t11 :- not a2, a16, a19, a55.
t12 :- a5, not a10, not a37, not a49.
t12 :- not a5, a10, not a37, not a49.
t12 :- not a5, not a10, a37, not a49.
t12 :- a5, a10, a37, not a49.
t12 :- not a5, not a10, not a37, a49.
t12 :- a5, a10, not a37, a49.
t12 :- a5, not a10, a37, a49.
t12 :- not a5, a10, a37, a49.
t13 :- a9, not a34, not a55, not a58.
t13 :- not a9, a34, not a55, not a58.
t13 :- not a9, not a34, a55, not a58.
t13 :- a9, a34, a55, not a58.
t13 :- not a9, not a34, not a55, a58.
t13 :- a9, a34, not a55, a58.
t13 :- a9, not a34, a55, a58.
t13 :- not a9, a34, a55, a58.
t14 :- a11, not a24, not a27, not a54.
t14 :- not a11, a24, not a27, not a54.
t14 :- not a11, not a24, a27, not a54.
t14 :- a11, a24, a27, not a54.
t14 :- not a11, not a24, not a27, a54.
t14 :- a11, a24, not a27, a54.
t14 :- a11, not a24, a27, a54.
t14 :- not a11, a24, a27, a54.
 :- a25, t11.
a23; a49.
 :- a25, t5.
a29; a33.
 :- a42, t3.
a26; a39.
 :- a42, t10.
 :- a25, t10.
 :- a25, not t1.
 :- a25, t2.
 :- a25, t14.
 :- a42, t8.
a9; a28.
a47; a58.
a36; a52.
a13; a57.
 :- a42, t11.
 :- a42, t5.
 :- a42, t6.
a48; a60.
a31; a40.
a5; a15.
 :- a42, t4.
a20; a45.
a32; a53.
a37; a50.
a10; a22.
a8; a56.
a3; a46.
 :- a25, t8.
 :- a25, t6.
 :- a25, t13.
 :- a25, t7.
 :- a42, t1.
 :- a25, t9.
a43; a44.
 :- a25, t4.
a2; a59.
 :- a42, not t0.
a7; a21.
 :- a25, t3.
a6; a62.
 :- a42, t12.
 :- a25, t0.
a16; a61.
a1; a27.
a24; a35.
 :- a42, t9.
 :- a42, t13.
 :- a42, t2.
a14; a19.
 :- a42, t14.
a0; a41.
a25; a42.
a4; a54.
 :- a42, t7.
a18; a38.
a11; a63.
 :- a25, t12.
a30; a55.
a12; a34.
#show a0/0.
#show a1/0.
#show a2/0.
#show a3/0.
#show a4/0.
#show a5/0.
#show a6/0.
#show a7/0.
#show a8/0.
#show a9/0.
#show a10/0.
#show a11/0.
#show a12/0.
#show a13/0.
#show a14/0.
#show a15/0.
#show a16/0.
#show a18/0.
#show a19/0.
#show a20/0.
#show a21/0.
#show a22/0.
#show a23/0.
#show a24/0.
#show a25/0.
#show a26/0.
#show a27/0.
#show a28/0.
#show a29/0.
#show a30/0.
#show a31/0.
#show a32/0.
#show a33/0.
#show a34/0.
#show a35/0.
#show a36/0.
#show a37/0.
#show a38/0.
#show a39/0.
#show a40/0.
#show a41/0.
#show a42/0.
#show a43/0.
#show a44/0.
#show a45/0.
#show a46/0.
#show a47/0.
#show a48/0.
#show a49/0.
#show a50/0.
#show a52/0.
#show a53/0.
#show a54/0.
#show a55/0.
#show a56/0.
#show a57/0.
#show a58/0.
#show a59/0.
#show a60/0.
#show a61/0.
#show a62/0.
#show a63/0.
