% also --no-gamma
a9; a10; a11; a12; a13; a14; a15; a16; a17.
a42; a54; a55; a56; a57; a58; a59; a60; a61; a62 :- not a19.
a45; a46; a47; a48; a49; a50; a51; a52; a53.
a27; a28; a29; a30; a31; a32; a33; a34; a35; a43 :- not a34, not a38, not a41, not a62.
a0; a1; a2; a3; a4; a5; a6; a7; a8.
a18; a19; a20; a21; a22; a23; a24; a25; a26.
a36; a37; a38; a39; a40; a41; a42; a43; a44.
a39 :- a12, not a0, not a9, not a17, not a18, not a27, not a36, not a45, not a54.
a1; a19 :- not a1, not a10, not a19, not a28, not a37, not a46, not a55.
 :- not a2, not a11, not a20, not a29, not a38, not a47, not a56.
a57 :- not a3, not a12, not a21, not a30, not a39, not a48, not a57.
a31; a40 :- not a4, not a13, not a22, not a31, not a40, not a49, not a58.
a14; a32 :- not a5, not a14, not a23, not a32, not a41, not a50, not a59.
 :- not a6, not a15, not a24, not a33, not a42, not a47, not a51, not a60.
a45 :- not a7, not a16, not a25, not a34, not a43, not a52, not a61.
a53 :- not a8, not a17, not a26, not a35, not a44, not a53, not a62.
a2; a54; a55; a56; a57; a58; a59; a60; a61; a62 :- not a10, not a15, not a30.
a27; a28; a29; a30; a31; a32; a33; a34; a35; a57 :- not a40.
a12; a27; a40; a45; a52 :- a7, a16, a24, a30, a31, a47, not a0, not a9, not a18, not a22, not a27, not a52, not a58, not a62.
a2; a9; a11; a12; a13; a16; a17; a29; a50; a54; a59; a61
    :- a21, a30, not a6, not a7, not a9, not a13, not a15, not a23, not a26, not a35, not a36, not a43, not a57.
a9; a11; a12; a14; a15; a16; a17; a33; a43 :- a15, a17, not a30.
a8; a17; a19; a23; a38; a54; a55; a56; a58; a59; a60; a61; a62 :- a0, a1, a2, a29, a45, a47, a52, a58, not a6, not a8, not a12, not a28, not a40.
a12; a27; a47 :- a11, not a3, not a12, not a21, not a30, not a34, not a39, not a48, not a55, not a57.
a23; a29; a54; a55; a56; a57; a58; a59; a60; a61; a62 :- a2, a46, not a6, not a8, not a12, not a49.
a1; a26; a50 :- a6, a8, a11, a37, not a12, not a18, not a21, not a30, not a39, not a46, not a47, not a48, not a57.
a4; a12; a13; a16; a17; a34; a45; a52 :- a29, a47, a52, a61, not a24, not a32, not a34, not a54.
a10; a19; a45; a55; a60 :- a17, a45, a58, not a16, not a19, not a34, not a39, not a43, not a46, not a52, not a57, not a61.
a3; a12; a20; a21; a34; a36; a38; a52 :- a24, a45, a53, a59, not a19, not a47, not a60.
a4; a5; a26; a59 :- a18, a53, not a3, not a6, not a12, not a13, not a21, not a30, not a39, not a48, not a57.
a35 :- a1, a5, a7, a50, not a3, not a12, not a21, not a30, not a39, not a48, not a57, not a62.
a3; a4; a8; a13; a19; a36; a38; a49 :- a7, a8, a11, a45, not a0, not a9, not a10, not a12, not a13, not a25, not a27, not a36, not a40, not a54.
a34; a37; a48; a55; a56; a57; a58; a59; a60; a61; a62 :- a14, a30, a42, a45, not a11, not a13, not a18, not a31, not a44.
a9; a11; a12; a14; a15; a16; a17; a43 :- a20, a27, a35, not a2, not a7, not a49.
a23; a30; a54; a55; a56; a57; a58; a59; a60; a61; a62 :- a49, a54, not a6, not a8, not a12, not a28, not a56, not a61.
a7 :- a4, a11, a13, not a5, not a9, not a15, not a18, not a27, not a38, not a43, not a45, not a54.
a34; a39 :- a17, a20, a39, a58, not a5, not a16, not a19, not a25, not a34, not a43, not a46, not a52, not a54, not a61.
a8; a15; a17; a31; a42; a54; a55; a56; a58; a59; a61; a62 :- a0, a1, a10, a20, a29, a45, a47, a61, not a12, not a52, not a59.
 :- a17, a52, not a2, not a11, not a20, not a25, not a29, not a38, not a47, not a56.
a39 :- not a3, not a12, not a21, not a30, not a39, not a48, not a57, not a62.
a45; a48; a55; a60 :- a17, a58, not a5, not a10, not a21, not a24, not a53.
a35 :- a49, not a3, not a12, not a21, not a30, not a39, not a48, not a57.
a12; a42; a48; a54; a55; a56; a57; a58; a59; a60; a61; a62 :- a10, a14, a17, a30, a42, not a9.
a3 :- not a0, not a9, not a22, not a27, not a32, not a36, not a40, not a49, not a54.
 :- a6, a17, a32, a43, not a2, not a11, not a20, not a29, not a38, not a50, not a53, not a56.
a4; a43 :- a17, a32, not a43.
a27; a28; a29; a30; a31; a32; a33; a34; a35; a57 :- a16, not a23, not a40, not a59.
a29 :- a2, a46, not a6, not a8, not a12, not a49.
 :- a1, a5, a7, a50, a56, not a3, not a12, not a21, not a30, not a39, not a48, not a57, not a62.
a27; a28; a29; a30; a31; a32; a33; a34; a35; a57 :- a60, not a40.
a1; a35 :- not a3, not a12, not a21, not a30, not a39, not a48, not a57, not a62.
a34; a39 :- a9, a11, a37, not a5, not a16, not a19, not a25, not a34, not a43, not a46, not a52, not a54, not a61.
a53; a59 :- a10, a38, not a8, not a17, not a26, not a35, not a44, not a53, not a62.
a16; a17; a25 :- a18, a53, not a3, not a6, not a12, not a13, not a21, not a30, not a39, not a48, not a57.
a3; a12; a20; a21; a34; a36; a38; a52 :- a24, a45, a53, a59.
a12; a42; a48; a54; a55; a56; a57; a58; a59; a60; a61; a62 :- a10, a14, a17, a30, a42, not a1.
#show a0/0.
#show a1/0.
#show a2/0.
#show a3/0.
#show a4/0.
#show a5/0.
#show a6/0.
#show a7/0.
#show a8/0.
#show a9/0.
#show a10/0.
#show a11/0.
#show a12/0.
#show a13/0.
#show a14/0.
#show a15/0.
#show a16/0.
#show a17/0.
#show a18/0.
#show a19/0.
#show a20/0.
#show a21/0.
#show a22/0.
#show a23/0.
#show a24/0.
#show a25/0.
#show a26/0.
#show a27/0.
#show a28/0.
#show a29/0.
#show a30/0.
#show a31/0.
#show a32/0.
#show a33/0.
#show a34/0.
#show a35/0.
#show a36/0.
#show a37/0.
#show a38/0.
#show a39/0.
#show a40/0.
#show a41/0.
#show a42/0.
#show a43/0.
#show a44/0.
#show a45/0.
#show a46/0.
#show a47/0.
#show a48/0.
#show a49/0.
#show a50/0.
#show a51/0.
#show a52/0.
#show a53/0.
#show a54/0.
#show a55/0.
#show a56/0.
#show a57/0.
#show a58/0.
#show a59/0.
#show a60/0.
#show a61/0.
#show a62/0.
