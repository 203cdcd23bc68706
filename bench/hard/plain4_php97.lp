% also --no-gamma
a42; a54; a55; a56; a57; a58; a59; a60; a61; a62 :- not a19.
a45; a46; a47; a48; a49; a50; a51; a52; a53.
a27; a28; a29; a30; a31; a32; a33; a34; a35; a43 :- not a34, not a38, not a41, not a52, not a62.
a0; a1; a2; a3; a4; a5; a6; a7; a8.
a18; a19; a20; a21; a22; a23; a24; a25; a26.
a36; a37; a38; a39; a40; a41; a42; a43; a44.
a39; a54 :- a12, not a0, not a9, not a17, not a18, not a27, not a36, not a45, not a54.
a1; a19; a37 :- not a1, not a10, not a19, not a28, not a37, not a46, not a55.
 :- not a2, not a11, not a20, not a29, not a38, not a47, not a56.
a48; a57 :- not a3, not a12, not a18, not a21, not a30, not a39, not a48, not a57.
a31; a40 :- not a4, not a13, not a22, not a31, not a40, not a49, not a58.
a14; a32 :- not a5, not a14, not a23, not a32, not a41, not a50, not a59.
 :- not a6, not a15, not a24, not a33, not a42, not a47, not a51, not a60.
a45 :- not a7, not a16, not a25, not a34, not a43, not a52, not a61.
a53 :- not a8, not a17, not a26, not a35, not a44, not a53, not a62.
a2; a54; a55; a56; a57; a58; a59; a60; a61; a62 :- not a10, not a15, not a30, not a57.
a27; a28; a29; a30; a31; a32; a33; a34; a35; a57 :- not a40.
a2; a8; a9; a11; a12; a16; a17; a29; a34; a37; a50; a54; a56; a59; a61
    :- not a3, not a6, not a12, not a13, not a21, not a30, not a32, not a37, not a39, not a48, not a57.
a2; a14; a33; a51; a52
    :- a0, a2, a5, a16, a19, a29, a45, a47, a52, a55, a58, not a7, not a10, not a17, not a21, not a23, not a27, not a40, not a43, not a56, not a59.
a3; a29; a31; a34; a48; a54; a55; a56; a57; a58; a60; a61; a62 :- a16, a46, a53, not a6, not a8, not a12, not a13, not a30, not a49.
a0; a4; a29; a45; a46; a49 :- a18, a20, not a3, not a12, not a13, not a21, not a25, not a30, not a39, not a41, not a48, not a52, not a53, not a57.
a7; a21; a23; a29; a46; a47; a49
    :- a1, a5, a7, a16, a20, a27, a49, a58, not a3, not a12, not a21, not a24, not a30, not a41, not a48, not a50, not a54, not a55, not a57, not a62.
a3; a4; a5; a18; a27; a29; a30; a31; a32; a33; a34; a35; a45; a57
    :- a4, a14, a20, a23, a25, a30, a42, a45, a58, not a2, not a11, not a13, not a18, not a31, not a38, not a44.
a13; a23; a27; a30; a31; a38; a52; a54; a55; a56; a57; a58; a60; a61; a62
    :- a34, not a1, not a2, not a6, not a8, not a12, not a21, not a28, not a56, not a61, not a62.
a6; a7; a8; a10; a13; a37 :- a7, a8, a11, a37, a40, a45, not a12, not a35.
 :- not a0, not a9, not a20, not a22, not a27, not a32, not a36, not a40, not a42, not a49, not a54.
a17; a27; a28; a29; a30; a31; a32; a33; a34; a35; a57 :- a60, not a35, not a40.
a23; a30; a47; a51; a54; a55; a56; a57; a58; a59; a60; a61; a62 :- a18, a43, not a6, not a8, not a12, not a14, not a30, not a51, not a61.
a15; a44 :- not a1, not a10, not a19, not a28, not a37, not a46, not a55.
a3; a12; a20; a21; a34; a36; a38; a52; a57 :- a24, a31, a36, a53, a59, not a29, not a56.
a0; a5; a23; a30; a31; a35; a54; a56; a57; a58; a59; a61 :- a49, a51, not a21, not a40, not a60.
a3; a4; a7; a8; a13; a19; a36; a38; a44; a49 :- a1, a4, a5, a8, a11, a13, a22, a30, a49, not a6, not a12, not a14, not a25, not a28, not a40, not a56.
a4; a5; a10; a26; a27; a29; a39; a44; a51; a54; a56; a59
    :- a2, a20, a54, not a3, not a6, not a12, not a13, not a21, not a30, not a36, not a41, not a48, not a55, not a57.
a12; a14; a19; a30 :- a2, a37, a46, not a1, not a9, not a18, not a22, not a27, not a52, not a58, not a61, not a62.
a6; a12; a18; a20; a21; a36; a38; a52; a62 :- a3, a61, not a6, not a7, not a9, not a10, not a15, not a18, not a22, not a26, not a27, not a43, not a57.
a3; a8; a12; a20; a21; a34; a36; a52; a57 :- a23, a30, a34, a59, not a29, not a31, not a45, not a56, not a60.
a9; a10; a11; a12; a13; a14; a15; a16; a17; a51 :- not a14, not a29.
a18; a27; a38; a56 :- a17, a38, a42, a61.
a21; a27; a36; a54; a60 :- a5, a31, not a6, not a8, not a12, not a19, not a49, not a56.
a2; a13; a42; a61 :- not a3, not a6, not a12, not a13, not a21, not a30, not a39, not a48, not a57, not a62.
a0; a3; a27; a29; a30; a32; a33; a34; a35; a45; a57 :- a16, a29, a34, a36, a49, not a25, not a39, not a53.
a0; a3; a11; a32; a44 :- a5, a10, a38, a60, not a0, not a25, not a27, not a39, not a40, not a45, not a57.
a1; a12; a32; a39; a41; a56 :- not a3, not a6, not a12, not a20, not a21, not a39, not a44, not a48, not a49, not a57, not a58, not a62.
a2; a4; a15; a17; a25; a51 :- not a3, not a6, not a9, not a10, not a12, not a13, not a21, not a30, not a39, not a48, not a57, not a60.
a12; a18; a20; a21; a36; a38; a48; a50; a52; a62 :- a34, not a0, not a8, not a17, not a26, not a35, not a38, not a44, not a53, not a56, not a62.
a2; a9; a24 :- a4, a9, a14, a20, a34, a39, a42, a45, a55, not a10, not a35.
a12; a20; a21; a36; a38; a52; a62 :- a14, a24, a36, a53, a59, not a10, not a16, not a18, not a29.
a3; a5; a23; a30; a31; a35; a49; a54; a56; a57; a58; a59; a61 :- a0, a5, a7, a50, not a17, not a21, not a40, not a60.
a17; a21; a23; a29; a31; a46; a49 :- a1, a5, a14, a20, a25, a26, a27, not a7, not a12, not a21, not a30, not a52, not a55, not a62.
a3; a9; a12; a15; a20; a34; a36; a38; a52 :- a26, not a1, not a7, not a21, not a22, not a43, not a48, not a52.
a4; a5; a17; a26; a27; a34; a37; a39; a41; a53; a58; a59
    :- a23, a33, a35, not a3, not a6, not a12, not a13, not a21, not a30, not a37, not a39, not a48, not a57.
a24; a26 :- a1, a5, a7, a20, a22, a27, a31, a50, not a12, not a14, not a62.
a3; a12; a20; a21; a34; a36; a38; a52; a57 :- a1, a3, a24, a36, a38, a39, a45, a59, a60, not a27, not a33.
a12; a18; a20; a21; a36; a38; a48; a52; a62 :- a15, a34, not a11, not a13, not a33, not a41, not a58.
a2; a14; a33; a52 :- a16, a42, not a19, not a27, not a47.
a12; a20; a21; a22; a25; a36; a38; a48; a52; a62
    :- a6, a18, not a0, not a8, not a17, not a26, not a35, not a38, not a44, not a53, not a56, not a61, not a62.
a9; a10; a11; a12; a13; a14; a15; a16; a17; a47.
a26 :- a4, a14, a20, a23, a25, a30, a42, a45, a57, a58, not a2, not a11, not a13, not a18, not a31, not a44, not a56, not a59.
a2; a4; a15; a17; a25; a51; a55 :- a52, not a3, not a6, not a9, not a10, not a12, not a13, not a21, not a30, not a39, not a48, not a57, not a60.
a12; a14; a19; a30 :- a0, a5, a7, a50, not a51.
a7; a20; a21; a23; a29; a46; a49 :- a32, not a3, not a12, not a21, not a24, not a30, not a41, not a48, not a50, not a54, not a55, not a57, not a62.
 :- a0, a2, a5, a16, a19, a29, a45, a47, a52, a55, a58, not a7, not a10, not a17, not a21, not a23, not a27, not a40, not a43, not a56, not a59.
a31; a40 :- a33, not a4, not a13, not a22, not a31, not a40, not a49, not a58.
a2; a9; a24 :- a4, a9, a14, a20, a34, a39, a42, a45, a55, not a13, not a25, not a35.
#show a0/0.
#show a1/0.
#show a2/0.
#show a3/0.
#show a4/0.
#show a5/0.
#show a6/0.
#show a7/0.
#show a8/0.
#show a9/0.
#show a10/0.
#show a11/0.
#show a12/0.
#show a13/0.
#show a14/0.
#show a15/0.
#show a16/0.
#show a17/0.
#show a18/0.
#show a19/0.
#show a20/0.
#show a21/0.
#show a22/0.
#show a23/0.
#show a24/0.
#show a25/0.
#show a26/0.
#show a27/0.
#show a28/0.
#show a29/0.
#show a30/0.
#show a31/0.
#show a32/0.
#show a33/0.
#show a34/0.
#show a35/0.
#show a36/0.
#show a37/0.
#show a38/0.
#show a39/0.
#show a40/0.
#show a41/0.
#show a42/0.
#show a43/0.
#show a44/0.
#show a45/0.
#show a46/0.
#show a47/0.
#show a48/0.
#show a49/0.
#show a50/0.
#show a51/0.
#show a52/0.
#show a53/0.
#show a54/0.
#show a55/0.
#show a56/0.
#show a57/0.
#show a58/0.
#show a59/0.
#show a60/0.
#show a61/0.
#show a62/0.
