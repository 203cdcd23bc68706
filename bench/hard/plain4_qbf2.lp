% also --no-gamma
a0; a3; a17; a22; a31; a35; a43 :- a1, a9, a11, a20, a26, a29, a36, a51, a52, not a4, not a7, not a15, not a32, not a39.
a15; a17; a21; a28; a29; a39; a47; a53; a59; a61 :- a20, a36, a45, a49, not a23, not a32, not a33, not a39, not a55.
a0; a10; a14; a17; a24; a41; a46; a47; a50 :- a1, a11, a34, a51, a52, a56, not a24, not a39, not a59.
a2; a7; a17; a24; a26; a35; a38; a39; a42; a43; a44; a46; a49; a51; a53; a56; a57; a61
    :- not a14, not a15, not a17, not a23, not a39, not a46, not a50, not a53, not a55, not a61.
a1; a15; a23; a42; a59; a61 :- a9, a34, not a0, not a7, not a24, not a53, not a63.
a6; a14; a22; a27; a30; a31; a41; a47; a48; a59; a62 :- a36, not a4, not a15, not a24, not a32, not a46, not a61, not a63.
a0; a3; a10; a12; a14; a17; a18; a20; a21; a24; a31; a37; a39; a42; a47; a52; a61; a62
    :- not a23, not a31, not a42, not a43, not a46, not a50, not a55, not a63.
a7; a31; a42; a50; a52; a53; a59; a61
    :- a1, a20, a34, a36, not a3, not a4, not a15, not a17, not a24, not a28, not a39, not a41, not a47, not a50, not a63.
a5; a13; a16; a17; a19; a21; a30; a39; a42; a43; a44; a51; a53; a57; a60; a63 :- a36, not a2, not a14, not a39, not a50, not a59.
a2; a5; a8; a28; a39; a44; a46; a47; a53; a61; a63 :- a11, a34, a45, a51, a52, a56, not a4, not a39, not a46, not a50, not a58.
a18; a25; a41; a46; a50; a53; a59 :- a1, a11, a29, a34, not a7, not a14, not a17, not a43, not a47, not a50, not a59, not a61.
a43; a46; a47; a49 :- a9, a20, a36, not a0, not a28, not a33, not a42.
a4; a20; a21; a46; a47; a63 :- a25, a45, not a0, not a3, not a4, not a17, not a18, not a41.
a15; a21; a29; a33; a34; a41; a45; a46; a55; a59 :- not a18, not a21, not a24, not a41, not a53, not a61.
a0; a2; a7; a11; a21; a28; a32; a33; a45; a46; a47; a50; a59; a63
    :- a36, a56, not a2, not a7, not a14, not a15, not a23, not a24, not a39, not a42, not a46, not a47, not a50, not a59.
a0; a6; a14; a23; a27; a42; a43; a50; a61 :- a1, a9, a10, a19, a26, a34, a49, a51, a56, not a2, not a7, not a28, not a31, not a32, not a39.
a4; a17; a18; a20; a21; a25; a29; a39; a41; a50; a59 :- a1, a11, a34, not a3, not a33, not a41, not a43, not a47, not a63.
a10; a16; a17; a23; a24; a27; a31; a34; a38; a41; a42; a44; a47; a57; a61; a63
    :- a3, a12, a34, not a15, not a20, not a28, not a29, not a32, not a33, not a37, not a54.
a0; a4; a7; a24; a26; a28; a33; a54; a59 :- a9, a12, a16, a19, a20, a25, a49, not a28, not a31, not a53, not a59.
a14; a15; a20; a31; a33; a34; a41; a61 :- a11, a36, a48, not a15, not a18, not a21, not a24, not a39, not a47, not a50, not a55.
a3; a15; a18; a24; a37; a47; a58; a62
    :- a9, a11, a25, a29, a36, a51, a52, not a14, not a17, not a21, not a23, not a31, not a41, not a47, not a50, not a58.
a0; a7; a8; a9; a11; a14; a20; a21; a23; a25; a39; a40; a41; a43; a45; a46 :- not a3, not a15, not a17, not a24, not a53, not a55, not a59.
a13; a17; a28; a40; a46; a53; a55; a60 :- a1, a25, a34, a49, a51, not a3, not a15, not a17, not a24, not a31, not a59, not a61, not a63.
a13; a15; a24; a25; a26; a31; a42; a46; a50; a59 :- a1, a26, a29, a49, a52, not a0, not a32, not a50, not a54.
a0; a17; a21; a23; a28; a30; a46; a48; a61 :- a1, a12, a19, a20, a25, a51, a52, not a3, not a39, not a46.
a0; a15; a19; a50; a55 :- a1, a20, a34, a49, not a7, not a18, not a23, not a24, not a28, not a32, not a39, not a43, not a47.
a0; a2; a7; a23; a28; a32; a39; a45; a47; a53; a55 :- a11, a34, not a32, not a41, not a43, not a53.
a9; a32; a39; a41; a46; a55; a61; a63 :- a45, not a0, not a7, not a17, not a18, not a23, not a43.
a4; a11; a17; a32; a53; a61; a63 :- a12, a20, a36, not a55.
a2; a7; a16; a23; a42; a50; a63 :- a20, a52, not a2, not a14, not a42, not a43, not a50, not a53, not a61, not a63.
a3; a12; a17; a21; a32; a41; a55 :- a20, not a15, not a21, not a32, not a39, not a43, not a53, not a55, not a61.
a0; a21; a28; a46; a47; a54; a56 :- a25, not a7, not a24, not a43, not a53, not a54, not a59.
a6; a11; a15; a20; a23; a28; a32; a41; a47 :- a11, a19, a36, not a3, not a15, not a18, not a31, not a33, not a39, not a43, not a53.
a17; a23; a24; a28; a31; a32; a38; a39; a41; a42; a43; a46; a53; a57; a59; a61
    :- a1, a9, a10, a19, a25, a49, a56, not a24, not a28, not a41, not a42, not a46, not a53, not a55.
a0; a11; a14; a15; a20; a21; a23; a25; a41; a43; a50; a63 :- not a14, not a15, not a42, not a58.
a7; a18; a21; a28; a36; a50; a54 :- not a0, not a15, not a18, not a21, not a24, not a33, not a41, not a53, not a61.
a0; a2; a7; a8; a14; a18; a21; a23; a28; a32; a33; a45; a50 :- a25, a56, not a3, not a18, not a28, not a39.
a3; a4; a11; a12; a21; a23; a25; a33; a39; a41; a61; a62; a63 :- a7, a8, a21, a39, not a22, not a26, not a47, not a57.
a3; a7; a14; a31; a32; a33; a34; a61 :- a11, a36, not a7, not a23, not a24, not a28, not a42, not a46, not a50, not a61.
a0; a4; a5; a7; a12; a24; a28; a33; a44; a49; a54; a59 :- a21, a30, a50, not a11, not a18, not a20, not a29, not a31, not a49, not a53, not a59.
a3; a14; a17; a19; a28; a35; a36; a39; a50; a63 :- a19, a24, a36, not a0, not a5, not a11, not a18, not a28, not a33, not a42, not a48, not a57.
a0; a1; a6; a11; a14; a20; a23; a25; a38; a41; a43; a50; a57; a63 :- a29, a57, not a5, not a39.
a0; a3; a22; a35; a43; a49 :- a1, a9, a11, a20, a26, a29, a36, a51, not a17, not a49, not a55, not a61.
a6; a9; a16; a21 :- a14, a48, a50, a58, not a0, not a29, not a62.
a2; a7; a12; a20; a21; a22; a28; a36; a39; a50; a54 :- a27, not a7, not a39, not a55, not a59.
a4; a20; a21; a46; a47; a63 :- a16, a19, a25, a28, a49, not a8, not a23, not a27, not a51.
a2; a10; a15; a26; a43; a49
    :- a1, a9, a11, a20, a26, a29, a36, a51, a52, not a0, not a5, not a15, not a18, not a21, not a24, not a33, not a41, not a53, not a61.
a2; a3; a21; a51; a55 :- a1, a20, a34, a36, not a18, not a21, not a24, not a41, not a53, not a61.
a1; a15; a21; a29; a31; a32; a34; a39; a41; a55; a59 :- a16, a19, a25, a28, a49, not a1, not a6, not a8, not a9, not a20, not a26, not a51, not a56.
a3; a12; a17; a21; a32; a55 :- a20, not a10, not a11, not a39, not a47, not a50.
a8; a14; a16; a21; a23; a25; a32; a36; a63 :- a7, a20, a26, a37, a59, not a22.
a4; a20; a21; a42; a46; a47; a63 :- a25, a45, not a51, not a55.
a3; a12; a17; a21; a32; a55 :- a9, a41, a43, not a10, not a23.
a11; a17; a32; a38; a53; a61; a63 :- a12, a20, a36, not a0, not a15, not a23, not a24, not a41, not a47, not a53, not a61.
a0; a2; a7; a8; a18; a21; a23; a28; a32; a33; a45; a47; a50 :- a25, a56, not a60.
a18; a25; a41; a46; a53; a59 :- a1, a11, a29, a34.
a1; a9; a15; a23; a42; a59; a61 :- a9, a34, not a10, not a50, not a52.
a1; a15; a21; a29; a31; a32; a33; a34; a39; a41; a55; a59 :- a6, a25, not a11, not a45.
a0; a4; a5; a7; a12; a24; a28; a33; a44; a49; a54; a59 :- a35, a37, a51, not a11, not a18, not a20, not a29, not a31, not a49, not a53, not a59.
a7; a31; a42; a52; a53; a59; a61 :- a37, not a3, not a4, not a15, not a17, not a24, not a28, not a39, not a41, not a47, not a50, not a63.
a0; a2; a7; a23; a28; a32; a39; a45; a47; a53; a55 :- a11, a34, not a3, not a7, not a24, not a49.
a56 :- a25, not a7, not a24, not a43, not a53, not a54, not a59.
a0; a2; a7; a8; a17; a18; a21; a23; a28; a32; a33; a45; a47; a50 :- a25, a56, not a23, not a35, not a55.
a0; a15; a19; a50; a55 :- a12, a45, a52, not a7, not a18, not a23, not a24, not a28, not a32, not a39, not a43, not a47.
#show a0/0.
#show a1/0.
#show a2/0.
#show a3/0.
#show a4/0.
#show a5/0.
#show a6/0.
#show a7/0.
#show a8/0.
#show a9/0.
#show a10/0.
#show a11/0.
#show a12/0.
#show a13/0.
#show a14/0.
#show a15/0.
#show a16/0.
#show a17/0.
#show a18/0.
#show a19/0.
#show a20/0.
#show a21/0.
#show a22/0.
#show a23/0.
#show a24/0.
#show a25/0.
#show a26/0.
#show a27/0.
#show a28/0.
#show a29/0.
#show a30/0.
#show a31/0.
#show a32/0.
#show a33/0.
#show a34/0.
#show a35/0.
#show a36/0.
#show a37/0.
#show a38/0.
#show a39/0.
#show a40/0.
#show a41/0.
#show a42/0.
#show a43/0.
#show a44/0.
#show a45/0.
#show a46/0.
#show a47/0.
#show a48/0.
#show a49/0.
#show a50/0.
#show a51/0.
#show a52/0.
#show a53/0.
#show a54/0.
#show a55/0.
#show a56/0.
#show a57/0.
#show a58/0.
#show a59/0.
#show a60/0.
#show a61/0.
#show a62/0.
#show a63/0.
