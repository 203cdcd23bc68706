% As many positions as a list takes: 256.
a1 ; b1.  a2 ; b2.  a3 ; b3.  a4 ; b4.
a5 ; b5.  a6 ; b6.  a7 ; b7.  a8 ; b8.
