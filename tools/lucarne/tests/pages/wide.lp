% As many positions as a list takes, 256, by 56 relays.
a1 ; b1.  a2 ; b2.  a3 ; b3.  a4 ; b4.
a5 ; b5.  a6 ; b6.  a7 ; b7.  a8 ; b8.
ra1 :- a1. rb1 :- b1. ra2 :- a2. rb2 :- b2.
ra3 :- a3. rb3 :- b3. ra4 :- a4. rb4 :- b4.
ra5 :- a5. rb5 :- b5. ra6 :- a6. rb6 :- b6.
ra7 :- a7. rb7 :- b7. ra8 :- a8. rb8 :- b8.
g1 :- a1, b2. h1 :- a1, a2. k1 :- b1, not g2. g2 :- a2, b3.
h2 :- a2, a3. k2 :- b2, not g3. g3 :- a3, b4. h3 :- a3, a4.
k3 :- b3, not g4. g4 :- a4, b5. h4 :- a4, a5. k4 :- b4, not g5.
g5 :- a5, b6. h5 :- a5, a6. k5 :- b5, not g6. g6 :- a6, b7.
h6 :- a6, a7. k6 :- b6, not g7. g7 :- a7, b8. h7 :- a7, a8.
k7 :- b7, not g8. g8 :- a8, b1. h8 :- a8, a1. k8 :- b8, not g1.
