% also --no-gamma
t0 :- a21, not a27, not a29, not a38, not a55, not a56.
t0 :- not a21, a27, not a29, not a38, not a55, not a56.
t0 :- not a21, not a27, a29, not a38, not a55, not a56.
t0 :- a21, a27, a29, not a38, not a55, not a56.
t0 :- not a21, not a27, not a29, a38, not a55, not a56.
t0 :- a21, a27, not a29, a38, not a55, not a56.
t0 :- a21, not a27, a29, a38, not a55, not a56.
t0 :- not a21, a27, a29, a38, not a55, not a56.
t0 :- not a21, not a27, not a29, not a38, a55, not a56.
t0 :- a21, a27, not a29, not a38, a55, not a56.
t0 :- a21, not a27, a29, not a38, a55, not a56.
t0 :- not a21, a27, a29, not a38, a55, not a56.
t0 :- a21, not a27, not a29, a38, a55, not a56.
t0 :- not a21, a27, not a29, a38, a55, not a56.
t0 :- not a21, not a27, a29, a38, a55, not a56.
t0 :- a21, a27, a29, a38, a55, not a56.
t0 :- not a21, not a27, not a29, not a38, not a55, a56.
t0 :- a21, a27, not a29, not a38, not a55, a56.
t0 :- a21, not a27, a29, not a38, not a55, a56.
t0 :- not a21, a27, a29, not a38, not a55, a56.
t0 :- a21, not a27, not a29, a38, not a55, a56.
t0 :- not a21, a27, not a29, a38, not a55, a56.
t0 :- not a21, not a27, a29, a38, not a55, a56.
t0 :- a21, a27, a29, a38, not a55, a56.
t0 :- a21, not a27, not a29, not a38, a55, a56.
t0 :- not a21, a27, not a29, not a38, a55, a56.
t0 :- not a21, not a27, a29, not a38, a55, a56.
t0 :- a21, a27, a29, not a38, a55, a56.
t0 :- not a21, not a27, not a29, a38, a55, a56.
t0 :- a21, a27, not a29, a38, a55, a56.
t0 :- a21, not a27, a29, a38, a55, a56.
t0 :- not a21, a27, a29, a38, a55, a56.
t1 :- a15, not a32, not a34, not a37, not a49, not a60.
t1 :- not a15, a32, not a34, not a37, not a49, not a60.
t1 :- not a15, not a32, a34, not a37, not a49, not a60.
t1 :- a15, a32, a34, not a37, not a49, not a60.
t1 :- not a15, not a32, not a34, a37, not a49, not a60.
t1 :- a15, a32, not a34, a37, not a49, not a60.
t1 :- a15, not a32, a34, a37, not a49, not a60.
t1 :- not a15, a32, a34, a37, not a49, not a60.
t1 :- not a15, not a32, not a34, not a37, a49, not a60.
t1 :- a15, a32, not a34, not a37, a49, not a60.
t1 :- a15, not a32, a34, not a37, a49, not a60.
t1 :- not a15, a32, a34, not a37, a49, not a60.
t1 :- a15, not a32, not a34, a37, a49, not a60.
t1 :- not a15, a32, not a34, a37, a49, not a60.
t1 :- not a15, not a32, a34, a37, a49, not a60.
t1 :- a15, a32, a34, a37, a49, not a60.
t1 :- not a15, not a32, not a34, not a37, not a49, a60.
t1 :- a15, a32, not a34, not a37, not a49, a60.
t1 :- a15, not a32, a34, not a37, not a49, a60.
t1 :- not a15, a32, a34, not a37, not a49, a60.
t1 :- a15, not a32, not a34, a37, not a49, a60.
t1 :- not a15, a32, not a34, a37, not a49, a60.
t1 :- not a15, not a32, a34, a37, not a49, a60.
t1 :- a15, a32, a34, a37, not a49, a60.
t1 :- a15, not a32, not a34, not a37, a49, a60.
t1 :- not a15, a32, not a34, not a37, a49, a60.
t1 :- not a15, not a32, a34, not a37, a49, a60.
t1 :- a15, a32, a34, not a37, a49, a60.
t1 :- not a15, not a32, not a34, a37, a49, a60.
t1 :- a15, a32, not a34, a37, a49, a60.
t1 :- a15, not a32, a34, a37, a49, a60.
t1 :- not a15, a32, a34, a37, a49, a60.
t2 :- a38, not a39, not a49, not a52, not a53, not a61.
t2 :- not a38, a39, not a49, not a52, not a53, not a61.
t2 :- not a38, not a39, a49, not a52, not a53, not a61.
t2 :- a38, a39, a49, not a52, not a53, not a61.
t2 :- not a38, not a39, not a49, a52, not a53, not a61.
t2 :- a38, a39, not a49, a52, not a53, not a61.
t2 :- a38, not a39, a49, a52, not a53, not a61.
t2 :- not a38, a39, a49, a52, not a53, not a61.
t2 :- not a38, not a39, not a49, not a52, a53, not a61.
t2 :- a38, a39, not a49, not a52, a53, not a61.
t2 :- a38, not a39, a49, not a52, a53, not a61.
t2 :- not a38, a39, a49, not a52, a53, not a61.
t2 :- a38, not a39, not a49, a52, a53, not a61.
t2 :- not a38, a39, not a49, a52, a53, not a61.
t2 :- not a38, not a39, a49, a52, a53, not a61.
t2 :- a38, a39, a49, a52, a53, not a61.
t2 :- not a38, not a39, not a49, not a52, not a53, a61.
t2 :- a38, a39, not a49, not a52, not a53, a61.
t2 :- a38, not a39, a49, not a52, not a53, a61.
t2 :- not a38, a39, a49, not a52, not a53, a61.
t2 :- a38, not a39, not a49, a52, not a53, a61.
t2 :- not a38, a39, not a49, a52, not a53, a61.
t2 :- not a38, not a39, a49, a52, not a53, a61.
t2 :- a38, a39, a49, a52, not a53, a61.
t2 :- a38, not a39, not a49, not a52, a53, a61.
t2 :- not a38, a39, not a49, not a52, a53, a61.
t2 :- not a38, not a39, a49, not a52, a53, a61.
t2 :- a38, a39, a49, not a52, a53, a61.
t2 :- not a38, not a39, not a49, a52, a53, a61.
t2 :- a38, a39, not a49, a52, a53, a61.
t2 :- a38, not a39, a49, a52, a53, a61.
t2 :- not a38, a39, a49, a52, a53, a61.
t3 :- a15, not a27, not a28, not a34, not a39, not a55.
t3 :- not a15, a27, not a28, not a34, not a39, not a55.
t3 :- not a15, not a27, a28, not a34, not a39, not a55.
t3 :- a15, a27, a28, not a34, not a39, not a55.
t3 :- not a15, not a27, not a28, a34, not a39, not a55.
t3 :- a15, a27, not a28, a34, not a39, not a55.
t3 :- a15, not a27, a28, a34, not a39, not a55.
t3 :- not a15, a27, a28, a34, not a39, not a55.
t3 :- not a15, not a27, not a28, not a34, a39, not a55.
t3 :- a15, a27, not a28, not a34, a39, not a55.
t3 :- a15, not a27, a28, not a34, a39, not a55.
t3 :- not a15, a27, a28, not a34, a39, not a55.
t3 :- a15, not a27, not a28, a34, a39, not a55.
t3 :- not a15, a27, not a28, a34, a39, not a55.
t3 :- not a15, not a27, a28, a34, a39, not a55.
t3 :- a15, a27, a28, a34, a39, not a55.
t3 :- not a15, not a27, not a28, not a34, not a39, a55.
t3 :- a15, a27, not a28, not a34, not a39, a55.
t3 :- a15, not a27, a28, not a34, not a39, a55.
t3 :- not a15, a27, a28, not a34, not a39, a55.
t3 :- a15, not a27, not a28, a34, not a39, a55.
t3 :- not a15, a27, not a28, a34, not a39, a55.
t3 :- not a15, not a27, a28, a34, not a39, a55.
t3 :- a15, a27, a28, a34, not a39, a55.
t3 :- a15, not a27, not a28, not a34, a39, a55.
t3 :- not a15, a27, not a28, not a34, a39, a55.
t3 :- not a15, not a27, a28, not a34, a39, a55.
t3 :- a15, a27, a28, not a34, a39, a55.
t3 :- not a15, not a27, not a28, a34, a39, a55.
t3 :- a15, a27, not a28, a34, a39, a55.
t3 :- a15, not a27, a28, a34, a39, a55.
t3 :- not a15, a27, a28, a34, a39, a55.
t4 :- a18, not a19, not a38, not a50, not a53, not a56.
t4 :- not a18, a19, not a38, not a50, not a53, not a56.
t4 :- not a18, not a19, a38, not a50, not a53, not a56.
t4 :- a18, a19, a38, not a50, not a53, not a56.
t4 :- not a18, not a19, not a38, a50, not a53, not a56.
t4 :- a18, a19, not a38, a50, not a53, not a56.
t4 :- a18, not a19, a38, a50, not a53, not a56.
t4 :- not a18, a19, a38, a50, not a53, not a56.
t4 :- not a18, not a19, not a38, not a50, a53, not a56.
t4 :- a18, a19, not a38, not a50, a53, not a56.
t4 :- a18, not a19, a38, not a50, a53, not a56.
t4 :- not a18, a19, a38, not a50, a53, not a56.
t4 :- a18, not a19, not a38, a50, a53, not a56.
t4 :- not a18, a19, not a38, a50, a53, not a56.
t4 :- not a18, not a19, a38, a50, a53, not a56.
t4 :- a18, a19, a38, a50, a53, not a56.
t4 :- not a18, not a19, not a38, not a50, not a53, a56.
t4 :- a18, a19, not a38, not a50, not a53, a56.
t4 :- a18, not a19, a38, not a50, not a53, a56.
t4 :- not a18, a19, a38, not a50, not a53, a56.
t4 :- a18, not a19, not a38, a50, not a53, a56.
t4 :- not a18, a19, not a38, a50, not a53, a56.
t4 :- not a18, not a19, a38, a50, not a53, a56.
t4 :- a18, a19, a38, a50, not a53, a56.
t4 :- a18, not a19, not a38, not a50, a53, a56.
t4 :- not a18, a19, not a38, not a50, a53, a56.
t4 :- not a18, not a19, a38, not a50, a53, a56.
t4 :- a18, a19, a38, not a50, a53, a56.
t4 :- not a18, not a19, not a38, a50, a53, a56.
t4 :- a18, a19, not a38, a50, a53, a56.
t4 :- a18, not a19, a38, a50, a53, a56.
t4 :- not a18, a19, a38, a50, a53, a56.
t5 :- a16, not a27, not a37, not a39, not a53, not a60.
t5 :- not a16, a27, not a37, not a39, not a53, not a60.
t5 :- not a16, not a27, a37, not a39, not a53, not a60.
t5 :- a16, a27, a37, not a39, not a53, not a60.
t5 :- not a16, not a27, not a37, a39, not a53, not a60.
t5 :- a16, a27, not a37, a39, not a53, not a60.
t5 :- a16, not a27, a37, a39, not a53, not a60.
t5 :- not a16, a27, a37, a39, not a53, not a60.
t5 :- not a16, not a27, not a37, not a39, a53, not a60.
t5 :- a16, a27, not a37, not a39, a53, not a60.
t5 :- a16, not a27, a37, not a39, a53, not a60.
t5 :- not a16, a27, a37, not a39, a53, not a60.
t5 :- a16, not a27, not a37, a39, a53, not a60.
t5 :- not a16, a27, not a37, a39, a53, not a60.
t5 :- not a16, not a27, a37, a39, a53, not a60.
t5 :- a16, a27, a37, a39, a53, not a60.
t5 :- not a16, not a27, not a37, not a39, not a53, a60.
t5 :- a16, a27, not a37, not a39, not a53, a60.
t5 :- a16, not a27, a37, not a39, not a53, a60.
t5 :- not a16, a27, a37, not a39, not a53, a60.
t5 :- a16, not a27, not a37, a39, not a53, a60.
t5 :- not a16, a27, not a37, a39, not a53, a60.
t5 :- not a16, not a27, a37, a39, not a53, a60.
t5 :- a16, a27, a37, a39, not a53, a60.
t5 :- a16, not a27, not a37, not a39, a53, a60.
t5 :- not a16, a27, not a37, not a39, a53, a60.
t5 :- not a16, not a27, a37, not a39, a53, a60.
t5 :- a16, a27, a37, not a39, a53, a60.
t5 :- not a16, not a27, not a37, a39, a53, a60.
t5 :- a16, a27, not a37, a39, a53, a60.
t5 :- a16, not a27, a37, a39, a53, a60.
t5 :- not a16, a27, a37, a39, a53, a60.
t6 :- a7, not a34, not a37, not a48, not a56, not a61.
t6 :- not a7, a34, not a37, not a48, not a56, not a61.
t6 :- not a7, not a34, a37, not a48, not a56, not a61.
t6 :- a7, a34, a37, not a48, not a56, not a61.
t6 :- not a7, not a34, not a37, a48, not a56, not a61.
t6 :- a7, a34, not a37, a48, not a56, not a61.
t6 :- a7, not a34, a37, a48, not a56, not a61.
t6 :- not a7, a34, a37, a48, not a56, not a61.
t6 :- not a7, not a34, not a37, not a48, a56, not a61.
t6 :- a7, a34, not a37, not a48, a56, not a61.
t6 :- a7, not a34, a37, not a48, a56, not a61.
t6 :- not a7, a34, a37, not a48, a56, not a61.
t6 :- a7, not a34, not a37, a48, a56, not a61.
t6 :- not a7, a34, not a37, a48, a56, not a61.
t6 :- not a7, not a34, a37, a48, a56, not a61.
t6 :- a7, a34, a37, a48, a56, not a61.
t6 :- not a7, not a34, not a37, not a48, not a56, a61.
t6 :- a7, a34, not a37, not a48, not a56, a61.
t6 :- a7, not a34, a37, not a48, not a56, a61.
t6 :- not a7, a34, a37, not a48, not a56, a61.
t6 :- a7, not a34, not a37, a48, not a56, a61.
t6 :- not a7, a34, not a37, a48, not a56, a61.
t6 :- not a7, not a34, a37, a48, not a56, a61.
t6 :- a7, a34, a37, a48, not a56, a61.
t6 :- a7, not a34, not a37, not a48, a56, a61.
t6 :- not a7, a34, not a37, not a48, a56, a61.
t6 :- not a7, not a34, a37, not a48, a56, a61.
t6 :- a7, a34, a37, not a48, a56, a61.
t6 :- not a7, not a34, not a37, a48, a56, a61.
t6 :- a7, a34, not a37, a48, a56, a61.
t6 :- a7, not a34, a37, a48, a56, a61.
t6 :- not a7, a34, a37, a48, a56, a61.
t7 :- a7, not a23, not a27, not a37, not a61, not a63.
t7 :- not a7, a23, not a27, not a37, not a61, not a63.
t7 :- not a7, not a23, a27, not a37, not a61, not a63.
t7 :- a7, a23, a27, not a37, not a61, not a63.
t7 :- not a7, not a23, not a27, a37, not a61, not a63.
t7 :- a7, a23, not a27, a37, not a61, not a63.
t7 :- a7, not a23, a27, a37, not a61, not a63.
t7 :- not a7, a23, a27, a37, not a61, not a63.
t7 :- not a7, not a23, not a27, not a37, a61, not a63.
t7 :- a7, a23, not a27, not a37, a61, not a63.
t7 :- a7, not a23, a27, not a37, a61, not a63.
t7 :- not a7, a23, a27, not a37, a61, not a63.
t7 :- a7, not a23, not a27, a37, a61, not a63.
t7 :- not a7, a23, not a27, a37, a61, not a63.
t7 :- not a7, not a23, a27, a37, a61, not a63.
t7 :- a7, a23, a27, a37, a61, not a63.
t7 :- not a7, not a23, not a27, not a37, not a61, a63.
t7 :- a7, a23, not a27, not a37, not a61, a63.
t7 :- a7, not a23, a27, not a37, not a61, a63.
t7 :- not a7, a23, a27, not a37, not a61, a63.
t7 :- a7, not a23, not a27, a37, not a61, a63.
t7 :- not a7, a23, not a27, a37, not a61, a63.
t7 :- not a7, not a23, a27, a37, not a61, a63.
t7 :- a7, a23, a27, a37, not a61, a63.
t7 :- a7, not a23, not a27, not a37, a61, a63.
t7 :- not a7, a23, not a27, not a37, a61, a63.
t7 :- not a7, not a23, a27, not a37, a61, a63.
t7 :- a7, a23, a27, not a37, a61, a63.
t7 :- not a7, not a23, not a27, a37, a61, a63.
t7 :- a7, a23, not a27, a37, a61, a63.
t7 :- a7, not a23, a27, a37, a61, a63.
t7 :- not a7, a23, a27, a37, a61, a63.
t8 :- a16, not a27, not a29, not a32, not a39, not a56.
t8 :- not a16, a27, not a29, not a32, not a39, not a56.
t8 :- not a16, not a27, a29, not a32, not a39, not a56.
t8 :- a16, a27, a29, not a32, not a39, not a56.
t8 :- not a16, not a27, not a29, a32, not a39, not a56.
t8 :- a16, a27, not a29, a32, not a39, not a56.
t8 :- a16, not a27, a29, a32, not a39, not a56.
t8 :- not a16, a27, a29, a32, not a39, not a56.
t8 :- not a16, not a27, not a29, not a32, a39, not a56.
t8 :- a16, a27, not a29, not a32, a39, not a56.
t8 :- a16, not a27, a29, not a32, a39, not a56.
t8 :- not a16, a27, a29, not a32, a39, not a56.
t8 :- a16, not a27, not a29, a32, a39, not a56.
t8 :- not a16, a27, not a29, a32, a39, not a56.
t8 :- not a16, not a27, a29, a32, a39, not a56.
t8 :- a16, a27, a29, a32, a39, not a56.
t8 :- not a16, not a27, not a29, not a32, not a39, a56.
t8 :- a16, a27, not a29, not a32, not a39, a56.
t8 :- a16, not a27, a29, not a32, not a39, a56.
t8 :- not a16, a27, a29, not a32, not a39, a56.
t8 :- a16, not a27, not a29, a32, not a39, a56.
t8 :- not a16, a27, not a29, a32, not a39, a56.
t8 :- not a16, not a27, a29, a32, not a39, a56.
t8 :- a16, a27, a29, a32, not a39, a56.
t8 :- a16, not a27, not a29, not a32, a39, a56.
t8 :- not a16, a27, not a29, not a32, a39, a56.
t8 :- not a16, not a27, a29, not a32, a39, a56.
t8 :- a16, a27, a29, not a32, a39, a56.
t8 :- not a16, not a27, not a29, a32, a39, a56.
t8 :- a16, a27, not a29, a32, a39, a56.
t8 :- a16, not a27, a29, a32, a39, a56.
t8 :- not a16, a27, a29, a32, a39, a56.
t9 :- a9, not a16, not a28, not a29, not a32, not a37.
t9 :- not a9, a16, not a28, not a29, not a32, not a37.
t9 :- not a9, not a16, a28, not a29, not a32, not a37.
t9 :- a9, a16, a28, not a29, not a32, not a37.
t9 :- not a9, not a16, not a28, a29, not a32, not a37.
t9 :- a9, a16, not a28, a29, not a32, not a37.
t9 :- a9, not a16, a28, a29, not a32, not a37.
t9 :- not a9, a16, a28, a29, not a32, not a37.
t9 :- not a9, not a16, not a28, not a29, a32, not a37.
t9 :- a9, a16, not a28, not a29, a32, not a37.
t9 :- a9, not a16, a28, not a29, a32, not a37.
t9 :- not a9, a16, a28, not a29, a32, not a37.
t9 :- a9, not a16, not a28, a29, a32, not a37.
t9 :- not a9, a16, not a28, a29, a32, not a37.
t9 :- not a9, not a16, a28, a29, a32, not a37.
t9 :- a9, a16, a28, a29, a32, not a37.
t9 :- not a9, not a16, not a28, not a29, not a32, a37.
t9 :- a9, a16, not a28, not a29, not a32, a37.
t9 :- a9, not a16, a28, not a29, not a32, a37.
t9 :- not a9, a16, a28, not a29, not a32, a37.
t9 :- a9, not a16, not a28, a29, not a32, a37.
t9 :- not a9, a16, not a28, a29, not a32, a37.
t9 :- not a9, not a16, a28, a29, not a32, a37.
t9 :- a9, a16, a28, a29, not a32, a37.
t9 :- a9, not a16, not a28, not a29, a32, a37.
t9 :- not a9, a16, not a28, not a29, a32, a37.
t9 :- not a9, not a16, a28, not a29, a32, a37.
t9 :- a9, a16, a28, not a29, a32, a37.
t9 :- not a9, not a16, not a28, a29, a32, a37.
t9 :- a9, a16, not a28, a29, a32, a37.
t9 :- a9, not a16, a28, a29, a32, a37.
t9 :- not a9, a16, a28, a29, a32, a37.
a3; a27.
a40; a50.
a21; a57.
a7; a41.
a42; a53.
a31; a61.
a9; a46.
 :- not a14, not t0.
a47; a55.
a38; a43.
a8; a26.
a12; a39.
 :- not a14, not t3.
 :- not a14, t5, t6, not t8.
 :- not a14, t1, t2, not t5.
a15; a59.
a60; a62.
a32; a44.
a1; a29.
a18; a58.
 :- not a14, not t1.
a36; a37.
a24; a34.
 :- not a14, not t2.
a23; a45.
 :- not a14, t0, t1, not t4.
 :- not a14, t9.
a35; a54.
a2; a19.
a10; a48.
a0; a56.
 :- not a14, t2, t3, not t6.
a20; a52.
a13; a63.
 :- not a14, t4, t5, not t7.
a16; a25.
a30; a49.
 :- not a14, t7, t8, not t9.
a11; a28.
#show a0/0.
#show a1/0.
#show a2/0.
#show a3/0.
#show a7/0.
#show a8/0.
#show a9/0.
#show a10/0.
#show a11/0.
#show a12/0.
#show a13/0.
#show a15/0.
#show a16/0.
#show a18/0.
#show a19/0.
#show a20/0.
#show a21/0.
#show a23/0.
#show a24/0.
#show a25/0.
#show a26/0.
#show a27/0.
#show a28/0.
#show a29/0.
#show a30/0.
#show a31/0.
#show a32/0.
#show a34/0.
#show a35/0.
#show a36/0.
#show a37/0.
#show a38/0.
#show a39/0.
#show a40/0.
#show a41/0.
#show a42/0.
#show a43/0.
#show a44/0.
#show a45/0.
#show a46/0.
#show a47/0.
#show a48/0.
#show a49/0.
#show a50/0.
#show a52/0.
#show a53/0.
#show a54/0.
#show a55/0.
#show a56/0.
#show a57/0.
#show a58/0.
#show a59/0.
#show a60/0.
#show a61/0.
#show a62/0.
#show a63/0.
