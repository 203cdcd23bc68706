%unit u1
a1 :- not b.
%unit u2
a2 :- not b.
%unit u3
a3 :- not b.
%unit u4
a4 :- not b.
%unit u5
a5 :- not b.
%unit u6
a6 :- not b.
%unit u7
a7 :- not b.
%unit u8
a8 :- not b.
%unit u9
a9 :- not b.
%unit u10
a10 :- not b.
%unit u11
a11 :- not b.
%unit u12
a12 :- not b.
%unit u13
a13 :- not b.
%unit u14
a14 :- not b.
%unit u15
a15 :- not b.
%unit u16
a16 :- not b.
%unit u17
a17 :- not b.
