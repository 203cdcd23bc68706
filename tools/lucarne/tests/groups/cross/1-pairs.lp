% Nine pairs: 512 positions on this sheet alone, and four with the constraints of the other.
{ p1; p2; p3; p4; p5; p6; p7; p8; p9 }.
