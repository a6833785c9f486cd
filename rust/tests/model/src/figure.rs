//! The printed microprogram, Figure 5.10, as the course text has it.

/// Lines 0 to 54, with line 19's full stop a semicolon and line 52's target 54, as document 01 decides.
pub const FIGURE_5_10: &str = "\
0: rem:=cp; rd;
1: cp:=cp+1; rd;
2: ri:=rdm; if n then goto 28;
3: rt:=(<<ri); if n then goto 17;
4: rt:=(<<rt); if n then goto 12;
5: rt:=(<<rt); if n then goto 9;
6: rem:=(ri^masc); rd;
7: rd;
8: ac:=rdm; goto 0;
9: rem:=(ri^masc);
10: rdm:=ac; wr;
11: wr; goto 0;
12: rem:=ri;rd;
13: rd;
14: rt:=(<<rt); if n then goto 16;
15: ac:=ac+rdm; goto 0;
16: ac:=ac-rdm; goto 0;
17: rt:=(<<rt); if n then goto 22;
18: rem:=(ri^masc);
19: rem:=rem+pp; rd;
20: rt:=(<<rt); if n then goto 16; rd;
21: goto 15;
22: rt:=(<<rt); if n then goto 26;
23: ac:=ac; if z then goto 25;
24: goto 0;
25: cp:=(ri^masc); goto 0;
26: ac:=ac; if n then goto 25;
27: goto 0;
28: rt:=(<<ri); if n then goto 41;
29: rt:=(<<rt); if n then goto 33;
30: rt:=(<<rt); if n then goto 32;
31: cp:=(ri^masc); goto 0;
32: ac:=(ri^masc); goto 0;
33: rt:=(<<rt); if n then goto 38;
34: pp:=pp-1;
35: rem:=pp;
36: rdm:=cp;wr;
37: cp:=(ri^masc); wr; goto 0;
38: rem:=pp; rd;
39: pp:=pp+1; rd;
40: cp:=rdm; goto 0
41: rt:=(<<rt); if n then goto 49;
42: pp:=pp-1;
43: rt:=(<<rt); if n then goto 47;
44: rdm:=ac;
45: rem:=pp; wr;
46: wr; goto 0;
47: rem:=(ac^masc); rd;
48: rd; goto 45
49: rem:=pp;
50: pp:=pp+1; rd;
51: rd;
52: rt:=(<<rt); if n then goto 54;
53: ac:=rdm; goto 0;
54: rem:=(ac^masc); wr; goto 11
";
