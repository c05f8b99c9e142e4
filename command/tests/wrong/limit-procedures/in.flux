from () to ()
procedure p0() from () to () = skip
procedure p1() from () to () = skip
procedure p2() from () to () = skip
procedure p3() from () to () = skip
procedure p4() from () to () = skip
procedure p5() from () to () = skip
procedure p6() from () to () = skip
procedure p7() from () to () = skip
procedure p8() from () to () = skip
procedure p9() from () to () = skip
procedure p10() from () to () = skip
procedure p11() from () to () = skip
procedure p12() from () to () = skip
procedure p13() from () to () = skip
procedure p14() from () to () = skip
procedure p15() from () to () = skip
procedure p16() from () to () = skip
script skip
