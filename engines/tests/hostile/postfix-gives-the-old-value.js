var x = 0.1, o = { y: 0.7 }, s = "0.3", u; print(x++, x, o.y--, o.y, s++, s, u++, u); var big = 9007199254740992; print(big++, big--);
