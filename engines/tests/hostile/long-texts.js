var s = "ab"; while (s.length < 2000000) { s += s; } print(s.length, s == s, (s + undefined).length);
