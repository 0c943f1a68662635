
    if (1) { function t(a) { return a / 0 - a / 0; } function u() { return t(0.5); } print(t(0), u(), t.name, typeof u); t = 3; print(t); }
