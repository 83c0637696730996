fn a() { "é
