fn a() { \ }
