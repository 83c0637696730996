fn a() {}
  fn () {}
