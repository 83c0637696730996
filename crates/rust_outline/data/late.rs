fn a() {}
/// é
fn b() {}

/*! inner of nothing */