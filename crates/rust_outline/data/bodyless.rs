struct S
fn f() {}
