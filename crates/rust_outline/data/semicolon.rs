const A: u8 = 1
use b;
