use a::{b c};
