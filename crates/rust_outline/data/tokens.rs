fn literals() {
    ('a', '\'', '\u{1F600}', b'\\', b'\x7f', 'é', "\"//", r#"" "#, br##"#""##, c"a", cr"\");
    (1.max(2), 1.0.max(2.), 0..9, 0xE+1, 1e-9_f32, 0b1_u8, x.0.1, 1_000_usize);
    /* a /* nested */ comment, /**/ and { */
    'label: loop { break 'label; }
    'r#fn: loop {}
    r#struct; été; é(); _a1
}
