mod a {
    fn b(] {}
}
