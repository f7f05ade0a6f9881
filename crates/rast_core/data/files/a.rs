// In the core grammar.
fn f(pair: &(u8, u8)) -> u8 {
    pair.0
}
