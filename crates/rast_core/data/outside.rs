// A trait alias, and a float behind a dot: both are parsed, and the core grammar has neither.
trait Reading = Clone;

fn inner(pair: &((u8, u8), u8)) -> u8 {
    pair.0.1
}
