fn a() {}

const B: u8 = 1;

impl C {
    pub fn d(&self) {
        fn e() {}
    }
}
