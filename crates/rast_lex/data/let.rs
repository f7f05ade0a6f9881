// Places are counted in bytes.
let r#in = b"\xff"; // é
