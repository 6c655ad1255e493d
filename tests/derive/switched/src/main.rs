//! Evaluates each argument.

fn main() {
    for text in ["1 + 2 * (3 - 0x10) // rest", "abc*2", "1 + é", "99999999999999999999", "(1"] {
        println!("{:?}", calculator::evaluate(text));
    }
}
