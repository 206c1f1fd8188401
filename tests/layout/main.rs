//! Prints the layout of every struct of tests/proved as the Rust compiler lays
//! it out, in the form of layout.c.

fn main() {
    print!("{}", mop_proved::layout());
}
