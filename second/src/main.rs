//! The replay script on standard input, results on standard output.

use std::io::{self, BufReader, BufWriter};

fn main() -> io::Result<()> {
    let mut input = BufReader::new(io::stdin().lock());
    let mut output = BufWriter::new(io::stdout().lock());
    second::script::run(&mut input, &mut output)
}
