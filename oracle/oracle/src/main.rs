//! The desk program's requests from standard input or the arguments, answered by the Rust.

use std::ffi::OsString;
use std::io::{self, BufRead, BufWriter, Write};
use std::os::unix::ffi::OsStringExt;

use oracle::desk::answer;

fn main() -> io::Result<()> {
    let mut output = BufWriter::with_capacity(1 << 16, io::stdout().lock());
    let arguments: Vec<OsString> = std::env::args_os().skip(1).collect();
    if arguments.is_empty() {
        answer_lines(&mut io::stdin().lock(), &mut output)?;
    } else {
        let request = arguments.join(" ".as_ref()).into_vec();
        let mut line = String::new();
        answer(&request, &mut line);
        writeln!(output, "{line}")?;
    }
    output.flush()
}

/// Answers each line, which ends in a line feed or with the input.
fn answer_lines(input: &mut impl BufRead, output: &mut impl Write) -> io::Result<()> {
    let (mut request, mut line) = (Vec::new(), String::new());
    while input.read_until(b'\n', &mut request)? > 0 {
        if request.last() == Some(&b'\n') {
            request.pop();
        }
        answer(&request, &mut line);
        line.push('\n');
        output.write_all(line.as_bytes())?;
        request.clear();
        line.clear();
    }
    Ok(())
}
