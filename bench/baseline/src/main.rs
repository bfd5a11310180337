use std::io::{self, Read, Write};
use std::process::ExitCode;

fn main() -> ExitCode {
    // One byte past the limit is enough to know that the input is too long.
    let most = baseline::INPUT_LIMIT + 1;
    let mut input = Vec::with_capacity(most);
    if io::stdin()
        .lock()
        .take(most as u64)
        .read_to_end(&mut input)
        .is_err()
    {
        return ExitCode::FAILURE;
    }
    match io::stdout().lock().write_all(&baseline::run(&input)) {
        Ok(()) => ExitCode::SUCCESS,
        Err(_) => ExitCode::FAILURE,
    }
}
