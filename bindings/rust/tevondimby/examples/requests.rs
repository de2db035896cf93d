//! Answers the requests of standard input, in the form of `bindings/c/tests/requests.c`, and compares the answers in eight threads.
use std::io::Read;
use std::process::ExitCode;

/// A request, its output and its status.
struct Case {
    request: Vec<u8>,
    output: Vec<u8>,
    status: u8,
}

/// Returns the first `size` bytes, and removes them.
fn take(bytes: &mut &[u8], size: usize) -> Vec<u8> {
    let (first, rest) = bytes.split_at(size);
    *bytes = rest;
    first.to_vec()
}

/// Returns a size, and removes its bytes.
fn take_size(bytes: &mut &[u8]) -> usize {
    take(bytes, 4).iter().rev().fold(0, |size, byte| size << 8 | usize::from(*byte))
}

/// Returns the cases of an input.
fn cases(mut bytes: &[u8]) -> Vec<Case> {
    let mut cases = Vec::new();
    while !bytes.is_empty() {
        let (size, wanted) = (take_size(&mut bytes), take_size(&mut bytes));
        let status = take(&mut bytes, 1)[0];
        let request = take(&mut bytes, size);
        cases.push(Case { request, output: take(&mut bytes, wanted), status });
    }
    cases
}

/// Returns the number of cases with another answer.
fn wrong(cases: &[Case]) -> usize {
    let is_right = |case: &&Case| tevondimby::run(&case.request).is_ok_and(|it| it.output == case.output && it.status == case.status);
    cases.len() - cases.iter().filter(is_right).count()
}

fn main() -> ExitCode {
    let mut input = Vec::new();
    if std::io::stdin().read_to_end(&mut input).is_err() {
        return ExitCode::FAILURE;
    }
    let all = cases(&input);
    let sum: usize = std::thread::scope(|scope| {
        let threads: Vec<_> = (0..8).map(|_| scope.spawn(|| wrong(&all))).collect();
        threads.into_iter().map(|it| it.join().unwrap_or(1)).sum()
    });
    println!("{} requests in each of 8 threads, {sum} answers differ", all.len());
    ExitCode::from(u8::from(sum > 0))
}
