//! Scripts written as fields with spaces, one line each in the real ones.

/// Turns spaces into line feeds.
pub fn lines(fields: &[&str]) -> String {
    fields
        .iter()
        .flat_map(|part| part.split_whitespace())
        .map(|field| format!("{field}\n"))
        .collect()
}

/// A job of one task, as a submission.
pub fn one(job: u64, deadline: u64, dispatch: u64, run: [u64; 4]) -> String {
    let [a, b, c, d] = run;
    format!(
        "act=submit job={job} sched=0 tasks=1 deadline={deadline} dispatch={dispatch} \
         run={a} run={b} run={c} run={d} messages=0 "
    )
}

/// Runs a script and checks all of its output.
pub fn check(script: &[&str], output: &[&str]) {
    let printed = String::from_utf8(baseline::run(lines(script).as_bytes())).unwrap();
    assert_eq!(printed, lines(output));
}

/// Runs a script and answers only what was printed before the listing, with
/// spaces in place of line feeds.
#[allow(dead_code)]
pub fn answers(script: &[&str]) -> String {
    let printed = String::from_utf8(baseline::run(lines(script).as_bytes())).unwrap();
    let (answers, _) = printed.split_once("clock=").unwrap();
    answers.trim_end().replace('\n', " ")
}
