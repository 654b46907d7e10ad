//! The archive against the model: one call each, best of several. Then how writing a trace grows, and the stack that
//! each call uses.

mod inputs;
mod stack;
mod timing;

use std::array;
use std::hint::black_box;

use host::case::{JudgeCase, RunCase};
use host::cases::scripting;
use host::parts::Parts;
use host::written::{whole, LENGTH_LIMIT, SCRIPT_ROOM};
use host::{archive, model};
use inputs::BOUNDS;
use stack::stack_bytes;
use timing::{time, Best};

fn main() {
    runs();
    judgings();
    traces();
    slices();
    scripts();
    growths();
    stack();
}

fn runs() {
    for bound in BOUNDS {
        run(&format!("the small rule, K={bound}"), inputs::small_rule(bound));
    }
    run("1,024 Asserts", inputs::thousand_asserts(0));
    run("deep expressions in a loop", inputs::deep_loop());
    run("refused in the last record", inputs::refused_table());
}

fn judgings() {
    for bound in BOUNDS {
        judge(&format!("the small rule, K={bound}"), inputs::unwound(inputs::small_rule(bound)));
    }
    judge("1,024 Asserts, K=1", inputs::unwound(inputs::thousand_asserts(1)));
    judge("deep expressions", inputs::idle_statements());
    judge("refused in the last record", inputs::refused_trace());
}

fn traces() {
    for bound in BOUNDS {
        trace(&format!("the small rule, K={bound}"), inputs::small_rule(bound));
    }
    trace("1,024 Asserts, K=1", inputs::thousand_asserts(1));
    trace("deep expressions, K=0", inputs::deep_rule());
    trace("refused in the last record", inputs::refused_table());
}

fn slices() {
    for bound in BOUNDS {
        slice(&format!("the small rule, K={bound}"), inputs::unwound(inputs::small_rule(bound)));
    }
    slice("1,024 Asserts, K=1", inputs::unwound(inputs::thousand_asserts(1)));
    slice("deep expressions, all kept", inputs::deep_statements());
    slice("deep expressions, one kept", inputs::idle_statements());
    slice("refused in the last record", inputs::refused_trace());
}

fn scripts() {
    for bound in [0, 255] {
        script(&format!("the small rule, K={bound}"), &inputs::unwound(inputs::small_rule(bound)).trace);
    }
    script("1,024 Asserts, K=1", &inputs::unwound(inputs::thousand_asserts(1)).trace);
    script("deep expressions", &inputs::deep_statements().trace);
    script("the longest", &scripting::longest());
}

fn growths() {
    for n in [0, 1, 4, 16, 64, 256, 1024] {
        growth(n, 0);
    }
    for bound in [1, 3, 15, 63, 255] {
        growth(4, bound);
    }
}

fn run(name: &str, RunCase { table, bound, valuation }: RunCase) {
    let best = time(
        || archive::run_verdict(black_box(&table), bound, black_box(&valuation)),
        || model::run(black_box(&table), bound, black_box(&valuation)),
    );
    println!("{}", ratio(&format!("run, {name}"), &best));
}

fn judge(name: &str, JudgeCase { trace, valuation }: JudgeCase) {
    let best = time(
        || archive::judge_verdict(black_box(&trace), black_box(&valuation)),
        || model::judge(black_box(&trace), black_box(&valuation)),
    );
    let nanoseconds = 1000.0 * best.archive / tokens(&trace) as f64;
    println!("{}  archive {nanoseconds:4.1} ns a token", ratio(&format!("judge, {name}"), &best));
}

fn trace(name: &str, RunCase { table, bound, .. }: RunCase) {
    println!("{}", ratio(&format!("trace, {name}"), &time_trace(&table, bound)));
}

fn time_trace(table: &[u8], bound: u64) -> Best {
    let [mut a, mut b] = [(); 2].map(|_| vec![0; LENGTH_LIMIT]);
    time(
        || archive::trace_length(black_box(table), bound, black_box(&mut a)),
        || model::trace(black_box(table), bound, black_box(&mut b)),
    )
}

fn slice(name: &str, JudgeCase { trace, .. }: JudgeCase) {
    let [mut a, mut b] = [(); 2].map(|_| vec![0; LENGTH_LIMIT]);
    let best = time(
        || archive::slice_length(black_box(&trace), black_box(&mut a)),
        || model::slice(black_box(&trace), black_box(&mut b)),
    );
    println!("{}", ratio(&format!("slice, {name}"), &best));
}

fn script(name: &str, trace: &[u8]) {
    let [mut a, mut b] = [(); 2].map(|_| vec![0; SCRIPT_ROOM]);
    let best = time(
        || archive::script_length(black_box(trace), black_box(&mut a)),
        || model::script(black_box(trace), black_box(&mut b)),
    );
    let letters = model::script(trace, &mut b).length;
    let millions = f64::from(letters) / best.archive;
    let name = format!("script, {name}");
    println!("{}  {letters:7} letters, archive {millions:4.0} million a second", ratio(&name, &best));
}

/// The time of writing a trace for each of its statements, n of them in a copy beside its exit.
fn growth(n: usize, bound: u64) {
    let table = inputs::alternating_table(n);
    let trace = whole(|out| model::trace(&table, bound, out).length);
    let statements = f64::from(u16::from_be_bytes([trace[4], trace[5]]));
    let Best { archive, model } = time_trace(&table, bound);
    let [archive, model] = [archive, model].map(|microseconds| 1000.0 * microseconds / statements);
    let name = format!("trace, n={n}, K={bound}, {statements} statements");
    println!("{name:<38} archive {archive:7.1} ns  model {model:7.1} ns  for each statement");
}

/// The most that each call uses on several files.
fn stack() {
    let cases = [
        inputs::small_rule(255),
        inputs::thousand_asserts(1),
        inputs::deep_rule(),
        inputs::deep_loop(),
        inputs::refused_table(),
    ];
    let mut most = [0; 5];
    let mut out = vec![0; SCRIPT_ROOM];
    for case in cases {
        let RunCase { table, bound, valuation } = &case;
        let trace = inputs::unwound(case.clone()).trace;
        let uses = [
            stack_bytes(|| archive::run_verdict(table, *bound, valuation)),
            stack_bytes(|| archive::judge_verdict(&trace, valuation)),
            stack_bytes(|| archive::trace_length(table, *bound, &mut out)),
            stack_bytes(|| archive::slice_length(&trace, &mut out)),
            stack_bytes(|| archive::script_length(&trace, &mut out)),
        ];
        most = array::from_fn(|i| most[i].max(uses[i]));
    }
    for (name, bytes) in ["run", "judge", "trace", "slice", "script"].into_iter().zip(most) {
        println!("stack, {name:<31} archive {bytes:9} bytes");
    }
}

fn ratio(name: &str, Best { archive, model }: &Best) -> String {
    format!("{name:<38} archive {archive:9.2} us  model {model:9.2} us  ratio {:5.2}", archive / model)
}

/// How many tokens the expressions of an accepted trace have; those of a refused one until it is refused.
fn tokens(trace: &[u8]) -> usize {
    let records = Parts::of(trace).expect("a whole header").records;
    records.iter().map(|record| expression_tokens(&record[if record[0] == 1 { 5 } else { 3 }..])).sum()
}

fn expression_tokens(mut expression: &[u8]) -> usize {
    let mut count = 0;
    while let [token, ..] = expression {
        let width = match token {
            0x01 => 5,
            0x03 => 3,
            _ => 1,
        };
        expression = &expression[width..];
        count += 1;
    }
    count
}
