//! Compares the desk's exports and the printing program with the second evaluator, byte for byte, and the lines of the
//! library's examples with those wanted. `faults` tries whether faults in the second evaluator are noticed by the trials at
//! the limits; `limits` with the name of a group makes those of the group alone, and with `first` too ends at the first
//! difference. `figures` takes times, counts terms and tries an evaluation in 1 MiB of stack; `bench`, `scopes`, `small`,
//! `speed`, `terms`, `spans`, `samples`, `clauses`, `witness` and `stack` with a number of KiB are its parts.

mod any_table;
mod bench;
mod choices;
mod clause_speed;
mod clause_trials;
mod compare;
mod desk;
mod evaluations;
mod examples;
mod faults;
mod form_trials;
mod grown;
mod kept;
mod laid;
mod limits;
mod long_rules;
mod made;
mod needs;
mod prints;
mod rule_trials;
mod rules;
mod run_trials;
mod sample_speed;
mod sample_trials;
mod scope_speed;
mod session_trials;
mod shapes;
mod small;
mod solver_texts;
mod span_speed;
mod span_trials;
mod speed;
mod stack;
mod stood_on;
mod tally;
mod tree;
mod trials;
mod vectors;
mod witness_boxes;
mod witness_cases;
mod witness_speed;
mod witness_trials;

use tally::Tally;

fn main() {
    let words: Vec<String> = std::env::args().skip(1).collect();
    match words.iter().map(String::as_str).collect::<Vec<_>>()[..] {
        ["figures"] => {
            bench::run();
            scope_speed::run();
            small::run();
            speed::run();
            speed::terms();
            span_speed::run();
            sample_speed::run();
            clause_speed::run();
            witness_speed::run();
            return stack::run(1_024);
        }
        ["bench"] => return bench::run(),
        ["scopes"] => return scope_speed::run(),
        ["small"] => return small::run(),
        ["speed"] => return speed::run(),
        ["terms"] => return speed::terms(),
        ["spans"] => return span_speed::run(),
        ["samples"] => return sample_speed::run(),
        ["clauses"] => return clause_speed::run(),
        ["witness"] => return witness_speed::run(),
        ["stack", kibibytes] => return stack::run(kibibytes.parse().expect("a number")),
        ["faults"] => return faults::run(),
        ["limits", group] => return limits::group(group, Tally::default()),
        ["limits", group, "first"] => return limits::group(group, Tally::ending_at_first()),
        _ => {}
    }
    let mut tally = trials::all();
    examples::all(&mut tally);
    prints::all(&mut tally);
    tally.tell();
}
