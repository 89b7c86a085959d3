//! "give the first such reading, comparing inputs from 0 up as plain numbers, or say that there is none. Constant inputs stand
//! in it as 0."

use super::{free, is_the_word, not, numbers, or, put, Asked, Numbers};
use crate::limits::every_kind::{filled, FREE_WORD_TERM, TRUE_TERM};
use crate::limits::GOOD;
use crate::made::{word_input, Made, FALSE, FREE_TRUTH, FREE_WORD, TRUE};
use crate::tally::Tally;
use second::dice::record;
use second::{Goal, Input, ResultOf, Spans, Word};

pub fn all(tally: &mut Tally) {
    two_truths(tally);
    truth_and_word(tally);
    plain_numbers(tally);
    each_word(tally);
    sixteen_truths(tally);
    most_bits(tally);
    constants(tally);
    nothing_free(tally);
    long_tables(tally);
}

/// The readings under which a truth does not hold, as errors of a result that asserts it and as aborts of one that assumes it.
fn where_false(tally: &mut Tally, what: &str, made: &Made, truth: u16, wanted: Option<Numbers>) {
    for (s, t, goal) in [
        (TRUE_TERM, truth, Goal::Errs),
        (truth, TRUE_TERM, Goal::Aborts),
    ] {
        let asked = Asked {
            made,
            result: ResultOf { s, t, ..GOOD },
            goal,
            given: None,
        };
        asked.expect(tally, what, wanted);
    }
}

/// Of two free truths, the one behind goes up first.
fn two_truths(tally: &mut Tally) {
    let (one, other) = (2, 3);
    for i in 0..16 {
        for j in i + 1..16 {
            let opened = Made::open(&free(&[i, j], None), 40);
            let (made, both) = put(opened, record(5, 33, one, other, 0));
            let (made, either) = or(made, one, other);
            let (made, not_both) = not(made, both);
            let (made, neither) = not(made, either);
            let (made, not_one) = not(made, one);
            let (made, not_other) = not(made, other);
            for (truth, wanted) in [
                (one, vec![]),
                (other, vec![]),
                (both, vec![]),
                (either, vec![]),
                (not_both, vec![(i, 1), (j, 1)]),
                (neither, vec![(j, 1)]),
                (not_one, vec![(i, 1)]),
                (not_other, vec![(j, 1)]),
            ] {
                let wanted = Some(numbers(&wanted));
                where_false(tally, "two free truths", &made, truth, wanted);
            }
            where_false(tally, "two free truths", &made, TRUE_TERM, None);
        }
    }
}

/// Where the truth holds or the word is 5: the one that stands behind the other.
fn truth_and_word(tally: &mut Tally) {
    for (truth, word) in [(0, 1), (1, 0), (0, 15), (15, 0), (7, 8), (8, 7)] {
        let (truth_term, word_term) = if truth < word { (2, 3) } else { (3, 2) };
        let opened = Made::open(&free(&[truth], Some(word)), 40);
        let (made, five) = is_the_word(opened, word_term, 5);
        let (made, either) = or(made, truth_term, five);
        let (made, neither) = not(made, either);
        let wanted = if truth < word { (word, 5) } else { (truth, 1) };
        let wanted = Some(numbers(&[wanted]));
        where_false(tally, "a truth and a word", &made, neither, wanted);
    }
}

/// Of two words the lesser: no sign, the high byte first.
fn plain_numbers(tally: &mut Tally) {
    for (x, y) in [
        (0x7fff, 0x8000),
        (0x00ff, 0x0100),
        (0x0001, 0x0100),
        (0x00ff, 0xff00),
        (0x0001, 0xffff),
        (0x0002, 0x0003),
        (0x0001, 0x0002),
        (0x1000, 0x1001),
    ] {
        for (x, y) in [(x, y), (y, x)] {
            let opened = Made::open(&free(&[], Some(3)), 40);
            let (made, is_x) = is_the_word(opened, 2, x);
            let (made, is_y) = is_the_word(made, 2, y);
            let (made, either) = or(made, is_x, is_y);
            let (made, neither) = not(made, either);
            let wanted = Some(numbers(&[(3, x.min(y))]));
            where_false(tally, "two words", &made, neither, wanted);
        }
    }
}

/// The word that is asked for, at each end of the inputs.
fn each_word(tally: &mut Tally) {
    let result = ResultOf { value: 2, ..GOOD };
    for at in [0, 1, 7, 14, 15] {
        let made = Made::open(&free(&[], Some(at)), 34);
        for word in [0, 1, 2, 255, 256, 0x7fff, 0x8000, Word::MAX - 1, Word::MAX] {
            let asked = Asked {
                made: &made,
                result,
                goal: Goal::Gives(word),
                given: None,
            };
            asked.expect(tally, "each word", Some(numbers(&[(at, word)])));
        }
    }
}

/// One of sixteen free truths alone, and all of them: from the second reading to the last.
fn sixteen_truths(tally: &mut Tally) {
    let opened = Made::open(&[FREE_TRUTH; 16], 70);
    for at in (0..16).rev() {
        let (made, truth) = not(opened.clone(), 2 + at as u16);
        let wanted = Some(numbers(&[(at, 1)]));
        where_false(tally, "one of sixteen truths", &made, truth, wanted);
    }
    let (mut made, mut all) = (opened, 2);
    for term in 3..18 {
        (made, all) = put(made, record(5, 33, all, term, 0));
    }
    let (made, not_all) = not(made, all);
    let wanted = Some([1; 16]);
    where_false(tally, "sixteen truths", &made, not_all, wanted);
}

/// 24 free bits: readings past the first 65,536, of the word before the truths and behind them.
fn most_bits(tally: &mut Tally) {
    let truths: Vec<usize> = (4..12).collect();
    let before = Made::open(&free(&truths, Some(2)), 40);
    let (made, is_it) = is_the_word(before, 2, 300);
    let (made, is_not) = not(made, is_it);
    let wanted = Some(numbers(&[(2, 300)]));
    where_false(tally, "a word before truths", &made, is_not, wanted);
    let behind = Made::open(&free(&truths, Some(15)), 40);
    // the last of the truths has term 9, the word term 10
    let (made, last) = not(behind, 9);
    let wanted = Some(numbers(&[(11, 1)]));
    where_false(tally, "a word behind truths", &made, last, wanted);
}

/// Constants of every kind between a free truth and a free word, and as the value: the numbers are 0 there, whatever they are.
fn constants(tally: &mut Tally) {
    let mut inputs: [Input; 16] = std::array::from_fn(|at| match at % 3 {
        0 => TRUE,
        1 => word_input(9),
        _ => FALSE,
    });
    (inputs[5], inputs[6]) = (FREE_TRUTH, FREE_WORD);
    let made = Made::open(&inputs, 40);
    // input 1 is the word 9, whose term is made first
    let [nine, truth, word] = [2, 3, 4];
    for (t, value, goal, wanted) in [
        (TRUE_TERM, nine, Goal::Gives(9), vec![]),
        (TRUE_TERM, word, Goal::Gives(9), vec![(6, 9)]),
        (TRUE_TERM, word, Goal::Gives(0), vec![]),
        (truth, word, Goal::Errs, vec![]),
        (truth, word, Goal::Gives(2), vec![(5, 1), (6, 2)]),
    ] {
        let asked = Asked {
            made: &made,
            result: ResultOf { t, value, ..GOOD },
            goal,
            given: None,
        };
        asked.expect(tally, "constants", Some(numbers(&wanted)));
    }
}

/// No free input: there is one reading, which is the first or none.
fn nothing_free(tally: &mut Tally) {
    for input in [FALSE, TRUE, word_input(9)] {
        let made = Made::open(&[input; 16], 34);
        where_false(tally, "nothing free", &made, 0, Some([0; 16]));
        where_false(tally, "nothing free", &made, TRUE_TERM, None);
    }
    let made = Made::open(&[word_input(9); 16], 34);
    for (word, wanted) in [(9, Some([0; 16])), (0, None), (8, None)] {
        let asked = Asked {
            made: &made,
            result: ResultOf { value: 2, ..GOOD },
            goal: Goal::Gives(word),
            given: None,
        };
        asked.expect(tally, "a constant", wanted);
    }
}

/// Tables of many terms and of the most that there can be, whose last term is asked about: it holds where the word is below 40.
fn long_tables(tally: &mut Tally) {
    for terms in [511, 512, 513, 8_192] {
        let (constant, last) = (terms - 2, terms - 1);
        let made = filled(terms)
            .put(constant, record(2, 0, 40, 0, 0))
            .put(last, record(5, 11, FREE_WORD_TERM, constant, 0));
        where_false(
            tally,
            "a long table",
            &made,
            last,
            Some(numbers(&[(1, 40)])),
        );
        for (high, wanted) in [(39, None), (40, Some(numbers(&[(1, 40)])))] {
            let given = Spans {
                lows: [0; 16],
                highs: [high; 16],
            };
            let asked = Asked {
                made: &made,
                result: ResultOf { t: last, ..GOOD },
                goal: Goal::Errs,
                given: Some(&given),
            };
            asked.expect(tally, "a long table's spans", wanted);
        }
    }
}
