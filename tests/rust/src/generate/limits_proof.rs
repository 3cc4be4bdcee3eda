//! Cases close to a limit of proofs and procaps.

use super::clock::Span;
use super::formula::Formula;
use super::limits::{all_of, always, case, granting, near, pairs_of, some_request};
use super::limits_either::in_one_case;
use super::office::Certificate;
use super::step::Step;
use super::tags;
use super::valid::may;
use super::word::Word;
use super::Random;
use crate::data::{Case, Request, Time, LATEST};

/// The formula at all times.
pub fn at_all_times(formula: Formula) -> Formula {
    Formula::at(
        Word::when(Time::MinusInfinity),
        Word::when(Time::PlusInfinity),
        formula,
    )
}

/// A step with a plain assumption more, from the certificate of a number.
fn assuming(certificate: usize, step: Step) -> Step {
    Step::over(tags::AT_OUT, vec![Step::certificate(certificate), step])
}

/// The same in one byte more, from a conjunction.
fn assuming_first(certificate: usize, step: Step) -> Step {
    let first = Step::over(tags::FIRST, vec![Step::certificate(certificate)]);
    Step::over(tags::AT_OUT, vec![first, step])
}

/// An implication of a certificate applied at the press.
pub fn apply_at_press(certificate: usize, shown: Step) -> Step {
    Step::apply(
        Step::certificate(certificate),
        shown,
        Time::Ctime,
        Time::Ctime,
    )
}

/// A proof of 4,095 to 4,097 bytes: many shown tops, each under assumptions that are not used.
pub fn proof_bytes(random: &mut Random) -> Case {
    let request = some_request(random);
    let leaves = 72;
    let asked = all_of(&vec![Formula::top(); leaves]);
    let always_top = at_all_times(Formula::top());
    let policy = [
        always(Formula::implies(asked, may(request))),
        always(always_top.clone()),
        always(Formula::both(always_top, Formula::top())),
    ];
    let mut tops = vec![Step::leaf(tags::TRIVIAL); leaves];
    let bare = apply_at_press(0, pairs_of(&tops)).bytes().len() + 1;
    let mut rest = near(random, 4096) - bare;
    let mut place = 0;
    while rest > 0 {
        let top = tops[place].clone();
        let longer = rest == 8 || rest == 7 || rest == 4;
        tops[place] = if longer {
            assuming_first(2, top)
        } else {
            assuming(1, top)
        };
        rest -= if longer { 4 } else { 3 };
        place = (place + 1) % leaves;
    }
    case(request, &policy, apply_at_press(0, pairs_of(&tops)))
}

/// A proof of 31 to 33 levels: assumptions around the granting step.
pub fn proof_levels(random: &mut Random) -> Case {
    let request = some_request(random);
    let around = near(random, 32) - 2;
    let policy = [
        granting(request),
        always(at_all_times(may(request))),
        always(Formula::says(Word::name(1), may(request))),
        always(Formula::either(may(request), may(request))),
    ];
    let mut step = if random.one_in(3) {
        Step::certificate(0)
    } else {
        Step::named(tags::LOCAL, random.below(around as u64) as usize)
    };
    for _ in 0..around {
        step = match random.below(3) {
            0 => assuming(1, step),
            1 => Step::over(tags::SAYS_OUT, vec![Step::certificate(2), step]),
            _ => in_one_case(random, 3, step),
        };
    }
    case(request, &policy, step)
}

/// A proof of 31 to 33 levels: implications within implications, of what is granted or of falsity.
pub fn elimination_levels(random: &mut Random) -> Case {
    let request = some_request(random);
    let levels = near(random, 32) - 1;
    let absurd = random.one_in(3);
    let asked = match absurd {
        true => Formula::falsity(),
        false => may(request),
    };
    let policy = [
        always(asked.clone()),
        always(Formula::implies(asked.clone(), asked)),
    ];
    let mut step = Step::certificate(0);
    while step.levels() + usize::from(absurd) < levels {
        step = apply_at_press(1, step);
    }
    if absurd {
        step = Step::over(tags::BY_FALSITY, vec![step]);
    }
    case(request, &policy, step)
}

/// So many facts, all different or not.
pub fn some_facts(random: &mut Random, count: usize) -> Vec<Formula> {
    let different = 1 + random.below(count as u64) as u16;
    let choice = *random.pick(&[different, 17, 17, 1]);
    (0..count)
        .map(|place| Formula::fact(200, vec![Word::name(place as u16 % choice)]))
        .collect()
}

/// 15 to 17 state steps, their facts all different or not.
pub fn state_steps(random: &mut Random) -> Case {
    let request = some_request(random);
    let count = near(random, 16);
    let facts = some_facts(random, count);
    let policy = [always(Formula::implies(all_of(&facts), may(request)))];
    let shown = pairs_of(&vec![Step::leaf(tags::STATE); count]);
    case(request, &policy, apply_at_press(0, shown))
}

/// A procap whose text is the longest there is, or one digit shorter somewhere.
pub fn longest_text(random: &mut Random) -> Case {
    let request = Request {
        who: 65_535,
        what: 65_535 - random.below(2) as u16 * 60_000,
        right: 65_535,
    };
    let groups: Vec<Vec<Formula>> = (0..4).map(|group| long_facts(random, group)).collect();
    let middle = |group: usize| Formula::atom(300 + group as u16, vec![]);
    let middles: Vec<Formula> = (0..4).map(middle).collect();
    let mut policy = vec![always(Formula::implies(all_of(&middles), may(request)))];
    let mut shown = Vec::new();
    for (group, facts) in groups.iter().enumerate() {
        policy.push(always(Formula::implies(all_of(facts), middle(group))));
        let states = pairs_of(&vec![Step::leaf(tags::STATE); 4]);
        shown.push(apply_at_press(group + 1, states));
    }
    let latest = random.below(2) == 0;
    if latest {
        policy[0].span.from = Time::Moment(LATEST);
    }
    case(request, &policy, apply_at_press(0, pairs_of(&shown)))
}

/// Four facts of four moments each, as long to spell as may be.
fn long_facts(random: &mut Random, group: u16) -> Vec<Formula> {
    let odd = random.below(8) as u16;
    (0..4)
        .map(|place| {
            let word = |place: u16| match place == odd {
                true => Word::when(Time::PlusInfinity),
                false => Word::moment(LATEST - u64::from(place)),
            };
            Formula::fact(65_535 - group * 4 - place, (0..4).map(word).collect())
        })
        .collect()
}

/// A step 20 that names the outermost assumption, or one further out.
pub fn assumption_index(random: &mut Random) -> Case {
    let request = some_request(random);
    let policy = [
        always(at_all_times(may(request))),
        always(Formula::either(may(request), may(request))),
    ];
    let around = random.below(6) as usize;
    let index = around - usize::from(around > 0) + random.below(2) as usize;
    let mut step = Step::named(tags::LOCAL, index);
    for _ in 0..around {
        step = match random.below(2) {
            0 => assuming(0, step),
            _ => in_one_case(random, 1, step),
        };
    }
    case(request, &policy, step)
}

/// A step 21 that names the last record, or one further.
pub fn certificate_index(random: &mut Random) -> Case {
    let request = some_request(random);
    let count = 1 + random.below(32) as usize;
    let mut policy: Vec<Certificate> = vec![granting(request); count];
    for certificate in policy.iter_mut() {
        certificate.span = Span {
            from: Time::Moment(random.below(2)),
            to: Time::Moment(LATEST - random.below(2)),
        };
    }
    let index = count - 1 + random.below(2) as usize;
    case(request, &policy, Step::certificate(index))
}
