//! The four ways in which a mathematical operator's B(s, d) meets the alphas.

use super::operator::Op;

#[derive(Clone, Copy, PartialEq, Eq, Debug)]
pub enum Convention {
    Premult,
    Divided,
    OnPremult,
    PremultOnly,
}

impl Convention {
    pub const ALL: [Convention; 4] =
        [Convention::Premult, Convention::Divided, Convention::OnPremult, Convention::PremultOnly];

    /// The operator's own.
    pub fn of(op: Op) -> Convention {
        match op {
            Op::Multiply | Op::Screen | Op::Lighten | Op::Difference | Op::LinearBurn | Op::Stamp => {
                Convention::Premult
            }
            Op::Darken | Op::DivideDst | Op::DivideSrc => Convention::OnPremult,
            Op::ModulusAdd | Op::ModulusSubtract | Op::Negate | Op::Exclusion => Convention::PremultOnly,
            _ => Convention::Divided,
        }
    }
}
