//! Two sides on one request.

use crate::lines::{Case, Outcome, Request, ask};
use crate::model::Reference;
use crate::request::Side;
use std::panic::{AssertUnwindSafe, catch_unwind};

/// What a side answers; `None` where it panics.
pub fn answered(side: &dyn Side, request: &Request) -> Option<Outcome> {
    catch_unwind(AssertUnwindSafe(|| ask(side, request))).ok()
}

/// Whether a side answers a case as it must.
pub fn agrees(side: &dyn Side, case: &Case) -> bool {
    answered(side, &case.request).as_ref() == Some(&case.expected)
}

/// The request with the answer of the reference.
pub fn expected(request: Request) -> Case {
    let expected = ask(&Reference, &request);
    Case { request, expected }
}
