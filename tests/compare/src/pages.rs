//! Pages: those among the examples, of as many rows as a page has room for and of more, and page
//! buffers of all lengths.

use crate::answers;
use crate::named::{are_all, file_of};
use harness::report::{equal, Outcome, Report};
use oracle::Refusal;
use sheets::pages::{self, lone_rows, PagedExample};
use sheets::random::Rng;
use sheets::{Case, PAGE_LENGTH};

pub fn run(report: &mut Report) {
    let examples = pages::examples();
    for paged in &examples {
        report.add(&format!("page of {}", paged.example.name), shows(paged));
    }
    report.add("no other pages", are_all("page", examples.len()));
    for k in [0, 1, 37, 38, 39, 256] {
        report.add(&format!("page of {k} rows"), has_rows(k));
    }
    for case in [lone_rows(3), Case { claim: vec![], ..lone_rows(3) }] {
        let name = format!("page buffers with a claim of {} bytes", case.claim.len());
        report.add(&name, are_measured(case));
    }
}

/// The file of a page is what the builder makes, and what the library writes.
fn shows(paged: &PagedExample) -> Outcome {
    let PagedExample { example, page } = paged;
    equal("the page's file", &page.as_bytes(), &&file_of(example, "page")?[..])?;
    let case = Case::new(&example.claim, &example.proof);
    let written = answers::check_page(&case, &mut Rng::new(0))?.page;
    equal("the page", &Some(&page[..]), &written.as_deref())
}

fn has_rows(k: i32) -> Outcome {
    let verdict = answers::check_page(&lone_rows(k), &mut Rng::new(0))?.verdict;
    equal("the number of rows", &Ok(k as usize), &verdict.map(|accepted| accepted.weights.len()))
}

/// Every length but a page's is refused by 26, whatever the claim is.
fn are_measured(case: Case) -> Outcome {
    let mut rng = Rng::new(0);
    for page in 0..2 * PAGE_LENGTH {
        let verdict = answers::check_page(&Case { page, ..case.clone() }, &mut rng)?.verdict;
        let is_wrong = verdict.err() == Some(Refusal { number: 26, index: 0 });
        equal(&format!("refusal of {page} bytes"), &(page != PAGE_LENGTH), &is_wrong)?;
    }
    Ok(())
}
