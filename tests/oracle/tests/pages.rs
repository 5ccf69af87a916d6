//! The oracle against note 6 of document 02: pages.

use oracle::{check_page, Paged, Refusal};
use refusals::{rule, EntryPoint};
use sheets::pages::{self, lone_rows};
use sheets::worked::{square_case, square_claim, square_proof};
use sheets::{table, Case, Claim, Proof, MOST, PAGE_LENGTH};

fn paged(case: &Case) -> Paged {
    check_page(&case.claim, &case.proof, &case.limits, case.profile, case.room, case.page)
}

/// The 40 lines of the page, without the spaces that fill them up to 72 characters.
fn lines(case: &Case) -> Vec<String> {
    let page = paged(case).page.expect("a page is written");
    let lines: Vec<&str> = page.split_inclusive('\n').collect();
    assert_eq!((lines.len(), page.len()), (40, PAGE_LENGTH));
    assert!(lines.iter().all(|line| line.len() == 73));
    lines.iter().map(|line| line.trim_end().to_string()).collect()
}

#[test]
fn examples_have_their_pages() {
    for pages::PagedExample { example, page } in pages::examples() {
        let case = Case::new(&example.claim, &example.proof);
        assert_eq!(paged(&case).page, Some(page), "{}", example.name);
    }
}

/// Also of 11, where there is no room for the exact proof.
#[test]
fn a_refusal_has_a_page_that_is_blank_but_for_its_first_line() {
    for table::Entry { number, index, case } in table::entries() {
        if rule(number).is_said_by(EntryPoint::Check) {
            let mut expected = vec![String::new(); 40];
            expected[0] = format!("refused {number} at {index}");
            assert_eq!(lines(&case), expected);
        }
    }
}

/// Rows 0 to 37 have lines 2 to 39, and line 40 tells of others.
#[test]
fn the_first_38_rows_are_on_the_page() {
    for k in [0, 1, 37, 38, 39, 256] {
        let lines = lines(&lone_rows(k));
        let floor = -(0..k).sum::<i32>();
        assert_eq!(lines[0], format!("accepted rows {k} scale 1 floor {floor}"));
        for (row, line) in (0..38).zip(&lines[1..39]) {
            let fields: Vec<i32> =
                line.split_whitespace().map(|field| field.parse().unwrap()).collect();
            let expected = if row < k { vec![row, row, 0, 0] } else { vec![] };
            assert_eq!(fields, expected, "{k}");
        }
        assert_eq!(lines[39], if k > 38 { "more" } else { "" }, "{k}");
    }
    assert_eq!(lines(&lone_rows(256))[38], "  37          37           0           0");
}

#[test]
fn the_longest_fields_stand_in_their_columns() {
    let claim = Claim::new(0, &[([0], MOST / 2), ([1], -MOST), ([2], MOST / 2)]);
    let proof = Proof::new(1, &[([0], [2], [MOST / 2, MOST / 2, -MOST])]);
    let case = Case::new(&claim, &proof);
    assert_eq!(lines(&case)[1], "   0   536870912   536870912 -1073741824");

    let far = Proof::new(1 << 20, &[([0], [0], [0, 0, 0])]);
    let far = Case::new(&Claim::new(-MOST, &[([0], -MOST)]), &far);
    assert_eq!(lines(&far)[0], "accepted rows 1 scale 1048576 floor -1073741824");
    assert_eq!(lines(&far)[1], "   0           0           0           0");

    let full = Case::new(&Claim::new::<1>(-MOST, &[]), &Proof::new(1, &[([0], [0], [0, 0, 0])]));
    assert_eq!(lines(&full)[1], "   0  1073741824           0           0");
}

/// The page shows the weights after the shift.
#[test]
fn shifted_weights_are_on_the_page() {
    let case = Case::new(&square_claim(-1, -2), &square_proof());
    assert_eq!(lines(&case)[1], "   0           2           1          -2");
}

#[test]
fn a_page_of_wrong_length_is_refused_before_all_else() {
    let wrong = Paged { verdict: Err(Refusal { number: 26, index: 0 }), page: None };
    let empty = Case { claim: vec![], ..square_case() };
    for page in [0, 1, 72, 73, 2880, PAGE_LENGTH - 1, PAGE_LENGTH + 1, 2 * PAGE_LENGTH] {
        assert_eq!(paged(&Case { page, ..square_case() }), wrong, "{page}");
        assert_eq!(paged(&Case { page, ..empty.clone() }), wrong, "{page}");
    }
    assert_eq!(lines(&empty)[0], "refused 1 at 0");
}
