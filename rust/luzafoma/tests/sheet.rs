//! The calls on one small sheet.

use luzafoma::Refusal;

const SHEET: &[u8] = b"line pods clean ground packed\n\
    now 1 1 0 0\n\
    wish - - - 1\n\
    grind pd pd a -\n\
    wash - a - -\n\
    pack - p pd a\n";

const DUAL: &[u8] = b"line pods clean ground packed\n\
    now 1 1 1 0\n\
    wish - - 1 1\n\
    grind pd pd a -\n\
    wash - a - -\n\
    pack - d pd a\n";

#[test]
fn a_sheet_is_accepted() {
    assert_eq!(luzafoma::try_text(SHEET), Ok(()));
    assert_eq!(luzafoma::try_text(DUAL), Ok(()));
}

#[test]
fn other_texts_are_refused() {
    assert_eq!(luzafoma::try_text(b""), Err(Refusal::Size));
    assert_eq!(luzafoma::try_text(&[b'a'; 65_536]), Err(Refusal::Size));
    assert_eq!(luzafoma::try_text(b"line a"), Err(Refusal::Lines));
    assert_eq!(luzafoma::try_text(b"line a\n"), Err(Refusal::Counts));
    assert_eq!(
        luzafoma::try_text(b"line a\nnow 1 1\nwish 1\n"),
        Err(Refusal::Columns)
    );
    assert_eq!(
        luzafoma::try_text(b"line a\nnow -\nwish 1\n"),
        Err(Refusal::Word)
    );
    assert_eq!(
        luzafoma::try_text(b"line a a\nnow 1 1\nwish 1 1\n"),
        Err(Refusal::Repeated)
    );
}

#[test]
fn the_plan_is_written_at_the_front() {
    let mut buffer = [77; 8];
    assert_eq!(luzafoma::plan(SHEET, &mut buffer), Ok(Some(3)));
    assert_eq!(buffer, [0, 1, 2, 77, 77, 77, 77, 77]);
    assert_eq!(luzafoma::plan_to_vec(SHEET), Ok(Some(vec![0, 1, 2])));
}

#[test]
fn a_plan_needs_room() {
    let mut buffer = [77; 3];
    assert_eq!(
        luzafoma::plan(SHEET, &mut buffer[..2]),
        Err(Refusal::LongPlan)
    );
    assert_eq!(buffer, [77; 3]);
    assert_eq!(luzafoma::plan(SHEET, &mut buffer), Ok(Some(3)));
    assert_eq!(buffer, [0, 1, 2]);
}

#[test]
fn there_may_be_no_plan() {
    let mut buffer = [77; 8];
    let sheet = b"line sun rain\nnow 1 0\nwish 1 1\nwait - -\n";
    assert_eq!(luzafoma::plan(sheet, &mut buffer), Ok(None));
    assert_eq!(buffer, [77; 8]);
    assert_eq!(luzafoma::plan_to_vec(sheet), Ok(None));
}

#[test]
fn a_plan_may_be_empty() {
    assert_eq!(
        luzafoma::plan(b"line sun\nnow 1\nwish 1\n", &mut []),
        Ok(Some(0))
    );
}

#[test]
fn the_dual_is_written_at_the_front() {
    let mut buffer = [77; 200];
    assert_eq!(luzafoma::dualise(SHEET, &mut buffer), Ok(SHEET.len()));
    let (front, rest) = buffer.split_at(SHEET.len());
    assert_eq!(front, DUAL);
    assert!(rest.iter().all(|&byte| byte == 77));
    assert_eq!(luzafoma::dual(SHEET).as_deref(), Ok(DUAL));
    assert_eq!(luzafoma::dual(DUAL).as_deref(), Ok(SHEET));
}

#[test]
fn a_dual_needs_room() {
    let mut buffer = vec![77; SHEET.len() - 1];
    assert_eq!(
        luzafoma::dualise(SHEET, &mut buffer),
        Err(Refusal::ShortBuffer)
    );
    assert!(buffer.iter().all(|&byte| byte == 77));
    assert_eq!(luzafoma::dual(&[b'a'; 70_000]), Err(Refusal::Size));
}
