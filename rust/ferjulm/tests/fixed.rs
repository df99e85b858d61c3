//! The fixed lists of `rust/cases`, line by line.

#[test]
fn fixed_lists_come_to_what_document_01_says() {
    let lines = cases::lines();
    let expected: Vec<&str> = include_str!("../../cases/expected.txt").lines().collect();
    for (at, (line, expected)) in lines.iter().zip(&expected).enumerate() {
        assert_eq!(line, expected, "line {} of expected.txt", at + 1);
    }
    assert_eq!(lines.len(), expected.len(), "lines of expected.txt");
}
