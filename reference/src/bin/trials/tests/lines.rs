//! The lines of a file of cases.

use crate::cases::{groups, work, Group};

const WRONG: [&str; 33] = [
    "File - 4x1",
    "files - 4x1",
    "file",
    "file - ",
    "file -",
    "file - 3x1",
    "file  4x1",
    "file - 4x1 ",
    "file - 4x1 lay,ribbon",
    "file - 4x1 :",
    "file - 4x1 :x",
    "file - 4x1: x",
    " file - 4x1",
    "list - - - - - 4x1",
    "list - - - - 3x1",
    "list - - - - - - 3x1",
    "list - \\41 - - - 3x1",
    "pair -",
    "pair - \\4",
    "pair - -\r",
    "pair - \u{e9}",
    "pair - \t",
    "make ties 1",
    "make tie 1 1",
    "make Ties 1 1",
    "make ties one 1",
    "make ties 1 4294967296",
    "make ties 1 1 : lay,ribbon",
    "=",
    "=b",
    "= ",
    "= a, b",
    "-",
];

#[test]
fn lines_that_are_wrong_are_told_by_their_numbers() {
    for line in WRONG {
        let file = format!("# a\n= a\npair - -\n\n{line}\npair - -\n");
        let fault = groups(file.as_bytes()).err().expect(line);
        assert!(fault.starts_with("line 5: "), "{line}: {fault}");
    }
    let early = groups(b"\npair - -\n= a\n").err().unwrap();
    assert!(early.starts_with("line 2: "), "{early}");
}

#[test]
fn lines_that_are_right() {
    let file = "# a\n\n= a\npair : : : check,held\nmake full 0 0\n= b: c = d\nfile - 4x1";
    let groups = groups(file.as_bytes()).ok().unwrap();
    let counts: Vec<(&str, usize)> = groups
        .iter()
        .map(|group: &Group| (&group.title[..], group.work.len()))
        .collect();
    assert_eq!(counts, [("a", 2), ("b: c = d", 1)]);
    let (_, remark) = work("pair : : : check,held; b : c").ok().unwrap();
    assert_eq!(remark, Some("check,held; b : c"));
}

#[test]
fn a_file_of_131072_bytes_and_one_of_131073() {
    let line = format!("#{}\n", "a".repeat(16_382));
    let lacking = line.repeat(8);
    assert_eq!(lacking.len(), 131_072);
    let right = [&lacking[..], &format!("{}b", &lacking[..131_071])];
    for file in right {
        assert!(groups(file.as_bytes()).is_ok());
    }
    for (file, line) in [
        (format!("{lacking}\n"), 9),
        (format!("{lacking}b"), 9),
        (format!("{}bb", &lacking[..131_071]), 8),
        (format!("{}b\n", &lacking[..131_071]), 8),
    ] {
        let fault = groups(file.as_bytes()).err().unwrap();
        assert!(fault.starts_with(&format!("line {line}: ")), "{fault}");
    }
}
