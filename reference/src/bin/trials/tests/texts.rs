//! Sums and texts, in the order in which they come, and what is written.

use crate::calls::run;
use crate::cases::{groups, work, Work};
use crate::groups::{write, Shown};
use crate::lent::lent;
use crate::text::{Sum, Text};
use reference::{Place, Way};

fn sum_of(numbers: impl IntoIterator<Item = u32>) -> u32 {
    let mut sum = Sum::default();
    numbers.into_iter().for_each(|number| sum.feed(number));
    sum.value()
}

/// The sum over bytes that are said and numbers that are fed after them.
fn sum_over(said: &str, fed: &[u32]) -> u32 {
    let said = said.bytes().map(u32::from);
    sum_of(said.chain(fed.iter().copied()))
}

/// A text has these bytes, and after them these numbers were fed.
fn assert_text(text: Text, said: &str, fed: &[u32]) {
    assert_eq!(String::from_utf8(text.said).unwrap(), said);
    assert_eq!(text.sum.value(), sum_over(said, fed));
}

/// The text of a line's case, the fifth of its group.
fn said_of(line: &str) -> String {
    let (Work::Case(case), _) = work(line).ok().unwrap() else {
        panic!("a case");
    };
    let mut text = Text::default();
    run(&case, 4, &mut text);
    String::from_utf8(text.said).unwrap()
}

fn written(file: &str, mode: &str) -> String {
    let mut out = Vec::new();
    let groups = groups(file.as_bytes()).unwrap();
    write(&groups, Shown::by(mode.as_bytes()), &mut out).unwrap();
    String::from_utf8(out).unwrap()
}

#[test]
fn sums() {
    assert_eq!(sum_of([]), 0);
    assert_eq!(sum_of([0]), 1);
    // A is 65.
    assert_eq!(sum_over("A", &[]), 66);
    // 66 * 16777619 is 1107322854, to which B, 66, adds 67.
    assert_eq!(sum_over("AB", &[]), 1_107_322_921);
    // 256 * 16777619 is 4295070464, which is 103173 past the modulus.
    assert_eq!(sum_of([255, 65]), 103_173 + 66);
    // 4294967291 is the modulus, and what is fed counts one more.
    assert_eq!(sum_of([4_294_967_290]), 0);
    assert_eq!(sum_of([4_294_967_295]), 5);
}

#[test]
fn lent_buffers_before_a_call() {
    assert_eq!(lent::<u8>(28), b"abcdefghijklmnopqrstuvwxyzab");
    assert_eq!(lent::<u16>(3), [1_000, 1_001, 1_002]);
    let place = |code, way| Place { code, way };
    assert_eq!(
        lent::<Place>(3),
        [
            place(1_000, Way::Given(2_000)),
            place(1_001, Way::Turned(2_001)),
            place(1_002, Way::Either(2_002))
        ]
    );
    assert_eq!(lent::<u8>(65_535).len(), 17_408);
    assert_eq!(lent::<u16>(161).len(), 160);
    assert_eq!(lent::<Place>(131).len(), 130);
}

#[test]
fn bytes_are_said_plainly() {
    let mut text = Text::default();
    text.row("a", b"A ~,\\\r\n\x00\x1F\x7F\xAB");
    assert_text(text, "a,11,A ~,\\\\r\\n\\00\\1F\\7F\\AB\n", &[]);
}

#[test]
fn numbers_stand_a_space_apart() {
    let mut text = Text::default();
    text.row("a", &[0u16, 65_535, 7]);
    assert_text(text, "a,3,0 65535 7\n", &[]);
    let mut none = Text::default();
    none.row::<u16>("a", &[]);
    assert_text(none, "a,0,\n", &[]);
}

#[test]
fn what_a_call_leaves_is_fed_behind_the_line() {
    let mut bytes = Text::default();
    // The third byte is what it was, and the fourth is not.
    bytes.lent("a", b"XYcX", 2);
    assert_text(bytes, "a,4,XY,kept,1\n", &[99, 88]);
    let mut numbers = Text::default();
    numbers.lent("a", &[5u16, 1_001, 1_002], 1);
    assert_text(numbers, "a,3,5,kept,2\n", &[1_001, 1_002]);
    let mut whole = Text::default();
    whole.lent("a", b"XY", 2);
    assert_text(whole, "a,2,XY,kept,0\n", &[]);
}

#[test]
fn records_are_said_or_fed_as_three_numbers() {
    let place = |code, way| Place { code, way };
    let records = [
        place(0, Way::Given(2)),
        place(1, Way::Turned(0)),
        place(2, Way::Either(4)),
        place(1_003, Way::Turned(2_003)),
        place(1_004, Way::Turned(2_004)),
        place(1_005, Way::Either(2_005)),
        place(1_006, Way::Either(2_006)),
    ];
    let ways = [1, 1, 2, 2];
    let fed = [3, 4, 5, 6].map(|i| [1_000 + i, ways[i as usize - 3], 2_000 + i]);
    let mut text = Text::default();
    text.lent("a", &records, 3);
    // Behind the result the first and the last were given.
    let said = "a,7,0 given 2;1 turned 0;2 either 4,kept,2\n";
    assert_text(text, said, fed.as_flattened());
}

/// Document 01's example.
#[test]
fn the_text_of_a_list() {
    let line = "list AABBAAACABBB 3x4 PumpFanLamp 4,3,4 CAAABBB 7,4,93 : lay,ribbon";
    let expected = "case,4,list
codes,12,AABBAAACABBB
lengths,3,4 4 4
names,11,PumpFanLamp
sizes,3,4 3 4
supplied,7,CAAABBB
lay,ribbon,7,5
ribbon,7,CAAABBB,kept,0
check,held,0
records,4,0 given 2;1 turned 0;2 given 3,kept,1
places,held,0
found,128,0 given 2;1 turned 0;2 given 3,kept,125
only,held,0
sheet,written,92,5
rows,93,name,way,start,bands,places\\r\\nPump,given,2,AABB,1\\r\\nFan,turned,0,CAAA,1\\r\\nLamp,given,3,ABBB,1\\r\\n,kept,1
";
    assert_eq!(said_of(line), expected);
}

/// Document 02, M-103.
#[test]
fn the_text_of_codes_that_look_alike() {
    let text = said_of("list ABAACABA 3,3,2 PQR 3x1 XACABA 5,3,82");
    let end = "check,held,1
records,3,0 either 3;1 either 1;2 turned 3,kept,0
places,held,1
found,128,0 either 3;1 either 1;2 turned 3,kept,125
only,held,1
sheet,written,82,1
rows,82,name,way,start,bands,places\\r\\nP,either,0,ABA,1\\r\\nQ,either,2,ACA,1\\r\\nR,turned,0,AB,2\\r\\n,kept,0
";
    assert!(text.ends_with(end), "{text}");
}

/// The check gives 13 only where it would answer held.
#[test]
fn the_text_of_a_list_without_room() {
    let text = |ribbon: &str| said_of(&format!("list AB 1,1 ab 1,1 {ribbon} 1,1,0"));
    let answers = |check: &str| {
        format!(
            "lay,refused,13,0
ribbon,1,,kept,1
check,{check}
records,1,,kept,1
places,{check}
found,128,,kept,128
"
        )
    };
    let end = "sheet,refused,13,0\nrows,0,,kept,0\n";
    let held = format!("{}only,held,1\n{end}", answers("refused,13,0"));
    assert!(text("BAB").ends_with(&held));
    let missing = format!("{}only,missing,1\n{end}", answers("missing,1"));
    assert!(text("A").ends_with(&missing));
    let shorter = "only,missing,0\n";
    assert!(text("-").contains(shorter));
}

#[test]
fn a_difference_below_zero() {
    // ABB, BBC, BBB are laid out as BBBABBC, and ABBBC has two bands less.
    let text = said_of("list ABBBBCBBB 3x3 abc 3x1 ABBBC 7,500,99");
    let records = "records,130,0 given 0;1 given 2;2 either 1,kept,127";
    assert!(text.contains(&format!("\ncheck,held,-2\n{records}\n")));
}

#[test]
fn the_text_of_a_file() {
    let line = "file name,code\\r\\nPump,AABB\\r\\nFan,AAAC 8,2,9,3";
    let expected = "case,4,file
file,30,name,code\\r\\nPump,AABB\\r\\nFan,AAAC
read,orders,2,8,7
bands,8,AABBAAAC,kept,0
lengths,2,4 4,kept,0
names,9,PumpFan,kept,2
sizes,3,4 3,kept,1
ribbon_output,8194,CAAABB\\r\\n,kept,8186
sheet_output,17181,name,way,start,bands,places\\r\\nPump,given,2,AABB,1\\r\\nFan,turned,0,CAAA,1\\r\\n,kept,17110
";
    assert_eq!(said_of(line), expected);
    let refused = "case,4,file
file,0,
read,refused,4,0
bands,1,,kept,1
lengths,1,,kept,1
names,1,,kept,1
sizes,1,,kept,1
ribbon_output,8194,refused,4,0\\r\\n,kept,8181
sheet_output,17181,refused,4,0\\r\\n,kept,17168
";
    assert_eq!(said_of("file - 4x1"), refused);
}

#[test]
fn the_text_of_a_pair() {
    let expected = "case,4,pair
list,15,name,code\\r\\na,AB
ribbon,5,BAB\\r\\n
bands,3,BAB
check_output,32,held,1\\r\\n,kept,24
";
    assert_eq!(said_of("pair name,code\\r\\na,AB BAB\\r\\n"), expected);
    let twice = said_of("pair name,code\\r\\na,AB {2}\\r\\n");
    assert!(twice.contains("\nbands,1,\\r\n"), "{twice}");
}

#[test]
fn lines_for_the_groups_and_for_all() {
    let texts = [said_of("pair - -"), said_of("pair - A")];
    let [none, one] = texts.map(|text| text.replace("case,4", "case,0"));
    let second = one.replace("case,0", "case,1");
    let rest: Vec<u32> = lent::<u8>(32)[13..]
        .iter()
        .map(|byte| u32::from(*byte))
        .collect();
    let fed = |text: &str| text.bytes().map(u32::from).chain(rest.clone()).collect();
    let (none_fed, second_fed): (Vec<u32>, Vec<u32>) = (fed(&none), fed(&second));
    let sums = [
        sum_of(none_fed.iter().chain(&second_fed).copied()),
        0,
        sum_of(none_fed),
    ];
    let file = "= a b\npair - -\npair - A\n= c\n= d\npair - -\n";
    let [a, c, d] = [
        format!("a b,2,{}\n", sums[0]),
        "c,0,0\n".to_string(),
        format!("d,1,{}\n", sums[2]),
    ];
    let (head, all) = (
        "group,cases,checksum\n",
        format!("all,3,{}\n", sum_of(sums)),
    );
    assert_eq!(written(file, ""), format!("{head}{a}{c}{d}{all}"));
    assert_eq!(written(file, "-all"), written(file, ""));
    let first = format!("{head}= a b\n{none}{a}= c\n{c}= d\n{none}{d}{all}");
    assert_eq!(written(file, "first"), first);
    let full = format!("{head}= a b\n{none}{second}{a}= c\n{c}= d\n{none}{d}{all}");
    assert_eq!(written(file, "all"), full);
    assert_eq!(written("", ""), format!("{head}all,0,0\n"));
}
