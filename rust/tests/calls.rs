use floecavern::{
    check_loop, report, report_text, Cause, Reason, Refusal, RefusedAt, Verdict, A_2_0, A_2_1, SET_SIZE, STATE_SIZE,
    VERSION,
};

/// The example of document 01: a case of two harts and five events.
#[test]
fn example() {
    let file = include_bytes!("../../crates/floecavern/stdin");
    let lines = include_str!("../../crates/floecavern/stdout");
    assert_eq!(report(file).unwrap(), lines);
    assert_eq!(report_text(file), lines);
}

#[test]
fn refused_files() {
    let refuses = |file: &[u8], refusal: Refusal, place: usize| {
        assert_eq!(report(file), Err(RefusedAt { refusal, place }));
        assert_eq!(report_text(file), format!("refused {} {place}\n", refusal.number()));
    };
    refuses(&[], Refusal::FileLength, 0);
    refuses(&[0; 40], Refusal::Table, 0);
    refuses(&[0; 65537], Refusal::FileLength, 0);
    let good = include_bytes!("../../crates/floecavern/stdin");
    for (at, refusal, place) in [(36, Refusal::Table, 36), (52, Refusal::HartsBody, 40), (792, Refusal::Events, 792)] {
        let mut file = good.to_vec();
        file[at] += 6;
        refuses(&file, refusal, place);
    }
}

/// lr.w x6,(x5); bnez x6,+12; sc.w x7,x8,(x5); bnez x7,-12
const LOOP: [u32; 4] = [0x1002_a32f, 0x0003_1663, 0x1882_a3af, 0xfe03_9ae3];

#[test]
fn loops() {
    assert_eq!(check_loop(&LOOP), Ok(Verdict::Accepted));
    assert_eq!(check_loop(&LOOP[..2]), Ok(Verdict::Rejected { place: 2, reason: Reason::NoSc }));
    assert_eq!(check_loop(&LOOP[1..]), Ok(Verdict::Rejected { place: 0, reason: Reason::NoLr }));
    assert_eq!(check_loop(&[LOOP[0], LOOP[0]]), Ok(Verdict::Rejected { place: 1, reason: Reason::NotPermitted }));
    assert_eq!(check_loop(&LOOP[..1]), Err(Refusal::Block));
    assert_eq!(check_loop(&[]), Err(Refusal::Block));
    assert_eq!(check_loop(&[LOOP[0]; 17]), Err(Refusal::Block));
}

/// The header's functions have the same texts for the same numbers, and no others; its versions and its sizes are these.
#[test]
fn header_says_the_same() {
    let header = include_str!("../../include/floecavern.h");
    let texts = |function: &str| -> Vec<(u64, String)> {
        let body = header.split_once(&format!("{function}(uint64_t")).unwrap().1.split_once("default:").unwrap().0;
        let cases = body.lines().filter_map(|line| line.trim().strip_prefix("case ")?.split_once(": return \""));
        cases.map(|(n, text)| (n.parse().unwrap(), text.strip_suffix("\";").unwrap().to_string())).collect()
    };
    let none = |text: &str| vec![(0, text.to_string())];
    let all: Vec<_> = Cause::ALL.iter().map(|c| (c.number(), c.text().to_string())).collect();
    assert_eq!(texts("floecavern_cause_text"), all);
    let all: Vec<_> = Refusal::ALL.iter().map(|r| (r.number(), r.text().to_string())).collect();
    assert_eq!(texts("floecavern_refusal_text"), [none("not refused"), all].concat());
    let all: Vec<_> = Reason::ALL.iter().map(|r| (r.number(), r.text().to_string())).collect();
    assert_eq!(texts("floecavern_reason_text"), [none("not rejected"), all].concat());
    assert!(header.contains(&format!("#define FLOECAVERN_VERSION \"{VERSION}\"\n")));
    assert!(header.contains(&format!("#define FLOECAVERN_STATE_SIZE {STATE_SIZE}\n")));
    assert!(header.contains(&format!("#define FLOECAVERN_SET_SIZE {SET_SIZE}\n")));
    assert!(header.contains(&format!("#define FLOECAVERN_A_2_0 {A_2_0}\n")));
    assert!(header.contains(&format!("#define FLOECAVERN_A_2_1 {A_2_1}\n")));
}
