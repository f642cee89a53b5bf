//! Files of frames: what is printed, and what is refused.

use plain::frames::carry_out;

fn printed(lines: &[&str]) -> String {
    let mut file = lines.join("\n");
    file.push('\n');
    carry_out(file.as_bytes()).0
}

#[test]
fn a_small_plan() {
    let file = [
        "0103",
        "0200030003",
        "030002",
        "0703000000000000000003000102",
        "08",
        "09000002",
        "0b",
        "09010002",
        "0c",
        "0d",
    ];
    let text = "5 start ok runs 1 removed 0\n\
                6 decide ok runs 2 removed 3\n\
                7 mark ok level 1\n\
                8 decide fails own cell 1 runs 0\n\
                9 back ok level 0\n\
                10 publish ok\n\
                cell 0 0002\n\
                cell 1 0001\n\
                cell 2 0001\n\
                rule 0 0000000000000002 1 1\n";
    assert_eq!(printed(&file), text);
}

#[test]
fn lines_and_frames_that_are_refused() {
    for (lines, answer) in [
        (&["010G"][..], "1 refused 2 line 3\n"),
        (&["010"], "1 refused 2 line 3\n"),
        (&[""], "1 refused 1 line 0\n"),
        (&["0e"], "1 refused 3 frame 0\n"),
        (&["08"], "1 refused 21 frame 0\n"),
        (&["0101ff"], "1 refused 4 frame 0\n"),
        (&["0100"], "1 refused 5 frame 0\n"),
        (&["0103", "0201030001"], "2 refused 6 post 0\n"),
        (&["0103", "0200030000"], "2 refused 7 post 0\n"),
        (&["0103", "04"], "2 refused 4 post 0\n"),
        (&["0103", "040010"], "2 refused 9 post 1\n"),
        (&["0103", "0500"], "2 refused 8 post 0\n"),
        (&["0103", "05"], "2 refused 4 frame 0\n"),
        (&["0103", "030001", "030001"], "3 refused 22 post 0\n"),
        (&["0103", "0703000000000000000001"], "2 refused 4 post 0\n"),
        (
            &["0103", "070300000000000000000103"],
            "2 refused 6 post 0\n",
        ),
        (
            &["0103", "07030000000000000000010101"],
            "2 refused 10 post 1\n",
        ),
        (
            &["0103", "070303000000000000000000"],
            "2 refused 11 post 0\n",
        ),
        (
            &["0103", "070200000000000000000000"],
            "2 refused 11 post 0\n",
        ),
        (
            &["0103", "070300000000000000000000"],
            "2 refused 12 post 0\n",
        ),
        (
            &["0103", "070300000000000000000100"],
            "2 refused 23 post 0\n",
        ),
    ] {
        assert_eq!(printed(lines), answer, "{lines:?}");
    }
}

#[test]
fn calls_that_are_refused_go_on() {
    let file = [
        "0101",
        "08",
        "0901ffff",
        "09000000",
        "0a000000000000000001",
        "0c",
        "0d",
        "0d",
    ];
    let text = "2 start ok runs 0 removed 0\n\
                3 refused 6 plan 0\n\
                4 refused 7 plan 0\n\
                5 refused 13 plan 0\n\
                6 refused 27 plan 0\n\
                7 publish ok\n\
                cell 0 ffff\n\
                8 refused 21 frame 0\n";
    assert_eq!(printed(&file), text);
}

#[test]
fn a_void_plan_shows_nothing() {
    let file = [
        "0101",
        "0200010002",
        "030001",
        "070301000000000000000200",
        "08",
        "0b",
        "0d",
    ];
    let text = "5 start void rule 0 cell 0 runs 1\n\
                6 refused 25 plan 0\n\
                7 publish ok\n\
                cell 0 0000\n\
                rule 0 0000000000000000 none none\n";
    assert_eq!(printed(&file), text);
}

#[test]
fn the_last_line_needs_its_newline() {
    assert_eq!(
        carry_out(b"0101"),
        (String::from("1 refused 1 line 0\n"), false)
    );
    assert_eq!(carry_out(b"0101\n"), (String::new(), true));
}
