//! Call texts and the program.

use lane_reference::lane::LONGEST_LANE_TEXT;
use lane_reference::program::{run, run_on, LONGEST_INPUT};
use lane_reference::random::{
    break_line, garbled_program, longest_program, malformed_program, oversize_program, program,
    Random, LINE_BREAKS, TEXT_BREAKS,
};
use lane_reference::text::{block, line};
use lane_reference::{Call, FastLane, Refusal, Wish};
use std::io::Write;
use std::process::{Command, Stdio};

const START: &str = "call=start\nsurface=0\nend=10000\nlimit=1000\ncycle=0\n";

const EXAMPLE: &str = "call=start\nsurface=0\nend=10000\nlimit=1000\ncycle=0\n\
    call=enter\ncar=7\nat=1000\nspeed=0\nlength=0\nbrake=255\n\
    call=enter\ncar=8\nat=700\nspeed=64\nlength=0\nbrake=255\n\
    call=cycle\ncars=2\nwant=hold\nwant=units:32\n\
    call=show\n";

const EXAMPLE_OUTPUT: &str = "ok=start\nok=enter\nplace=0\nok=enter\nplace=1\n\
    ok=cycle\nover=0000000000000002\ngone=0\n\
    ok=show\ncars=2\ncar=7\nat=1000\nspeed=0\nlength=0\nbrake=255\n\
    car=8\nat=764\nspeed=0\nlength=0\nbrake=255\n";

fn output(input: &str) -> String {
    String::from_utf8(run(input.as_bytes())).expect("answers are ASCII")
}

#[test]
fn the_example_of_the_paper() {
    assert_eq!(output(EXAMPLE), EXAMPLE_OUTPUT);
}

#[test]
fn the_example_through_the_program() {
    let mut program = Command::new(env!("CARGO_BIN_EXE_reference"))
        .stdin(Stdio::piped())
        .stdout(Stdio::piped())
        .spawn()
        .expect("the program starts");
    let mut input = program.stdin.take().expect("a pipe");
    input.write_all(EXAMPLE.as_bytes()).expect("it reads");
    drop(input);
    let finished = program.wait_with_output().expect("it ends");
    assert_eq!(finished.stdout, EXAMPLE_OUTPUT.as_bytes());
    assert!(finished.status.success());
}

#[test]
fn the_edges_about_1020() {
    let end = |position: u32| output(&EXAMPLE.replace("at=1000", &format!("at={position}")));
    assert!(end(1_020).ends_with("car=8\nat=764\nspeed=0\nlength=0\nbrake=255\n"));
    assert!(end(1_021).contains("over=0000000000000000\n"));
    assert!(end(1_021).ends_with("car=8\nat=860\nspeed=96\nlength=0\nbrake=255\n"));
}

#[test]
fn empty_input_prints_nothing() {
    assert_eq!(output(""), "");
}

#[test]
fn every_call_has_its_answer() {
    let exchanges = [
        ("call=show\n", "no=21\n"),
        (START, "ok=start\n"),
        ("call=show\n", "ok=show\ncars=0\n"),
        (
            "call=enter\ncar=7\nat=0\nspeed=0\nlength=0\nbrake=255\n",
            "ok=enter\nplace=0\n",
        ),
        ("call=leave\ncar=7\n", "ok=leave\n"),
        ("call=leave\ncar=7\n", "no=24\n"),
        ("call=surface\nsurface=7\n", "ok=surface\n"),
        ("call=surface\nsurface=8\n", "no=1\n"),
        (
            "call=cycle\ncars=0\n",
            "ok=cycle\nover=0000000000000000\ngone=0\n",
        ),
    ];
    let (input, answers): (Vec<_>, Vec<_>) = exchanges.into_iter().unzip();
    assert_eq!(output(&input.concat()), answers.concat());
}

#[test]
fn a_float_outside_its_range_is_7_and_the_program_goes_on() {
    for float in [
        "accel:41800001",
        "accel:7FC00000",
        "speed:80000001",
        "speed:FF800000",
    ] {
        let input = EXAMPLE.replace("units:32", float);
        assert!(
            output(&input).contains("place=1\nno=7\nok=show\ncars=2\n"),
            "{float}"
        );
    }
    for float in [
        "accel:41800000",
        "accel:80000001",
        "speed:80000000",
        "speed:42800000",
    ] {
        let input = EXAMPLE.replace("units:32", float);
        assert!(output(&input).contains("place=1\nok=cycle\n"), "{float}");
    }
    // The count is looked at before the floats.
    let input = format!("{START}call=cycle\ncars=1\nwant=accel:7FC00000\ncall=show\n");
    assert_eq!(output(&input), "ok=start\nno=27\nok=show\ncars=0\n");
}

#[test]
fn a_malformed_block_does_not_run() {
    let unfinished = EXAMPLE.replace("want=units:32\n", "");
    assert!(output(&unfinished).ends_with("place=1\nno=8\n"));
    let surplus = EXAMPLE.replace("want=units:32\n", "want=units:32\nwant=hold\n");
    assert!(output(&surplus).ends_with("over=0000000000000002\ngone=0\nno=8\n"));
    assert_eq!(
        output("call=enter\ncar=7\nat=1\nspeed=x\nlength=0\nbrake=255\ncall=show\n"),
        "no=8\n"
    );
    assert_eq!(output("call=enter\ncar=7\nat=1\n"), "no=8\n");
    assert_eq!(output("call=enter\ncar=7\nat=1\nspeed=0\n"), "no=8\n");
    let without_brake = "call=enter\ncar=7\nat=1\nspeed=0\nlength=0\n";
    assert_eq!(output(without_brake), "no=8\n");
    assert_eq!(output("call=show\ncall=read\ncar=7\n"), "no=21\nno=8\n");
}

#[test]
fn stray_bytes_are_8_wherever_they_are() {
    for stray in ["\n", " ", "\r", "\0", "\r\n", "x"] {
        assert_eq!(output(stray), "no=8\n", "{stray:?}");
        assert_eq!(
            output(&format!("{START}{stray}")),
            "ok=start\nno=8\n",
            "{stray:?}"
        );
    }
    assert_eq!(output(START.trim_end()), "no=8\n");
    assert_eq!(output("call=show"), "no=8\n");
}

#[test]
fn counts_above_64_are_8_and_up_to_64_are_27() {
    let cycle = |cars: usize| {
        format!(
            "{START}call=cycle\ncars={cars}\n{}",
            "want=hold\n".repeat(cars)
        )
    };
    assert_eq!(output(&cycle(64)), "ok=start\nno=27\n");
    assert_eq!(output(&cycle(65)), "ok=start\nno=8\n");
}

#[test]
fn numbers_fill_their_fields() {
    let widest = "call=start\nsurface=4294967295\nend=4294967295\nlimit=4294967295\n\
        cycle=18446744073709551615\n";
    assert_eq!(output(widest), "no=1\n");
    let widest = "call=enter\ncar=65535\nat=4294967295\nspeed=4294967295\nlength=4294967295\n\
        brake=4294967295\n";
    assert_eq!(output(&format!("{START}{widest}")), "ok=start\nno=5\n");
    for (units, value) in [("-32768", -32_768), ("32767", 32_767), ("0", 0), ("-1", -1)] {
        let text = format!("call=cycle\ncars=1\nwant=units:{units}\n");
        let Ok((Call::Cycle { count: 1, wishes }, [])) = block(text.as_bytes()) else {
            panic!("{units} is well-formed")
        };
        assert_eq!(wishes[0], Wish::Units(value));
    }
}

/// What is printed for an entry at 1 with the lines after that.
fn entering(lines: &str) -> String {
    output(&format!("{START}call=enter\ncar=7\nat=1\n{lines}"))
}

#[test]
fn a_length_has_32_bits_and_its_place_after_the_speed() {
    for (length, answer) in [
        ("0", "ok=enter\nplace=0\n"),
        ("65535", "ok=enter\nplace=0\n"),
        ("65536", "no=33\n"),
        ("4294967295", "no=33\n"),
        ("4294967296", "no=8\n"),
        ("00", "no=8\n"),
        ("01", "no=8\n"),
        ("-1", "no=8\n"),
        ("", "no=8\n"),
    ] {
        let entered = entering(&format!("speed=0\nlength={length}\nbrake=255\n"));
        assert_eq!(entered, format!("ok=start\n{answer}"), "{length}");
    }
    for lines in [
        "length=0\nspeed=0\nbrake=255\n",
        "speed=0\nbrake=255\n",
        "speed=0\nLength=0\nbrake=255\n",
        "speed=0\nlength=0\nlength=0\nbrake=255\n",
    ] {
        assert_eq!(entering(lines), "ok=start\nno=8\n", "{lines}");
    }
}

#[test]
fn an_own_rate_has_32_bits_and_its_place_after_the_length() {
    for (rate, answer) in [
        ("0", "no=35\n"),
        ("1", "ok=enter\nplace=0\n"),
        ("255", "ok=enter\nplace=0\n"),
        ("256", "no=35\n"),
        ("4294967295", "no=35\n"),
        ("4294967296", "no=8\n"),
        ("4294967297", "no=8\n"),
        ("00", "no=8\n"),
        ("01", "no=8\n"),
        ("-1", "no=8\n"),
        ("", "no=8\n"),
    ] {
        let entered = entering(&format!("speed=0\nlength=0\nbrake={rate}\n"));
        assert_eq!(entered, format!("ok=start\n{answer}"), "{rate}");
    }
    for lines in [
        "speed=0\nbrake=1\nlength=0\n",
        "speed=0\nlength=0\ncall=show\n",
        "speed=0\nlength=0\nBrake=1\n",
        "speed=0\nlength=0\nrate=1\n",
    ] {
        assert_eq!(entering(lines), "ok=start\nno=8\n", "{lines}");
    }
    let twice = entering("speed=0\nlength=0\nbrake=1\nbrake=1\n");
    assert_eq!(twice, "ok=start\nok=enter\nplace=0\nno=8\n");
}

/// A figure in the place of another would show.
#[test]
fn every_figure_is_printed_in_its_place() {
    let lines = "speed=3\nlength=5\nbrake=9\n";
    let shown = entering(&format!("{lines}call=show\n"));
    assert!(shown.ends_with(&format!("cars=1\ncar=7\nat=1\n{lines}")));
}

#[test]
fn a_change_of_surface_has_one_line_of_32_bits() {
    let change = |lines: &str| output(&format!("{START}call=surface\n{lines}"));
    for (surface, answer) in [
        ("0", "ok=surface\n"),
        ("7", "ok=surface\n"),
        ("8", "no=1\n"),
        ("4294967295", "no=1\n"),
        ("4294967296", "no=8\n"),
        ("4294967297", "no=8\n"),
        ("18446744073709551616", "no=8\n"),
        ("00", "no=8\n"),
        ("01", "no=8\n"),
        ("-0", "no=8\n"),
        ("-1", "no=8\n"),
        ("", "no=8\n"),
    ] {
        let changed = change(&format!("surface={surface}\n"));
        assert_eq!(changed, format!("ok=start\n{answer}"), "{surface}");
    }
    for lines in ["", "surface=1", "code=1\n", "call=show\n", "\nsurface=1\n"] {
        assert_eq!(change(lines), "ok=start\nno=8\n", "{lines:?}");
    }
    for surplus in ["surface=1\n", "end=1\n", "cycle=0\n", "\n"] {
        let changed = change(&format!("surface=1\n{surplus}"));
        assert_eq!(changed, "ok=start\nok=surface\nno=8\n", "{surplus:?}");
    }
    assert_eq!(output("surface=1\ncall=surface\n"), "no=8\n");
    assert_eq!(
        output("call=surface\nsurface=8\ncall=show\n"),
        "no=21\nno=21\n"
    );
}

/// Carrier 8 would rest at 764 on surface 0, but at 956 on surface 5, where A is 12
/// and b is 16.
#[test]
fn rain_on_the_example() {
    let rained = |position: u32| {
        let rain = "call=surface\nsurface=5\ncall=cycle";
        let input = EXAMPLE.replace("at=1000", &format!("at={position}"));
        output(&input.replace("call=cycle", rain))
    };
    assert!(rained(956).contains("place=1\nno=34\nok=cycle\n"));
    assert!(rained(957).contains("place=1\nok=surface\nok=cycle\nover=0000000000000002\n"));
    assert!(rained(957).ends_with("car=8\nat=812\nspeed=48\nlength=0\nbrake=255\n"));
    assert!(rained(2_000).ends_with("car=8\nat=840\nspeed=76\nlength=0\nbrake=255\n"));
}

#[test]
fn cycles_can_be_exhausted() {
    let last = START.replace("cycle=0", "cycle=18446744073709551614");
    let input = format!("{last}call=cycle\ncars=0\ncall=cycle\ncars=0\n");
    assert_eq!(
        output(&input),
        "ok=start\nok=cycle\nover=0000000000000000\ngone=0\nno=28\n"
    );
}

#[test]
fn a_line_has_64_bytes_at_most() {
    let of_length = |length: usize| format!("key={}\nrest", "v".repeat(length - 5));
    let text = of_length(64);
    let (value, rest) = line(text.as_bytes(), "key").expect("64 bytes pass");
    assert_eq!((value.len(), rest), (59, b"rest".as_slice()));
    assert!(
        std::ptr::eq(value, &text.as_bytes()[4..63]),
        "a part of the caller's text"
    );
    assert_eq!(
        line(of_length(65).as_bytes(), "key"),
        Err(Refusal::TextMalformed)
    );
    assert_eq!(line(b"key=value", "key"), Err(Refusal::TextMalformed));
    assert_eq!(line(b"key\n", "key"), Err(Refusal::TextMalformed));
    assert_eq!(line(b"keys=1\n", "key"), Err(Refusal::TextMalformed));
    assert_eq!(line(b"key=\n", "key"), Ok((b"".as_slice(), b"".as_slice())));
    assert_eq!(
        line(b"key==\n", "key"),
        Ok((b"=".as_slice(), b"".as_slice()))
    );
}

#[test]
fn input_may_have_65536_bytes() {
    let longest = longest_program();
    assert_eq!(longest.len(), LONGEST_INPUT);
    assert!(!run(&longest).ends_with(b"no=8\n"));
    let mut random = Random::new(2);
    for _ in 0..20 {
        assert_eq!(run(&oversize_program(&mut random)), b"no=10\n");
    }
    assert_eq!(run(&[0; LONGEST_INPUT]), b"no=8\n");
    assert_eq!(run(&[0; LONGEST_INPUT + 1]), b"no=10\n");
}

#[test]
fn the_longest_lane_text() {
    let mut input = "call=start\nsurface=0\nend=2147483648\nlimit=8192\ncycle=0\n".to_string();
    for place in 0..64 {
        let number = 65_535 - place;
        let position = i32::MAX - (1_048_576 + 65_535) * place;
        let rate = 255 - place;
        input += &format!(
            "call=enter\ncar={number}\nat={position}\nspeed=8192\nlength=65535\nbrake={rate}\n"
        );
    }
    let output = output(&(input + "call=show\n"));
    let (_, text) = output.split_once("ok=show\n").expect("shown");
    let first = "cars=64\ncar=65535\nat=2147483647\nspeed=8192\nlength=65535\nbrake=255\n";
    assert!(text.starts_with(first));
    assert_eq!(text.len(), LONGEST_LANE_TEXT);
}

#[test]
fn every_break_of_a_line_is_8() {
    let mut random = Random::new(3);
    for line_break in LINE_BREAKS {
        let mut broken = 0;
        while broken < 20 {
            let text = program(&mut random);
            if let Some(text) = break_line(&mut random, &text, line_break) {
                assert_ends_malformed(&text, &format!("{line_break:?}"));
                broken += 1;
            }
        }
    }
}

#[test]
fn every_break_of_a_text_is_8() {
    let mut random = Random::new(4);
    for (index, text_break) in TEXT_BREAKS.iter().enumerate() {
        let mut broken = 0;
        while broken < 50 {
            let text = program(&mut random);
            if let Some(text) = text_break(&mut random, &text) {
                assert_ends_malformed(&text, &format!("text break {index}"));
                broken += 1;
            }
        }
    }
}

fn assert_ends_malformed(text: &[u8], what: &str) {
    if text.len() <= LONGEST_INPUT {
        let output = run_on(FastLane::default(), text);
        let text = String::from_utf8_lossy(text);
        assert!(
            output == b"no=8\n" || output.ends_with(b"\nno=8\n"),
            "{what}:\n{text}"
        );
    }
}

#[test]
fn random_programs_agree_whatever_the_stopping() {
    let mut random = Random::new(5);
    for _ in 0..300 {
        let well_formed = program(&mut random);
        let output = run(&well_formed);
        assert!(
            !output.ends_with(b"no=8\n"),
            "{}",
            String::from_utf8_lossy(&well_formed)
        );
        assert_eq!(run_on(FastLane::default(), &well_formed), output);
        for text in [malformed_program(&mut random), garbled_program(&mut random)] {
            assert_eq!(run_on(FastLane::default(), &text), run(&text));
        }
    }
}
