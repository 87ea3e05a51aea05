//! The formula screen of the folder shell, line by line: its arguments, the stored example,
//! recordings that can't be used, and texts that no example file holds.

use engine::program::{self, check, linked, root, screen_without, text, written};
use plain::member::Member;
use plain::samples::printed::{declined, printed_at_limits};
use plain::samples::taken::{forms_128, nested_runs};
use std::path::{Path, PathBuf};
use std::process::{Command, Output};
use std::sync::OnceLock;

fn folder() -> &'static Path {
    Path::new(env!("CARGO_TARGET_TMPDIR"))
}

fn shell() -> &'static Path {
    static SHELL: OnceLock<PathBuf> = OnceLock::new();
    SHELL.get_or_init(|| linked(&screen_without(&[]), &folder().join("formula")))
}

/// A program of the folder check, linked with the screen's sources but for these.
fn linked_without(names: &[&str], program: &str) -> PathBuf {
    let sources = [vec![check(&format!("{program}.c"))], screen_without(names)].concat();
    linked(&sources, &folder().join(program))
}

/// Runs the screen with arguments and an input.
fn run(arguments: &[&str], input: &[u8]) -> Output {
    program::run(Command::new(shell()).args(arguments).current_dir(root()), input)
}

/// Runs the screen over a recording with these contents.
fn run_over(name: &str, recording: impl AsRef<[u8]>, input: &[u8]) -> Output {
    let path = folder().join(name);
    std::fs::write(&path, recording).expect("the folder can be written");
    run(&[path.to_str().expect("a path in UTF-8")], input)
}

/// Runs a command of sh in a terminal of its own, where the input is typed.
fn run_in_terminal(command: &str, input: &[u8]) -> Output {
    let spawn = "import os, pty, sys\n\
        sys.exit(os.waitstatus_to_exitcode(pty.spawn(['sh', '-c', sys.argv[1]])))";
    let mut python = Command::new("python3");
    python.args(["-c", spawn, command]).env("TERM", "xterm").current_dir(root());
    program::run(&mut python, input)
}

#[test]
fn the_stored_example() {
    let input = std::fs::read(root().join("shell/example.in")).expect("the example is there");
    let stored = std::fs::read_to_string(root().join("shell/example.out"));
    let output = written(&run(&["shell/interval.txt"], &input));
    assert_eq!(output, stored.expect("the example is there"));
    for arguments in [
        &[][..],
        &["--plain"],
        &["--plain-check"],
        &["--plain-check", "shell/interval.txt"],
        &["shell/interval.txt", "--plain", "--plain-check"],
        &["--", "shell/interval.txt"],
    ] {
        assert_eq!(written(&run(arguments, &input)), output, "{arguments:?}");
    }
}

#[test]
fn help() {
    let output = written(&run(&["--help"], b""));
    let has_line = |start: &str| output.lines().any(|line| line.starts_with(start));
    assert!(has_line("Usage: formula [--plain] [--plain-check] [--help] [--] [RECORDING]"));
    let arguments = ["RECORDING ", "--plain ", "--plain-check ", "--help ", "-- "];
    for word in arguments.into_iter().chain(["NO_COLOR ", "TERM ", "0 ", "1 ", "2 ", "3 "]) {
        assert!(has_line(&format!("  {word}")), "{word}");
    }
    for key in "Left Right Home End Backspace Delete Up Down Enter Alt-B Alt-F".split(' ') {
        assert!(output.contains(key), "{key}");
    }
    for key in "Left Right U K W L Z C D".split(' ') {
        assert!(output.contains(&format!("Ctrl-{key}")), "{key}");
    }
    for member in Member::all() {
        assert!(output.replace(',', " ").contains(&format!(" {} ", member.name())), "{member:?}");
    }
    assert!(output.lines().all(|line| line.len() <= 80));
    assert_eq!(written(&run(&["--plain", "no/such/file", "--help"], b"")), output);
}

/// The exit status is 2, the argument is named, and nothing is shown.
#[test]
fn arguments_that_cannot_be_used() {
    let option = "is no option";
    let path = "is a second recording";
    for (arguments, named, fault) in [
        (&["--bogus"][..], "--bogus", option),
        (&["-h"], "-h", option),
        (&["--plain-chec"], "--plain-chec", option),
        (&["--plain-checks"], "--plain-checks", option),
        (&["--help", "--plain=1"], "--plain=1", option),
        (&["shell/interval.txt", "---"], "---", option),
        (&["--\x1b[31m\u{9b}31m\n"], "--?[31m??31m ", option),
        (&["one", "two"], "two", path),
        (&["--plain-check", "one", "two", "three"], "two", path),
        (&["-", "-"], "-", path),
        (&["--", "--plain", "--help"], "--help", path),
    ] {
        let output = run(arguments, b"1\n");
        assert_eq!(output.status.code(), Some(2), "{arguments:?}");
        let words = format!("formula: '{named}' {fault}; see formula --help\n");
        assert_eq!(text(&output.stderr), words);
        assert_eq!(text(&output.stdout), "");
    }
    check_bad(&run(&["--", "--plain"], b""), "formula: --plain: No such file");
}

#[test]
fn output_that_cannot_be_written() {
    for option in ["--help", "--plain"] {
        let command = format!("'{}' {option} > /dev/full", shell().display());
        let mut sh = Command::new("sh");
        let output = program::run(sh.args(["-c", &command]).current_dir(root()), b"1\n");
        check_bad(&output, "formula: the output can't be written\n");
    }
}

/// With --plain and --plain-check lines are read in a terminal too, and are asked for.
#[test]
fn lines_that_are_typed() {
    for option in ["--plain", "--plain-check"] {
        let command = format!("'{}' {option}", shell().display());
        let output = written(&run_in_terminal(&command, b"data.count()\n? 1\n\x04"));
        assert!(output.contains("240 readings\r\ntype a formula, or ? and the"), "{output}");
        assert!(output.contains("\r\n> "), "{output}");
        assert!(output.contains("    1  .count           entry   1  240\r\n"), "{output}");
        // once by the terminal, once in full, and not again by the program
        assert_eq!(output.matches("data.count()").count(), 2, "{output}");
    }
}

/// A recording from the standard input, with formulas from the terminal.
#[test]
fn a_recording_from_the_standard_input() {
    let command = format!("printf '7 8\\n9' | '{}' --plain -", shell().display());
    let output = written(&run_in_terminal(&command, b"data.sum()\n\x04"));
    assert!(output.contains("-: 3 readings\r\ntype a formula"), "{output}");
    assert!(output.contains("    1  .sum             entry   1  24\r\n"), "{output}");
    let run_without_terminal = |recording: &[u8]| {
        let leave = "import os, sys\nos.setsid()\nos.execv(sys.argv[1], sys.argv[1:])";
        let mut python = Command::new("python3");
        program::run(python.args(["-c", leave]).arg(shell()).arg("-"), recording)
    };
    let none = "formula: -: the recording takes all of the standard input, and there is no \
        terminal for formulas\n";
    check_bad(&run_without_terminal(b"7 8\n9"), none);
    check_bad(&run_without_terminal(b"7 8\n9 x"), "formula: -:2:3: 'x' is no number\n");
}

/// With --plain-check a part that is evaluated to something else says so in its row, in
/// whichever field it is, and the exit status is 3. A part that is not finished is not
/// evaluated, and without the option none is.
#[test]
fn evaluations_that_differ() {
    let program = linked_without(&["plain_rows.c"], "differing");
    let path = folder().join("three.txt");
    std::fs::write(&path, "7 8 9").expect("the folder can be written");
    let seen = |option: Option<&str>, formula: &str| {
        let mut command = Command::new(&program);
        program::run(command.args(option).arg(&path), formula.as_bytes())
    };
    let checked = |formula: &str| {
        let output = seen(Some("--plain-check"), formula);
        assert_eq!(output.status.code(), Some(3), "{formula}");
        let rows: Vec<String> = text(&output.stdout)
            .lines()
            .filter(|line| line.contains("entry "))
            .map(evaluated)
            .collect();
        let count = rows.iter().filter(|row| !row.is_empty()).count();
        assert!(text(&output.stderr).ends_with(&format!("without the cache: {count}\n")));
        rows
    };
    assert_eq!(
        checked(r"\a -> \b -> a.add(b)"),
        [
            "refusal 0, parts 5, kind 3, 0 0 [b] []",
            "refusal 0, parts 5, kind 4, 0 0 [a] [a]",
            "refusal 0, parts 5, kind 4, 0 0 [a] [a]",
            "refusal 0, parts 5, kind 4, 0 0 [a] [a]",
            "refusal 0, parts 5, kind 4, 0 0 [b] [b]",
        ]
    );
    let window = "refusal 0, parts 3, kind 2, 0 4 [] []";
    let outside = "refusal 0, parts 4, kind 5, 5 0 [] []";
    assert_eq!(checked("data.at(3)"), [window, outside, "refusal 0, parts 3, kind 1, 4 0 [] []"]);
    assert_eq!(checked("y"), ["refusal 0, parts 1, kind 1, 1 0 [] []"]);
    assert_eq!(checked("1.div(0)")[1], "refusal 14, parts 3, kind 5, 3 0 [] []");
    let deep = checked(&nested_runs(4));
    assert_eq!(deep.iter().filter(|row| row.is_empty()).count(), 2, "{deep:?}");
    assert!(!written(&seen(None, "data.at(3)")).contains("evaluated"));
}

/// What a row says about the evaluation of its part, or nothing.
fn evaluated(row: &str) -> String {
    row.split_once("; evaluated: ").map_or(String::new(), |(_, words)| words.to_string())
}

#[test]
fn the_recording_that_ships_says_that_it_is_synthetic() {
    let recording = std::fs::read_to_string(root().join("shell/interval.txt"));
    assert!(recording.expect("the recording is there").starts_with("# Synthetic"));
}

/// The exit status is 1, the words say why, and nothing is shown.
fn check_bad(output: &Output, words: &str) {
    assert_eq!(output.status.code(), Some(1), "{words}");
    assert!(text(&output.stderr).contains(words), "{words}: {}", text(&output.stderr));
    assert_eq!(text(&output.stdout), "");
}

#[test]
fn recordings_that_cannot_be_used() {
    check_bad(&run(&["no/such/file"], b"1\n"), "no/such/file: No such file");
    check_bad(&run(&["shell"], b"1\n"), "shell: Is a directory");
    for (word, fault) in [
        ("abc", "is no number"),
        ("12x", "is no number"),
        ("1.5", "is no number"),
        ("1,2", "is no number"),
        ("-", "is no number"),
        ("--1", "is no number"),
        ("+1", "is no number"),
        ("0000000000000000000000000000000000001", "is no number"),
        ("2147483648", "is beyond 32 bits"),
        ("-2147483649", "is beyond 32 bits"),
        ("-21474836480", "is beyond 32 bits"),
        ("99999999999999999999", "is beyond 32 bits"),
    ] {
        let recording = format!("# a comment\n1 2\n3 {word}\n");
        let output = run_over("bad.txt", &recording, b"data\n");
        let shown = &word[..word.len().min(31)];
        check_bad(&output, &format!("bad.txt:3:3: '{shown}' {fault}\n"));
    }
}

/// The line and the column of a word are those of its first byte, counted from 1.
#[test]
fn places_in_recordings() {
    let place = |recording: &str, place: &str, fault: &str| {
        let output = run_over("place.txt", recording, b"data\n");
        check_bad(&output, &format!("place.txt:{place}: {fault}\n"));
    };
    let none = "'x' is no number";
    place("x", "1:1", none);
    place("\t 7 x 8", "1:5", none);
    place("1\r\n\r\n x#", "3:2", none);
    place("1 # 2 x\n\n#\n  x", "4:3", none);
    place("12#3 x\nx", "2:1", none);
    place("é x", "1:1", "'??' is no number");
    place("1 #é\n# é\n2 x", "3:3", none);
    place(&"7 ".repeat(1025), "1:2049", "over 1024 readings");
    place(&format!("{}\n -8#", "7\n".repeat(1024)), "1026:2", "over 1024 readings");
    place(&format!("{}x", "7 ".repeat(1024)), "1:2049", none);
}

/// No byte of a word or a path can steer the terminal, and a zero byte hides nothing.
#[test]
fn words_and_paths_are_shown_safely() {
    for (word, shown) in [
        (&b"12\0xyz"[..], "12?xyz"),
        (b"\0", "?"),
        (b"\x1b[31mred\x07", "?[31mred?"),
        (b"\x9b31m\x7f\x0b\x0c\x80\xff", "?31m?????"),
        (b"7\x1b[2J7890123456789012345678901234", "7?[2J78901234567890123456789012"),
    ] {
        let output = run_over("safe.txt", [b"1 ", word, b" 2"].concat(), b"data\n");
        check_bad(&output, &format!("safe.txt:1:3: '{shown}' is no number\n"));
    }
    check_bad(&run(&["no\x1b[31m\n/such"], b""), "formula: no?[31m /such: No such file");
    let output = written(&run_over("steer\x1b[31m.txt", "1", b""));
    assert!(output.ends_with("/steer?[31m.txt: 1 readings\n"), "{output}");
}

#[test]
fn recordings_at_the_limits() {
    let seen = |recording: &str, formula: &str| {
        written(&run_over("good.txt", recording, format!("{formula}\n").as_bytes()))
    };
    assert!(seen("", "data.count()").contains(".count           entry   1  0\n"));
    assert!(seen("# none", "data").contains("window from 0, length 0\n"));
    let ends = "-2147483648\t-0\r\n0002147483647# the last";
    assert!(seen(ends, "data").contains("length 3: -2147483648 0 2147483647\n"));
    assert!(seen(&"7 ".repeat(1024), "data.sum()").contains("entry   1  7168\n"));
}

#[test]
fn texts_at_the_limits() {
    let seen = |formula: &[u8]| written(&run(&["shell/interval.txt"], formula));
    let zeros = "0".repeat(1024);
    assert!(seen(zeros.as_bytes()).contains("1 part; entries: 1 new"));
    let longer = seen(format!("{zeros}0").as_bytes());
    assert!(longer.ends_with("  refused (1): the text is over 1,024 bytes\n"), "{longer}");
    assert_eq!(seen(format!("{zeros}{zeros}").as_bytes()), longer);
    let stray = seen(b"1.add(\x00\xff\t2)\n");
    assert!(stray.contains("at byte 6\n    1.add(?? 2)\n          ^\n"), "{stray}");
    let far = seen(format!("1{}#{}", ".add(1)".repeat(20), " 2".repeat(90)).as_bytes());
    let excerpt = format!("    ...{}# 2 2 2 2 2 2 2 ...", ".add(1)".repeat(8));
    let caret = format!("{excerpt}\n{}^\n", " ".repeat(4 + 3 + 56));
    assert!(far.contains("at byte 141\n") && far.contains(&caret), "{far}");
    assert!(seen(b"\n  \t\n# data\n").ends_with("240 readings\n"));
}

/// The fifth text of 128 new entries finds the table full; the recording is opened again.
#[test]
fn a_full_table() {
    let texts: Vec<String> = (0..5).map(|round| forms_128(64 * round)).collect();
    let output = written(&run(&["shell/interval.txt"], texts.join("\n").as_bytes()));
    let full =
        "  refused (13): the table of 512 entries is full\n  the recording is opened again\n";
    assert_eq!(output.matches(full).count(), 1);
    assert_eq!(output.matches("128 parts; entries: 128 new, 0 reused, 64 worked out").count(), 5);
    assert_eq!(output.matches("not yet").count(), 5 * 31);
}

/// An ill-formed cache is opened again by the next edit. A preview that finds it so is
/// shown as refused, and is not awaited.
#[test]
fn a_damaged_cache() {
    let program = linked_without(&["main.c", "plain.c"], "recovery");
    let ill_formed = "refused (4): the cache is ill-formed\n";
    let expected = [
        &format!("  {ill_formed}  the recording is opened again\n"),
        "    0  data             entry   0  window from 0, length 5: 140 152 160 148 155\n",
        "    1  .sum             entry   1  755\n",
        "  2 parts; entries: 2 new, 0 reused, 1 worked out in 1 frame\n",
        "    0  data             entry   0  window from 0, length 5: 140 152 160 148 155\n",
        "    1  .sum             entry   1  755\n",
        "    2  .add             entry   3  756\n",
        "    3  1                entry   2  1\n",
        "  4 parts; entries: 2 new, 2 reused, 1 worked out in 1 frame\n",
        &format!("  {ill_formed}  the recording is opened again\n"),
        "    0  data             entry   0  window from 0, length 5: 140 152 160 148 155\n",
        "    1  .sum             entry   1  755\n",
        "    2  .add             entry   3  756\n",
        "    3  1                entry   2  1\n",
        "  4 parts; entries: 4 new, 0 reused, 2 worked out in 1 frame\n",
        &format!("    0  data             entry   0  {ill_formed}"),
        &format!("    1  .max             entry   4  {ill_formed}"),
        "  2 parts; entries: 1 new, 1 reused, 0 worked out in 1 frame\n",
        &format!("  {ill_formed}  the recording is opened again\n"),
        "    0  data             entry   0  window from 0, length 5: 140 152 160 148 155\n",
        "    1  .max             entry   1  160\n",
        "  2 parts; entries: 2 new, 0 reused, 1 worked out in 1 frame\n",
        "    1  in full          entry   1  data.max()\n",
        "    1  in full          entry   1  refused (14): no such entry\n",
        &format!("    1  in full          entry   1  {ill_formed}"),
    ];
    assert_eq!(written(&program::run(&mut Command::new(program), b"")), expected.concat());
}

/// A line of '?' and a part's number shows that part of the last formula that was taken.
#[test]
fn parts_in_full() {
    let seen = |lines: &str| written(&run(&["shell/interval.txt"], lines.as_bytes()));
    for question in ["? 1", "?1", "?\t001 ", "? 1\r"] {
        for between in ["", "# data\n\n", "data.\n", "? 0\n"] {
            let output = seen(&format!("let x = 07 in x.add(-1)\n{between}{question}\n"));
            assert!(output.ends_with("\n    1  in full          entry   0  7\n"), "{output}");
        }
    }
    let none = "  no such part; type a formula, or ? and the number of a part of the last one";
    for question in ["?", "? ", "? 3", "? 128", "? 4294967296", "? -0", "? 0x", "? 0 0", "? x"] {
        let output = seen(&format!("1.add(2)\n{question}\n"));
        let last = output.lines().last().expect("there is a line");
        assert!(last.starts_with(none), "{question}: {output}");
    }
    assert!(seen("? 0\n").contains(none));
    assert_eq!(seen("1\n ? 0\n").matches("refused (5)").count(), 1);
    for (text, bytes) in printed_at_limits() {
        let output = seen(&format!("{text}\n? 0\n"));
        let (_, full) = output.rsplit_once("  ").expect("a row");
        assert_eq!(full.trim_end().len(), bytes, "{output}");
        assert!(seen(&format!("{full}? 0\n")).contains("entries: "), "{full}");
    }
    for (text, _) in declined() {
        let row = "    0  in full          entry ";
        let output = seen(&format!("{text}\n? 0\n"));
        let last = output.lines().last().expect("there is a line");
        assert!(last.starts_with(row) && last.contains("  refused (15): its text is"), "{last}");
    }
}

/// Over one reading each run is one, so that the depth alone turns a part away: for the
/// stack.
#[test]
fn runs_too_deep_for_the_stack() {
    let seen = |formula: &str| written(&run_over("one.txt", "1", formula.as_bytes()));
    let three = seen(&nested_runs(3));
    assert!(!three.contains("too much work"), "{three}");
    let four = seen(&nested_runs(4));
    assert_eq!(four.matches("too much work: runs 4 deep\n").count(), 2, "{four}");
    let deepest = seen(&nested_runs(22));
    assert!(deepest.contains("too much work: runs 22 deep\n"), "{deepest}");
}
