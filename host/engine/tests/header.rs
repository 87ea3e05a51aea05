//! include/formula.h: what it says is what the Rust side and the rules say, it compiles as
//! C and C++ of all standards, and calls through its wrappers get the engine's answers.
//! And docs/MEMORY.md, which it refers to, has the kinds of the member table.

use engine::ffi::{EditAnswer, EvaluateAnswer, PreviewAnswer, PrintAnswer};
use engine::memory;
use engine::program::{check, compiler, exists, linked, root, run, text, written};
use plain::member::Member;
use plain::{limits, refusal, shown};
use std::collections::BTreeMap;
use std::mem::{offset_of, size_of};
use std::path::{Path, PathBuf};
use std::process::{Command, Output};

/// A folder for what a test writes.
fn folder(test: &str) -> PathBuf {
    let path = Path::new(env!("CARGO_TARGET_TMPDIR")).join(test);
    std::fs::create_dir_all(&path).expect("the target folder can be written");
    path
}

/// What a program of the folder check writes.
fn said(name: &str) -> String {
    let program = linked(&[check(&format!("{name}.c"))], &folder(name).join(name));
    written(&run(&mut Command::new(program), b""))
}

/// The sizes and offsets of the Rust side.
fn layout() -> Vec<(&'static str, usize)> {
    vec![
        ("sizeof formula_edit_answer", size_of::<EditAnswer>()),
        ("sizeof formula_preview_answer", size_of::<PreviewAnswer>()),
        ("sizeof formula_print_answer", size_of::<PrintAnswer>()),
        ("sizeof formula_evaluate_answer", size_of::<EvaluateAnswer>()),
        ("sizeof formula_cache", 24_584),
        ("formula_edit_answer.refusal", offset_of!(EditAnswer, refusal)),
        ("formula_edit_answer.place", offset_of!(EditAnswer, place)),
        ("formula_edit_answer.whole", offset_of!(EditAnswer, whole)),
        ("formula_edit_answer.parts", offset_of!(EditAnswer, parts)),
        ("formula_edit_answer.added", offset_of!(EditAnswer, added)),
        ("formula_preview_answer.refusal", offset_of!(PreviewAnswer, refusal)),
        ("formula_preview_answer.finished", offset_of!(PreviewAnswer, finished)),
        ("formula_preview_answer.worked", offset_of!(PreviewAnswer, worked)),
        ("formula_preview_answer.kind", offset_of!(PreviewAnswer, kind)),
        ("formula_preview_answer.first", offset_of!(PreviewAnswer, first)),
        ("formula_preview_answer.second", offset_of!(PreviewAnswer, second)),
        ("formula_preview_answer.name", offset_of!(PreviewAnswer, name)),
        ("formula_preview_answer.other", offset_of!(PreviewAnswer, other)),
        ("formula_print_answer.refusal", offset_of!(PrintAnswer, refusal)),
        ("formula_print_answer.length", offset_of!(PrintAnswer, length)),
        ("formula_evaluate_answer.refusal", offset_of!(EvaluateAnswer, refusal)),
        ("formula_evaluate_answer.place", offset_of!(EvaluateAnswer, place)),
        ("formula_evaluate_answer.parts", offset_of!(EvaluateAnswer, parts)),
        ("formula_evaluate_answer.kind", offset_of!(EvaluateAnswer, kind)),
        ("formula_evaluate_answer.first", offset_of!(EvaluateAnswer, first)),
        ("formula_evaluate_answer.second", offset_of!(EvaluateAnswer, second)),
        ("formula_evaluate_answer.name", offset_of!(EvaluateAnswer, name)),
        ("formula_evaluate_answer.other", offset_of!(EvaluateAnswer, other)),
    ]
}

/// The limits and sizes of the rules and of docs/MEMORY.md, and the steps of a frame.
fn sizes() -> Vec<(&'static str, usize)> {
    let bytes = 4 * memory::READINGS + 4 * memory::HEADS + 2 * memory::LINKS + 8 * memory::CELLS;
    vec![
        ("FORMULA_RECORDING_READINGS", limits::RECORDING_READINGS),
        ("FORMULA_TEXT_BYTES", limits::TEXT_BYTES),
        ("FORMULA_TEXT_PARTS", limits::TEXT_PARTS),
        ("FORMULA_OPEN_MARKS", limits::OPEN_MARKS),
        ("FORMULA_OPEN_LAMBDAS", limits::OPEN_LAMBDAS),
        ("FORMULA_NAME_BYTES", limits::NAME_BYTES),
        ("FORMULA_TABLE_ENTRIES", limits::TABLE_ENTRIES),
        ("FORMULA_READINGS_CELLS", memory::READINGS),
        ("FORMULA_HEADS_CELLS", memory::HEADS),
        ("FORMULA_LINKS_CELLS", memory::LINKS),
        ("FORMULA_CELLS_CELLS", memory::CELLS),
        ("FORMULA_PLACES", limits::PLACES),
        ("FORMULA_CACHE_BYTES", bytes),
        ("FORMULA_STEPS_FRAME", 40),
    ]
}

/// The numbers of refusals, kinds and reasons.
fn numbers() -> Vec<(&'static str, usize)> {
    vec![
        ("FORMULA_ACCEPTED", 0),
        ("FORMULA_REFUSAL_TEXT_TOO_LONG", refusal::TEXT_TOO_LONG.into()),
        ("FORMULA_REFUSAL_RECORDING_TOO_LONG", refusal::RECORDING_TOO_LONG.into()),
        ("FORMULA_REFUSAL_MEMORY_TOO_SMALL", refusal::MEMORY_TOO_SMALL.into()),
        ("FORMULA_REFUSAL_CACHE_ILL_FORMED", 4),
        ("FORMULA_REFUSAL_UNGRAMMATICAL", refusal::UNGRAMMATICAL.into()),
        ("FORMULA_REFUSAL_NUMBER_OUTSIDE", refusal::NUMBER_OUTSIDE.into()),
        ("FORMULA_REFUSAL_NAME_TOO_LONG", refusal::NAME_TOO_LONG.into()),
        ("FORMULA_REFUSAL_DATA_BOUND", refusal::DATA_BOUND.into()),
        ("FORMULA_REFUSAL_WRONG_CALL", refusal::WRONG_CALL.into()),
        ("FORMULA_REFUSAL_THIRD_LAMBDA", refusal::THIRD_LAMBDA.into()),
        ("FORMULA_REFUSAL_LAMBDA_REPEATED", refusal::LAMBDA_NAME_REPEATED.into()),
        ("FORMULA_REFUSAL_TEXT_LIMIT", refusal::TEXT_LIMIT.into()),
        ("FORMULA_REFUSAL_TABLE_FULL", refusal::TABLE_FULL.into()),
        ("FORMULA_REFUSAL_NO_SUCH_ENTRY", refusal::NO_SUCH_ENTRY.into()),
        ("FORMULA_REFUSAL_TEXT_UNFIT", refusal::TEXT_UNFIT.into()),
        ("FORMULA_REFUSAL_OTHER_FORM", refusal::OTHER_FORM.into()),
        ("FORMULA_KIND_NUMBER", 1),
        ("FORMULA_KIND_WINDOW", 2),
        ("FORMULA_KIND_FUNCTION", 3),
        ("FORMULA_KIND_DELAYED", 4),
        ("FORMULA_KIND_MISSING", 5),
        ("FORMULA_REASON_UNBOUND_NAME", shown::UNBOUND_NAME.into()),
        ("FORMULA_REASON_WRONG_KIND", shown::WRONG_KIND.into()),
        ("FORMULA_REASON_DIVISION_BY_ZERO", shown::DIVISION_BY_ZERO.into()),
        ("FORMULA_REASON_BEYOND_32_BITS", shown::BEYOND_32_BITS.into()),
        ("FORMULA_REASON_OUTSIDE", shown::OUTSIDE_WINDOW.into()),
    ]
}

#[test]
fn layout_and_numbers() {
    let lines = said("layout");
    let said: BTreeMap<&str, usize> = lines
        .lines()
        .map(|line| line.rsplit_once(' ').expect("a name and a number"))
        .map(|(name, number)| (name, number.parse().expect("a number")))
        .collect();
    let expected: BTreeMap<&str, usize> =
        [layout(), sizes(), numbers()].into_iter().flatten().collect();
    assert_eq!(said, expected);
}

/// Each macro and each name of an enum in the header is in the lists above.
#[test]
fn every_constant_is_compared() {
    let header = header();
    let words = header.split(|letter: char| !letter.is_ascii_alphanumeric() && letter != '_');
    let compared: Vec<&str> = sizes().into_iter().chain(numbers()).map(|(name, _)| name).collect();
    for word in words.filter(|word| word.starts_with("FORMULA_")) {
        let is_other = ["FORMULA_H", "FORMULA_ASSERT"].contains(&word);
        assert!(is_other || compared.contains(&word), "{word}");
    }
}

fn header() -> String {
    std::fs::read_to_string(root().join("include/formula.h")).expect("the header is there")
}

/// Uses of all that the header defines besides the calls.
const USE: &str = "#include \"formula.h\"
uint32_t use(formula_cache *cache, uint16_t *places, uint64_t *steps, char *name);
uint32_t use(formula_cache *cache, uint16_t *places, uint64_t *steps, char *name)
{
    formula_name_text(0x61, name);
    formula_cache_steps(cache, steps);
    return formula_cache_open(cache, NULL, 0) + formula_cache_edit(cache, \"1\", 1, places).whole +
           formula_cache_preview(cache, 0, 1).worked + formula_cache_run_depth(cache, 0) +
           formula_cache_print(cache, 0, name, 1).length + formula_text_evaluate(name, 1, NULL, 0, 0).parts +
           (uint32_t)formula_cache_most_steps(cache, steps, 0);
}
";

/// Compiles a use of the header that stands in a folder.
fn compile(name: &str, standard: &str, folder: &Path) -> Output {
    let source = folder.join(if standard.contains("++") { "use.cpp" } else { "use.c" });
    std::fs::write(&source, USE).expect("the folder can be written");
    let mut command = compiler(name, standard, folder);
    command.arg("-fsyntax-only").arg(&source).output().expect("the compiler exists")
}

/// The compilers on this machine with standards that they know.
fn compilers() -> Vec<(&'static str, &'static str)> {
    let all = [
        ("cc", "c99"),
        ("cc", "c11"),
        ("gcc", "c17"),
        ("g++", "c++98"),
        ("g++", "c++11"),
        ("g++", "c++17"),
        ("clang", "c99"),
        ("clang", "c11"),
        ("clang++", "c++98"),
        ("clang++", "c++11"),
    ];
    all.into_iter().filter(|(name, _)| exists(name)).collect()
}

#[test]
fn the_header_compiles_in_c_and_cpp() {
    let folder = folder("compiles");
    std::fs::write(folder.join("formula.h"), header()).expect("the folder can be written");
    assert!(compilers().contains(&("cc", "c99")));
    for (name, standard) in compilers() {
        let output = compile(name, standard, &folder);
        assert!(output.status.success(), "{name} {standard}: {}", text(&output.stderr));
    }
}

/// With another size in it the header is refused, in every standard.
#[test]
fn the_assertions_refuse_other_sizes() {
    let folder = folder("asserts");
    let changes = [
        ("FORMULA_TABLE_ENTRIES 512", "FORMULA_TABLE_ENTRIES 511"),
        ("FORMULA_CACHE_BYTES 24584", "FORMULA_CACHE_BYTES 23560"),
        ("FORMULA_LINKS_CELLS 2048", "FORMULA_LINKS_CELLS 1536"),
        ("FORMULA_HEADS_CELLS 2", "FORMULA_HEADS_CELLS 4"),
        ("uint32_t added;", "uint64_t added;"),
        ("uint32_t worked;", "uint64_t worked;"),
        ("uint32_t length;", "uint64_t length;"),
        ("uint64_t other;\n} formula_evaluate", "uint64_t other, another;\n} formula_evaluate"),
        (
            "uint32_t parts;   /* how many parts the text has */\n    uint32_t kind;",
            "uint32_t kind;",
        ),
    ];
    for (old, new) in changes {
        assert_eq!(header().matches(old).count(), 1, "{old}");
        let changed = header().replace(old, new);
        std::fs::write(folder.join("formula.h"), changed).expect("the folder can be written");
        for (name, standard) in compilers() {
            let output = compile(name, standard, &folder);
            assert!(!output.status.success(), "{name} {standard} took {new}");
        }
    }
}

/// docs/MEMORY.md lists the kind of each member, in the order of the table.
#[test]
fn kinds_of_members_on_the_page() {
    let page = std::fs::read_to_string(root().join("docs/MEMORY.md")).expect("the page is there");
    let page = page.split_whitespace().collect::<Vec<_>>().join(" ");
    let members = (memory::MEMBERS..).zip(Member::all());
    let kinds: Vec<String> = members.map(|(kind, member)| format!("{kind} {member:?}")).collect();
    let list = format!("member table: {}.", kinds.join(", "));
    assert!(page.contains(&list), "{list}");
}

/// A program in C over the wrappers: every field of every answer.
#[test]
fn calls_from_c() {
    let expected = "open 2\n\
        edit 4 0 0 0 0:\n\
        preview 4 0 0 0 0 0 [] []\n\
        print 4 0 [##]\n\
        open 0\n\
        edit 0 0 1 2 2: 0 1\n\
        preview 0 1 1 1 0 0 [] []\n\
        open 0\n\
        edit 0 0 4 7 5: 4 0 1 3 2 4 0\n\
        preview 0 0 1 0 0 0 [] []\n\
        preview 0 1 1 2 1 2 [] []\n\
        edit 0 0 6 7 2: 6 5 1 3 2 6 5\n\
        preview 0 1 1 2 1 3 [] []\n\
        edit 0 0 11 5 5: 11 10 7 9 8\n\
        preview 0 1 1 4 0 0 [abcdefgh] [z9]\n\
        preview 0 1 1 4 0 0 [abcdefgh] []\n\
        preview 0 1 1 3 0 0 [abcdefgh] []\n\
        edit 0 0 14 3 3: 12 14 13\n\
        preview 0 1 1 5 4 0 [] []\n\
        preview 0 1 0 1 -2147483648 0 [] []\n\
        preview 14 0 0 0 0 0 [] []\n\
        edit 5 5 0 0 0:\n\
        edit 5 0 0 0 0:\n\
        edit 0 0 21 9 7: 1 21 20 1 19 18 15 17 16\n\
        depth 2\ndepth 1\ndepth 1\ndepth 0\ndepth 0\n\
        edit 0 0 32 18 11: 32 27 1 23 22 26 25 24 1 28 27 30 1 29 27 32 1 31\n\
        depth 2\ndepth 0\ndepth 0\n\
        edit 0 0 33 3 1: 1 33 0\n\
        preview 0 1 1 1 312 0 [] []\n\
        edit 0 0 34 3 1: 1 34 0\n\
        preview 0 1 1 1 1 0 [] []\n\
        edit 0 0 36 3 2: 1 36 35\n\
        preview 0 1 1 5 5 0 [] []\n\
        edit 0 0 38 3 2: 37 38 0\n\
        preview 0 1 1 1 -4 0 [] []\n\
        edit 0 0 43 5 5: 43 42 39 41 40\n\
        preview 0 1 1 4 0 0 [abcdefgi] [abcdefgh]\n\
        edit 7 13 0 0 0:\n\
        edit 9 5 0 0 0:\n\
        print 0 20 [data.skip(1).take(2)##]\n\
        print 0 20 [data.skip(1).take(3)##]\n\
        print 15 0 [##]\n\
        print 15 0 [##]\n\
        print 0 2 [-7##]\n\
        print 0 48 [\\abcdefgi -> \\abcdefgh -> abcdefgi.add(abcdefgh)##]\n\
        print 16 0 [##]\n\
        print 16 0 [##]\n\
        print 15 0 [##]\n\
        print 0 127 [data.sumBy(\\b -> data.take(b).longestRun(\\c -> c))\
            .add(data.countWhere(\\b -> data.take(b).longestRun(\\c -> c))).add(data.sum())##]\n\
        print 14 0 [##]\n\
        edit 0 0 47 7 4: 47 45 44 45 47 46 45\n\
        print 0 7 [\\a -> a##]\n\
        print 16 0 [##]\n\
        print 16 0 [##]\n\
        edit 0 0 48 3 1: 45 44 48\n\
        print 0 17 [(\\a -> a).count()##]\n\
        edit 0 0 52 5 4: 52 1 51 50 49\n\
        print 16 0 [##]\n\
        print 0 25 [\\b -> data.sumBy(\\a -> a)##]\n\
        edit 0 0 55 7 3: 55 54 44 54 44 53 49\n\
        preview 0 1 1 4 0 0 [a] [a]\n\
        preview 0 1 1 4 0 0 [a] []\n\
        preview 0 1 1 3 0 0 [a] []\n\
        depth 0\ndepth 1\n\
        edit 0 0 57 3 2: 1 57 56\n\
        preview 0 1 1 2 3 2 [] []\n\
        edit 0 0 58 3 1: 1 58 56\n\
        preview 0 1 1 2 0 3 [] []\n\
        edit 0 0 59 3 1: 1 59 13\n\
        preview 0 1 1 1 155 0 [] []\n\
        edit 0 0 60 3 1: 1 60 12\n\
        preview 0 1 1 5 5 0 [] []\n\
        edit 0 0 61 3 1: 1 61 12\n\
        preview 0 1 1 2 0 0 [] []\n\
        depth 0\ndepth 0\n\
        evaluate 0 0 7 2 1 2 [] []\n\
        evaluate 0 0 7 1 2 0 [] []\n\
        evaluate 0 0 7 2 0 5 [] []\n\
        evaluate 0 0 7 2 1 4 [] []\n\
        evaluate 0 0 7 1 1 0 [] []\n\
        evaluate 0 0 7 2 1 2 [] []\n\
        evaluate 0 0 7 1 2 0 [] []\n\
        evaluate 14 0 0 0 0 0 [] []\n\
        evaluate 0 0 5 3 0 0 [abcdefgh] []\n\
        evaluate 0 0 5 4 0 0 [abcdefgh] []\n\
        evaluate 0 0 5 4 0 0 [abcdefgh] []\n\
        evaluate 0 0 5 4 0 0 [abcdefgh] [z9]\n\
        evaluate 0 0 5 4 0 0 [z9] []\n\
        evaluate 0 0 3 1 -2147483648 0 [] []\n\
        evaluate 0 0 3 5 4 0 [] []\n\
        evaluate 0 0 3 1 -1 0 [] []\n\
        evaluate 5 5 0 0 0 0 [] []\n\
        evaluate 7 13 0 0 0 0 [] []\n\
        evaluate 14 0 0 0 0 0 [] []\n\
        evaluate 0 0 2 1 0 0 [] []\n\
        evaluate 5 0 0 0 0 0 [] []\n\
        evaluate 5 0 0 0 0 0 [] []\n\
        evaluate 2 0 0 0 0 0 [] []\n\
        evaluate 5 1 0 0 0 0 [] []\n\
        evaluate 1 0 0 0 0 0 [] []\n";
    assert_eq!(said("calls"), expected);
}
