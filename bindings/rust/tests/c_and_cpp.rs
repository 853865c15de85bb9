//! The header from C and from C++: a program that calls every entry, and calls with one kind of number for another, which
//! must not build. The compilers are `cc` and `c++`, or what `CC` and `CXX` name; where the tests of x86-64 run under an
//! emulator, Debian's cross compilers.

use std::env;
use std::fs;
use std::path::{Path, PathBuf};
use std::process::Command;

use admezgast::{Epoch, LONGEST_TEXT};

struct Language {
    name: &'static str,
    /// The variable that names the compiler, and its name here and across.
    compiler: [&'static str; 3],
    standard: &'static str,
    /// What `-x` calls the language.
    word: &'static str,
    program: &'static str,
}

const LANGUAGES: [Language; 2] = [
    Language {
        name: "C",
        compiler: ["CC", "cc", "x86_64-linux-gnu-gcc"],
        standard: "-std=c11",
        word: "c",
        program: "every_entry.c",
    },
    Language {
        name: "C++",
        compiler: ["CXX", "c++", "x86_64-linux-gnu-g++"],
        standard: "-std=c++17",
        word: "c++",
        program: "every_entry.cpp",
    },
];

/// What cargo starts the tests of x86-64 with, on another machine.
fn runner() -> Option<String> {
    env::var("CARGO_TARGET_X86_64_UNKNOWN_LINUX_GNU_RUNNER").ok()
}

fn header_folder() -> PathBuf {
    PathBuf::from(env::var_os("CARGO_MANIFEST_DIR").expect("cargo sets it")).join("../c")
}

/// A command of some words: the first is the program.
fn command(words: &str) -> Command {
    let mut words = words.split_whitespace();
    let mut command = Command::new(words.next().expect("a command has a word"));
    command.args(words);
    command
}

/// The program as cargo starts the tests.
fn start(program: &Path) -> Command {
    let Some(words) = runner() else {
        return Command::new(program);
    };
    let mut start = command(&words);
    start.arg(program);
    start
}

impl Language {
    /// The compiler with every warning an error, as far as its input. Without one the test fails.
    fn compiler(&self) -> Command {
        let [variable, here, across] = self.compiler;
        let usual = if runner().is_some() { across } else { here };
        let words = env::var(variable).unwrap_or_else(|_| usual.to_owned());
        let version = command(&words).arg("--version").output();
        assert!(
            version.is_ok_and(|version| version.status.success()),
            "`{words}` does not start: install a compiler of {} for x86-64, or name one in {variable}",
            self.name
        );
        let mut compiler = command(&words);
        compiler.args([self.standard, "-Wall", "-Wextra", "-Wpedantic", "-Werror"]);
        compiler.arg("-I").arg(header_folder());
        compiler
    }

    /// Compiles a function with this call in it, or tells what the compiler says.
    fn compile(&self, call: &str) -> Result<(), String> {
        let types = "tai_epoch epoch, tai_unix_seconds secs, tai_leap_offset leap, int64_t count, uint8_t *bytes";
        let uses = "(void)epoch; (void)secs; (void)leap; (void)count; (void)bytes;";
        let source = format!(
            "#include \"records_box.h\"\nvoid trial({types});\nvoid trial({types}) {{ {uses} (void){call}; }}\n"
        );
        let file = PathBuf::from(env!("CARGO_TARGET_TMPDIR")).join("trial");
        fs::write(&file, source).expect("the folder can be written");
        let mut compiler = self.compiler();
        compiler.args(["-fsyntax-only", "-x", self.word]).arg(file);
        let output = compiler.output().expect("the compiler starts");
        let said = String::from_utf8_lossy(&output.stderr).into_owned();
        output.status.success().then_some(()).ok_or(said)
    }
}

fn text_of(bytes: Vec<u8>) -> String {
    String::from_utf8(bytes).expect("it is a text")
}

#[test]
fn every_entry_answers_from_c_and_cpp() {
    let epochs = [
        Epoch::MONOTONIC_TIME,
        Epoch::GPS_TIME,
        Epoch::GST_TIME,
        Epoch::BDT_TIME,
        Epoch::TAI_1958_TIME,
        Epoch::TAI_1972_TIME,
    ];
    let numbers: String = epochs.map(|epoch| format!("{} ", epoch.0)).concat();
    let constants = format!("{numbers}{LONGEST_TEXT}\n");
    for language in LANGUAGES {
        let program = format!("every_entry-{}", language.word);
        let program = PathBuf::from(env!("CARGO_TARGET_TMPDIR")).join(program);
        let mut compiler = language.compiler();
        compiler.arg(header_folder().join("tests").join(language.program));
        compiler.arg(env!("RECORDS_BOX")).arg("-o").arg(&program);
        // C++ would ask for its library, of which nothing is used.
        compiler.arg("-Wl,--as-needed");
        let built = compiler.output().expect("the compiler starts");
        assert!(built.status.success(), "{}", text_of(built.stderr));

        let ran = start(&program).output().expect("the program starts");
        let (said, wrong) = (text_of(ran.stdout), text_of(ran.stderr));
        assert!(ran.status.success(), "{}: {wrong}", language.name);
        assert_eq!(said, constants, "{}", language.name);
    }
}

/// The calls that take an epoch, a leap offset, Unix seconds, or the seconds of a count.
const CALLS: [&str; 7] = [
    "tai_try_from_date_time(epoch, 1970, 1, 1, 0, 0, 0, 0)",
    "tai_try_from_unix_timestamp(epoch, secs, 0, leap)",
    "tai_as_unix_secs(epoch, count, 0, leap)",
    "tai_to_tai_time(epoch, epoch, count, 0)",
    "tai_from_str(epoch, bytes, 1)",
    "tai_display(epoch, count, 0, 0, 0, bytes, 1, 0)",
    "tai_secs_to_date_time(epoch, count)",
];
const KINDS: [&str; 4] = ["epoch", "secs", "leap", "count"];

/// The call with each of its numbers that is of a kind replaced by each other kind.
fn swaps(call: &str) -> Vec<String> {
    let (name, arguments) = call.trim_end_matches(')').split_once('(').expect("a call");
    let arguments: Vec<&str> = arguments.split(", ").collect();
    let mut swaps = Vec::new();
    for (place, argument) in arguments.iter().enumerate() {
        for kind in KINDS {
            if KINDS.contains(argument) && kind != *argument {
                let mut swapped = arguments.clone();
                swapped[place] = kind;
                swaps.push(format!("{name}({})", swapped.join(", ")));
            }
        }
    }
    swaps
}

#[test]
fn no_kind_of_number_passes_for_another() {
    let mut tried = 0;
    for language in LANGUAGES {
        for call in CALLS {
            assert_eq!(language.compile(call), Ok(()), "{}: {call}", language.name);
            for swap in swaps(call) {
                assert!(
                    language.compile(&swap).is_err(),
                    "{}: {swap}",
                    language.name
                );
                tried += 1;
            }
        }
    }
    assert_eq!(tried, 2 * 45);
}
