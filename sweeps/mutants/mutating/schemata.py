"""Many mutants of Rust in one build: a function that is mutated has its body once for each of its mutants, and a switch chooses one of them.

    fn sum(..) -> u64 { if is_mutant(1, 0) { a body } else if is_mutant(2, 1) { another body } else { the body as it is } }

The switch stands in each file, since some are parts of tests, too. It reads the variable CF_MUTANT once, and writes the number of each mutant whose
function is called to the file that CF_REACHED names. Where rustc refuses one of the bodies, that mutant can't be built. Where it refuses something
else of a function, as a `const fn` or bodies of several unnamed types, the function's mutants are built one at a time.
"""
from typing import Any, Dict, Iterable, List, NamedTuple, Sequence, Tuple

from mutating.mutant import Mutant
from mutating.of_tokens import functions
from mutating.tokens import Tokens

SWITCH = """
fn is_mutant(number: u32, place: usize) -> bool {
    use std::sync::atomic::{AtomicBool, Ordering};
    const NOT_YET: AtomicBool = AtomicBool::new(false);
    static REACHED: [AtomicBool; MANY] = [NOT_YET; MANY];
    static TELLS: std::sync::OnceLock<Option<std::ffi::OsString>> = std::sync::OnceLock::new();
    static CHOSEN: std::sync::OnceLock<u32> = std::sync::OnceLock::new();
    if !REACHED[place].load(Ordering::Relaxed) && !REACHED[place].swap(true, Ordering::Relaxed) {
        if let Some(file) = TELLS.get_or_init(|| std::env::var_os("CF_REACHED")) {
            let mut told = std::fs::OpenOptions::new().append(true).create(true).open(file).unwrap();
            std::io::Write::write_all(&mut told, format!("{number:08x}\\n").as_bytes()).unwrap();
        }
    }
    *CHOSEN.get_or_init(|| std::env::var("CF_MUTANT").ok().and_then(|it| it.parse().ok()).unwrap_or(0)) == number
}
"""


class Made(NamedTuple):
    text: str
    arms: List[Tuple[int, int, Mutant]]  # the first and last line of each mutant's body
    functions: List[Tuple[int, int, List[Mutant]]]  # the same of each function that is mutated
    outside: List[Mutant]  # that are within no function


class Blamed(NamedTuple):
    arms: List[Mutant]
    functions: List[Mutant]


def made(text: str, mutants: Sequence[Mutant]) -> Made:
    """A file with all its mutants."""
    tokens, out, at = Tokens(text, False), "", 0
    arms: List[Tuple[int, int, Mutant]] = []
    spoilt: List[Tuple[int, int, List[Mutant]]] = []
    left = list(mutants)
    for function in functions(tokens, False):
        first, last = tokens[function.opening].start, tokens[tokens.other[function.opening]].end
        within = [it for it in left if first < it.place.start and it.place.end < last and first >= at]
        if not within:
            continue
        left = [it for it in left if it not in within]
        out += text[at:first] + "{ "
        began = out.count("\n") + 1
        for it in within:
            body = text[first : it.place.start] + it.place.new + text[it.place.end : last]
            line = out.count("\n") + 1
            out += f"if is_mutant(0x{it.number}, {len(arms)}) {body}\n"
            arms.append((line, out.count("\n"), it))
            out += "else "
        out += text[first:last] + " }"
        spoilt.append((began, out.count("\n") + 1, within))
        at = last
    return Made(out + text[at:], arms, spoilt, left)


def outside(files: Dict[str, str], mutants: Sequence[Mutant]) -> List[Mutant]:
    """The mutants that are within no function."""
    return [it for file, text in files.items() for it in made(text, [it for it in mutants if it.file == file]).outside]


def texts(files: Dict[str, str], mutants: Sequence[Mutant]) -> Dict[str, Made]:
    """The files that change."""
    found = {}
    for file, text in files.items():
        of_file = [it for it in mutants if it.file == file]
        if of_file:
            it = made(text, of_file)
            found[file] = it._replace(text=it.text + SWITCH.replace("MANY", str(len(it.arms))))
    return found


def is_error(message: Dict[str, Any]) -> bool:
    return message.get("reason") == "compiler-message" and message["message"]["level"] == "error"


def errors(messages: Iterable[Dict[str, Any]]) -> List[str]:
    """What rustc says where it refuses something."""
    return [str(it["message"]["rendered"]) for it in messages if is_error(it)]


def place_in(files: Dict[str, Made], span: Any) -> Tuple[str, int, int]:
    """The file and lines that a place of rustc's stands in; those of the macro's call, if it is within a macro."""
    while span["file_name"] not in files and span["expansion"]:
        span = span["expansion"]["span"]
    return span["file_name"], span["line_start"], span["line_end"]


def blamed(files: Dict[str, Made], messages: Iterable[Dict[str, Any]]) -> Blamed:
    """The mutants in whose bodies rustc refuses something, and those of functions of which it refuses something else."""
    arms: List[Mutant] = []
    others: List[Mutant] = []
    for said in [it["message"] for it in messages if is_error(it)]:
        for file, begins, ends in [place_in(files, it) for it in said["spans"] if it["is_primary"]]:
            if file in files:
                within = [it for first, last, it in files[file].arms if first <= begins and ends <= last]
                arms += within
                others += [it for first, last, its in files[file].functions if first <= begins <= last for it in its if not within]
    return Blamed(list(dict.fromkeys(arms)), list(dict.fromkeys(others)))
