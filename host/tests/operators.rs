//! Every operator against z3, an independent SMT-LIB evaluator, through judged traces.

use std::env;
use std::sync::LazyLock;

use host::case::{Case, JudgeCase};
use host::command;
use host::encoding;
use host::generate::random::Random;
use host::model::JudgeAnswer;
use host::solver::{self, Solver};
use host::solving;
use host::statement::{assert, assign, read};
use host::verdict::UNSAFE;

/// Document 01, "Arithmetic": an operator, its token and its meaning in SMT-LIB.
struct Operator {
    name: &'static str,
    token: u8,
    operands: &'static [&'static str],
    meaning: &'static str,
}

const OPERATORS: [Operator; 18] = [
    unary("not", 0x10, "(bvnot a)"),
    unary("neg", 0x11, "(bvneg a)"),
    unary("zero", 0x12, "(word (= a #x00000000))"),
    binary("add", 0x20, "(bvadd a b)"),
    binary("sub", 0x21, "(bvsub a b)"),
    binary("mul", 0x22, "(bvmul a b)"),
    binary("udiv", 0x23, "(bvudiv a b)"),
    binary("urem", 0x24, "(bvurem a b)"),
    binary("and", 0x25, "(bvand a b)"),
    binary("or", 0x26, "(bvor a b)"),
    binary("xor", 0x27, "(bvxor a b)"),
    binary("shl", 0x28, "(bvshl a b)"),
    binary("lshr", 0x29, "(bvlshr a b)"),
    binary("equal", 0x2A, "(word (= a b))"),
    binary("ult", 0x2B, "(word (bvult a b))"),
    binary("slt", 0x2C, "(word (bvslt a b))"),
    binary("ule", 0x2D, "(word (bvule a b))"),
    Operator { name: "ite", token: 0x30, operands: &["c", "a", "b"], meaning: "(ite (= c #x00000000) b a)" },
];

const fn unary(name: &'static str, token: u8, meaning: &'static str) -> Operator {
    Operator { name, token, operands: &["a"], meaning }
}

const fn binary(name: &'static str, token: u8, meaning: &'static str) -> Operator {
    Operator { name, token, operands: &["a", "b"], meaning }
}

/// Operands that are tried in all pairs, and in all triples for ite.
const EDGES: [u32; 24] = [
    0, 1, 2, 3, 7, 10, 31, 32, 33, 63, 64, 255, 256, 65535, 65536, 65537, 0x55555555, 0x7FFFFFFE, 0x7FFFFFFF,
    0x80000000, 0x80000001, 0xAAAAAAAA, 0xFFFFFFFE, 0xFFFFFFFF,
];
/// How often each operator is given random operands.
const RANDOM_TRIES: usize = 500;

/// An operator with its operands.
struct Term {
    operator: &'static Operator,
    words: Vec<u32>,
}

impl Term {
    fn command(&self) -> String {
        command::term(self.operator.name, &self.listed_words())
    }

    fn listed_words(&self) -> String {
        let words: Vec<String> = self.words.iter().map(u32::to_string).collect();
        words.join(",")
    }

    /// Every term, unless the variables OPERATOR and WORDS name one.
    fn is_asked(&self) -> bool {
        let is_asked = |variable, value| env::var(variable).map_or(true, |asked| asked == value);
        is_asked("OPERATOR", self.operator.name) && is_asked("WORDS", &self.listed_words())
    }
}

/// All terms with the words that z3 gives them, in one batch.
static STANDARD: LazyLock<Result<Vec<(Term, u32)>, String>> = LazyLock::new(ask_z3);

#[test]
fn every_operator_gives_the_standards_word_in_the_model() {
    hold_terms(JudgeCase::model);
}

#[test]
fn every_operator_gives_the_standards_word_in_the_archive() {
    hold_terms(JudgeCase::archive);
}

fn hold_terms(judge: fn(&JudgeCase) -> JudgeAnswer) {
    for &(ref term, word) in standard() {
        let case = equality_and_contrary(term, word);
        let wrong = format!("{} of {:?} is not {word}", term.operator.name, term.words);
        assert_eq!(judge(&case), unsafe_at(2), "{wrong}; repeat it with\n{}\n{case}", term.command());
    }
}

/// Asserts that the term is the word at place 1, and that it is not at place 2: only the second may fail.
fn equality_and_contrary(term: &Term, word: u32) -> JudgeCase {
    const EQUAL: u8 = 0x2A;
    const ZERO: u8 = 0x12;
    let operands = term.words.len() as u16;
    let (expected, result) = (operands, operands + 1);
    let mut expression: Vec<u8> = (0..operands).flat_map(read).collect();
    expression.push(term.operator.token);
    let equality = [read(result), read(expected), vec![EQUAL]].concat();
    let contrary = [&equality[..], &[ZERO]].concat();
    let statements = [assign(0, result, &expression), assert(1, &equality), assert(2, &contrary)];
    let valuation = encoding::valuation(&[&term.words[..], &[word]].concat());
    JudgeCase { trace: encoding::trace(result as u8, &statements), valuation }
}

fn unsafe_at(place: u32) -> JudgeAnswer {
    JudgeAnswer { verdict: UNSAFE, place, ..JudgeAnswer::default() }
}

fn standard() -> &'static [(Term, u32)] {
    STANDARD.as_ref().unwrap_or_else(|error| panic!("{error}"))
}

fn ask_z3() -> Result<Vec<(Term, u32)>, String> {
    let terms = terms();
    let text = solving::printed(&Solver::Z3, script(&terms).into_bytes())?;
    let words: Vec<u32> = text.lines().map(word_of).collect::<Result<_, _>>()?;
    if words.len() != terms.len() {
        return Err(format!("z3 answers {} of {} terms", words.len(), terms.len()));
    }
    Ok(terms.into_iter().zip(words).collect())
}

fn word_of(line: &str) -> Result<u32, String> {
    solver::literal(line).ok_or_else(|| format!("z3 answers no word: {line}"))
}

fn script(terms: &[Term]) -> String {
    let mut script = String::from(
        "(define-sort Word () (_ BitVec 32))\n\
         (define-fun word ((test Bool)) Word (ite test #x00000001 #x00000000))\n",
    );
    for Operator { name, operands, meaning, .. } in &OPERATORS {
        let operands: String = operands.iter().map(|operand| format!("({operand} Word)")).collect();
        script += &format!("(define-fun our-{name} ({operands}) Word {meaning})\n");
    }
    for Term { operator, words } in terms {
        let words: String = words.iter().map(|word| format!(" #x{word:08x}")).collect();
        script += &format!("(simplify (our-{}{words}))\n", operator.name);
    }
    script
}

fn terms() -> Vec<Term> {
    let mut random = Random::new(1);
    let mut terms = Vec::new();
    for operator in &OPERATORS {
        let count = operator.operands.len();
        let random_tries = (0..RANDOM_TRIES).map(|_| random_words(&mut random, count));
        terms.extend(edges(count).into_iter().chain(random_tries).map(|words| Term { operator, words }));
    }
    terms.retain(Term::is_asked);
    terms
}

/// Every choice of so many edges.
fn edges(count: usize) -> Vec<Vec<u32>> {
    let Some(fewer) = count.checked_sub(1) else {
        return vec![vec![]];
    };
    edges(fewer).iter().flat_map(|words| EDGES.map(|edge| [&words[..], &[edge]].concat())).collect()
}

fn random_words(random: &mut Random, count: usize) -> Vec<u32> {
    (0..count).map(|_| if random.one_in(2) { random.word() } else { random.any_word() }).collect()
}
