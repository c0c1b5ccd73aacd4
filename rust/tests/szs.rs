//! `nesskettle find --szs`: the status that it prints, and models in TPTP's format for finite interpretations. Each is
//! read by a reader of that format, made a case again and judged by the library.

mod running;

use running::{fails, prints, run};
use std::collections::HashMap;

#[test]
fn a_model() {
    prints(
        "find - --szs --low 2",
        "sheet=1\nfuns=2\nfun=a/0\nfun=f/1\npreds=2\npred=r/2\npred=on/0\nclauses=2\nclause=- = f A A\nclause=+ r a f A + on\n",
        0,
        "% SZS status Satisfiable for -\n\
         % SZS output start FiniteModel for -\n\
         fof(domain,fi_domain,\n    ! [X] :\n    ( X = \"1\"\n    | X = \"2\" )).\n\
         fof(functors,fi_functors,\n    ( a = \"1\"\n    & f(\"1\") = \"2\"\n    & f(\"2\") = \"1\" )).\n\
         fof(predicates,fi_predicates,\n    ( ~ r(\"1\",\"1\")\n    & ~ r(\"1\",\"2\")\n    & ~ r(\"2\",\"1\")\n    \
         & ~ r(\"2\",\"2\")\n    & on )).\n\
         % SZS output end FiniteModel for -\n",
    );
    prints(
        "find --szs - --tptp",
        "",
        0,
        "% SZS status Satisfiable for -\n\
         % SZS output start FiniteModel for -\n\
         fof(domain,fi_domain,\n    ! [X] :\n    ( X = \"1\" )).\n\
         % SZS output end FiniteModel for -\n",
    );
}

/// Nothing but a settled none is called unsatisfiable.
#[test]
fn no_model() {
    let all_equal = "sheet=1\nfuns=0\npreds=0\nclauses=1\nclause=+ = A B\n";
    let searched = |sizes: &str| format!("% SZS status GaveUp for -\n% no model found at the sizes {sizes}\n");
    prints("find - --szs --low 3 --high 5", all_equal, 1, &searched("3 to 5"));
    prints("find - --szs --low 2", all_equal, 1, &searched("2 to 8"));
    assert_eq!(run("find - --szs", all_equal).status.code(), Some(0));
    prints(
        "find two-constants.sheet --szs --high 1",
        "",
        1,
        "% SZS status GaveUp for two-constants.sheet\n% no model found at the sizes 1 to 1\n",
    );
    prints(
        "find serial-order.sheet --szs --high 4",
        "",
        1,
        "% SZS status GaveUp for serial-order.sheet\n% no model found at the sizes 1 to 4\n",
    );
    let never = "cnf(a, axiom, p(X) | q(b, c)).\ncnf(b, axiom, ~p(b)).\ncnf(c, axiom, ~q(X, Y)).\n";
    prints("find - --tptp --szs", never, 1, "% SZS status Unsatisfiable for -\n");
    prints(
        "find - --tptp --szs --high 2",
        never,
        1,
        "% SZS status Unsatisfiable for -\n",
    );
    prints("find - --tptp --szs --high 1", never, 1, &searched("1 to 1"));
    let eyes = "../../../examples/each-eye.p";
    let status = format!("% SZS status Unsatisfiable for {eyes}\n");
    prints(&format!("find {eyes} --szs --high 4"), "", 1, &status);
    prints(&format!("find {eyes} --szs"), "", 1, &status);
}

/// The status on standard output, the words on standard error as without `--szs`.
#[test]
fn nothing_is_searched() {
    let tells = |arguments: &str, input: &str, status: &str| {
        let output = run(&format!("{arguments} --szs"), input);
        assert_eq!(
            String::from_utf8_lossy(&output.stdout),
            format!("% SZS status {status}\n")
        );
        assert_eq!(output.status.code(), Some(2), "{arguments}");
        let words = String::from_utf8(output.stderr).expect("words are text");
        fails(arguments, input, &words);
        assert!(!words.is_empty());
    };
    tells("find -", "sheet=1\nfuns=13\n", "InputError for -");
    tells("find no-such.sheet", "", "InputError for no-such.sheet");
    tells("find group-6.case", "", "InputError for group-6.case");
    tells("find - --tptp", "cnf(a, axiom, p", "InputError for -");
    tells("find - --tptp", "cnf(a, axiom, p(p)).", "InputError for -");
    tells("find - --tptp", "cnf(a, axiom, p(X, X, X, X)).", "GaveUp for -");
    let many =
        "sheet=1\nfuns=0\npreds=1\npred=q/3\nclauses=4\n".to_string() + &"clause=+ q A B C + q D E F\n".repeat(4);
    tells("find -", &many, "GaveUp for -");
    tells("find - --plain", &many, "GaveUp for -");
    let constants: String = (0..6).map(|i| format!("fun=c{i}/0\n")).collect();
    let terms: String = (0..33)
        .map(|i| format!("clause=+ = g c{} c{} A\n", i / 6, i % 6))
        .collect();
    let many = format!("sheet=1\nfuns=7\n{constants}fun=g/2\npreds=0\nclauses=33\n{terms}");
    tells("find - --named", &many, "GaveUp for -");
    tells("find group.sheet --low 0", "", "UsageError for group.sheet");
    tells("find group.sheet --low 3 --high 2", "", "UsageError for group.sheet");
    tells("find group.sheet --allow 1000001", "", "UsageError for group.sheet");
    fails(
        "find group.sheet --szs --tables",
        "",
        "nesskettle: --tables and --szs are not for one answer (nesskettle --help says more)\n",
    );
    fails(
        "check group.sheet --szs",
        "",
        "nesskettle: --szs is no option of this command, or stands there twice (nesskettle --help says more)\n",
    );
}

#[test]
fn models_are_read_and_judged() {
    for arguments in [
        "two-constants.sheet",
        "two-constants.sheet --low 8",
        "kinds-of-literals.sheet --high 2",
        "kinds-of-literals.sheet --low 3 --high 3",
        "tournament.sheet",
        "steiner.sheet --low 7 --high 7",
        "quasigroup-5.sheet --low 5",
        "lattice.sheet --low 5 --high 5",
        "group.sheet --low 6 --high 6",
        "../../../examples/both-eyes.sheet --high 4",
        "../../../examples/both-eyes.p --high 4",
        "tournament.sheet --named",
        "group.sheet --low 6 --high 6 --named",
    ] {
        read_and_judged(arguments, "");
    }
    let most = |key: &str| format!("{key}s=12\n") + &(0..12).map(|i| format!("{key}={key}{i}/3\n")).collect::<String>();
    let most_cells = format!("sheet=1\n{}{}clauses=0\n", most("fun"), most("pred"));
    read_and_judged("- --low 8", &most_cells);
    read_and_judged("- --low 3", "sheet=1\nfuns=0\npreds=1\npred=p/1\nclauses=0\n");
}

/// The model that is printed is a model of the sheet, and the one that `find` prints as a case.
fn read_and_judged(arguments: &str, input: &str) {
    let printed = run(&format!("find {arguments} --szs"), input);
    assert_eq!(printed.status.code(), Some(0), "{arguments}");
    let printed = String::from_utf8(printed.stdout).expect("a model is text");
    let file = arguments.split(' ').next().expect("a file comes first");
    let between = |start: &str, end: &str| {
        let (_, rest) = printed.split_once(start).expect("the output starts");
        rest.split_once(end).expect("the output ends").0
    };
    let model = between(
        &format!("% SZS output start FiniteModel for {file}\n"),
        &format!("% SZS output end FiniteModel for {file}\n"),
    );
    let sheet = sheet(file, input);
    let case = Interpretation::read(model).case(&sheet);
    assert_eq!(nesskettle::judge(sheet.as_bytes(), case.as_bytes()), Ok(true), "{case}");
    prints(&format!("find {arguments}"), input, 0, &format!("answer=found\n{case}"));
}

/// The sheet that is searched.
fn sheet(file: &str, input: &str) -> String {
    let bytes = match file.ends_with(".p") {
        true => run(&format!("tptp {file}"), "").stdout,
        false if file == "-" => input.as_bytes().to_vec(),
        false => {
            std::fs::read(format!("{}/data/sheets/{file}", env!("CARGO_MANIFEST_DIR"))).expect("the sheet is there")
        }
    };
    String::from_utf8(bytes).expect("a sheet is text")
}

/// A symbol with its arguments.
type Applied = (String, Vec<String>);

/// A finite interpretation in TPTP's format, as its formulas state it.
#[derive(Default)]
struct Interpretation {
    elements: Vec<String>,
    functions: HashMap<Applied, String>,
    predicates: HashMap<Applied, bool>,
}

impl Interpretation {
    fn read(text: &str) -> Self {
        let mut interpretation = Interpretation::default();
        let mut tokens = Tokens(tokens(text).into_iter().peekable());
        while tokens.0.peek().is_some() {
            tokens.take("fof (");
            tokens.next();
            tokens.take(",");
            let role = tokens.next();
            tokens.take(",");
            interpretation.take_formula(&role, &mut tokens);
            tokens.take(") .");
        }
        interpretation
    }

    fn take_formula(&mut self, role: &str, tokens: &mut Tokens) {
        let connective = match role {
            "fi_domain" => {
                tokens.take("! [ X ] :");
                "|"
            }
            _ => "&",
        };
        tokens.take("(");
        loop {
            match role {
                "fi_domain" => {
                    tokens.take("X =");
                    self.elements.push(tokens.element());
                }
                "fi_functors" => {
                    let applied = tokens.applied();
                    tokens.take("=");
                    let value = tokens.element();
                    assert_eq!(self.functions.insert(applied, value), None, "stated twice");
                }
                "fi_predicates" => {
                    let holds = !tokens.takes("~");
                    assert_eq!(self.predicates.insert(tokens.applied(), holds), None, "stated twice");
                }
                other => panic!("a formula of role {other}"),
            }
            if tokens.takes(")") {
                return;
            }
            tokens.take(connective);
        }
    }

    /// The case of the sheet in which an element's number is its place in the domain. It must state every entry of the
    /// sheet's symbols, and nothing else.
    fn case(mut self, sheet: &str) -> String {
        let mut case = format!("case=1\nsize={}\n", self.elements.len());
        for line in sheet.lines() {
            let (key, symbol) = line.split_once('=').expect("a line has a key");
            if key != "fun" && key != "pred" {
                continue;
            }
            let (name, arity) = symbol.split_once('/').expect("a symbol has an arity");
            let arguments = self.arguments(arity.parse().expect("an arity is a digit"));
            let entries = arguments.into_iter().map(|arguments| {
                let applied = (name.to_string(), arguments);
                if key == "fun" {
                    let value = self.functions.remove(&applied).expect("each entry is stated");
                    1 + self
                        .elements
                        .iter()
                        .position(|e| *e == value)
                        .expect("it is an element")
                } else {
                    usize::from(self.predicates.remove(&applied).expect("each entry is stated"))
                }
            });
            let entries: Vec<String> = entries.map(|entry| entry.to_string()).collect();
            case += &format!("{name}={}\n", entries.join(" "));
        }
        assert!(self.functions.is_empty() && self.predicates.is_empty());
        case
    }

    /// All lists of so many elements, the last one fastest.
    fn arguments(&self, count: usize) -> Vec<Vec<String>> {
        let longer = |lists: Vec<Vec<String>>| {
            let with_each = |list: Vec<String>| {
                self.elements
                    .iter()
                    .map(move |e| [list.clone(), vec![e.clone()]].concat())
            };
            lists.into_iter().flat_map(with_each).collect()
        };
        (0..count).fold(vec![Vec::new()], |lists, _| longer(lists))
    }
}

struct Tokens(std::iter::Peekable<std::vec::IntoIter<String>>);

impl Tokens {
    fn next(&mut self) -> String {
        self.0.next().expect("the text goes on")
    }

    /// Takes these tokens, which stand here with spaces between them.
    fn take(&mut self, tokens: &str) {
        tokens.split(' ').for_each(|token| assert_eq!(self.next(), token));
    }

    /// Takes the token, if it comes next.
    fn takes(&mut self, token: &str) -> bool {
        self.0.next_if(|next| next == token).is_some()
    }

    /// A distinct object.
    fn element(&mut self) -> String {
        let element = self.next();
        assert!(element.starts_with('"'), "{element} is no distinct object");
        element
    }

    fn applied(&mut self) -> Applied {
        let name = self.next();
        let mut arguments = Vec::new();
        if self.takes("(") {
            arguments.push(self.element());
            while self.takes(",") {
                arguments.push(self.element());
            }
            self.take(")");
        }
        (name, arguments)
    }
}

/// Words, distinct objects and single characters.
fn tokens(text: &str) -> Vec<String> {
    let mut tokens = Vec::new();
    let mut rest = text.trim_start();
    while let Some(first) = rest.chars().next() {
        let is_word = |c: char| c.is_ascii_alphanumeric() || c == '_';
        let length = match first {
            '"' => 2 + rest[1..].find('"').expect("a distinct object ends"),
            _ if is_word(first) => rest.find(|c| !is_word(c)).unwrap_or(rest.len()),
            _ => first.len_utf8(),
        };
        tokens.push(rest[..length].to_string());
        rest = rest[length..].trim_start();
    }
    tokens
}
