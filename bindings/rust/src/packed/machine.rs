//! What is printed of a packed form, by the texts of the rules alone.

/// The rules, as the definitions have them.
const RULES: &str = include_str!("../../../../crates/wgsl_model_packed/rules");

/// Returns the texts of the rules, by their numbers.
fn rules() -> Vec<Vec<u8>> {
    let lines = RULES.lines().filter(|line| line.contains(" \""));
    let lines = lines.filter(|line| !line.starts_with(['-', '#', ' ']));
    lines.map(text_of_rule).collect()
}

/// Returns the text in quotes of the line of a rule.
fn text_of_rule(line: &str) -> Vec<u8> {
    let (_, quoted) = line.split_once(" \"").expect("a text");
    let (text, _) = quoted.rsplit_once("\" -- ").expect("what it is for");
    assert!(!text.replace("\\n", "").contains(['\\', '"']), "{line}");
    text.replace("\\n", "\n").into_bytes()
}

/// A form that is being printed.
struct Machine<'t> {
    left: &'t [u8],
    depth: usize,
    printed: Vec<u8>,
}

impl Machine<'_> {
    /// Takes so many bytes of the form.
    fn take(&mut self, count: usize) -> Option<&[u8]> {
        let (taken, left) = self.left.split_at_checked(count)?;
        self.left = left;
        Some(taken)
    }

    /// Takes a number.
    fn number(&mut self) -> Option<usize> {
        let bytes = self.take(8)?.try_into().expect("8 bytes");
        usize::try_from(u64::from_le_bytes(bytes)).ok()
    }

    /// Begins a line.
    fn break_line(&mut self) {
        self.printed.push(b'\n');
        self.printed.extend(vec![b' '; 4 * self.depth]);
    }

    /// Prints the text of a form.
    fn text(&mut self) -> Option<()> {
        let size = self.number()?;
        for byte in self.take(size)?.to_vec() {
            match byte {
                b'\n' => self.break_line(),
                _ => self.printed.push(byte),
            }
        }
        Some(())
    }

    /// Prints the form to its end, from one place for a rule.
    fn run(&mut self, rules: &[Vec<u8>]) -> Option<()> {
        let mut places = vec![b'$'];
        while let Some(place) = places.pop() {
            match place {
                b'\n' => self.break_line(),
                b'^' => self.depth += 1,
                b'~' => self.depth = self.depth.checked_sub(1)?,
                b'#' => self.text()?,
                b'%' => {
                    self.take(16)?;
                }
                b'$' => {
                    let number = self.take(1)?[0];
                    places.extend(rules.get(usize::from(number))?.iter().rev());
                }
                _ => self.printed.push(place),
            }
        }
        self.left.is_empty().then_some(())
    }
}

/// Returns what is printed of a packed form, if it is one.
pub fn print_of(form: &[u8]) -> Option<String> {
    let mut machine = Machine {
        left: form,
        depth: 0,
        printed: Vec::new(),
    };
    machine.run(&rules())?;
    String::from_utf8(machine.printed).ok()
}

#[test]
fn a_form_is_printed_by_its_rules() {
    let text = |text: &str| [&(text.len() as u64).to_le_bytes(), text.as_bytes()].concat();
    let name = |name: &str| [&[super::rules::NAME], text(name).as_slice()].concat();
    assert_eq!(print_of(&name("a")).as_deref(), Some("a"));
    assert_eq!(print_of(&name("a\nb")).as_deref(), Some("a\nb"));
    assert_eq!(print_of(&[name("a"), vec![0]].concat()), None);
    assert_eq!(print_of(&[super::rules::BLOCK_END]), None);
    assert_eq!(print_of(&[255]), None);
    assert_eq!(print_of(&[]), None);
}
