//! Texts that are made from numbers: modules, and modules with something put in or left out.

const NAMES: &[&str] = &[
    "a", "b", "c2", "main", "i32", "f32", "vec3", "array", "S", "é",
];

const LITERALS: &[&str] = &[
    "0", "1", "2u", "3i", "1.5", "0x1f", "1e3f", "0.5h", "0x1p-2", "true", "false",
];

const BINARY: &[&str] = &[
    "+", "-", "*", "/", "%", "&", "|", "^", "&&", "||", "<", ">", "<=", ">=", "==", "!=", "<<",
    ">>",
];

const UNARY: &[&str] = &["-", "!", "~", "&", "*"];

const ASSIGNED: &[&str] = &[
    "=", "+=", "-=", "*=", "/=", "%=", "&=", "|=", "^=", "<<=", ">>=",
];

const ATTRIBUTES: &[&str] = &[
    "@vertex ",
    "@fragment ",
    "@compute @workgroup_size(8, 4) ",
    "@must_use ",
    "@diagnostic(off, a.b) ",
    "@if(a && !b) ",
    "@custom(1) ",
];

const PLACES: &[&str] = &[
    "@location(0) ",
    "@builtin(position) ",
    "@align(16) @size(32) ",
    "@interpolate(flat, first) ",
    "@group(0) @binding(1) ",
];

/// What is put into a text to change it.
const PUT_IN: &[&str] = &[
    "<", ">", ";", "}", "(", ")", "=", "@", "#", " ", "--", "/*", "*/", "//", "\n", ",", "fn", "0",
    "else", "_", "\u{2028}",
];

/// How many expressions and statements are inside one another at most.
const DEEPEST: u32 = 4;

/// The text that a number makes.
pub fn made(number: u64) -> String {
    let mut maker = Maker {
        state: number.wrapping_mul(0x9e37_79b9_7f4a_7c15) | 1,
        text: String::new(),
        depth: 0,
    };
    maker.module();
    if maker.below(3) == 0 {
        maker.change();
    }
    maker.text
}

/// The text that is made, and what decides how it goes on.
struct Maker {
    state: u64,
    text: String,
    depth: u32,
}

impl Maker {
    /// A number below another, by a shift register.
    fn below(&mut self, end: usize) -> usize {
        self.state ^= self.state << 13;
        self.state ^= self.state >> 7;
        self.state ^= self.state << 17;
        (self.state >> 33) as usize % end
    }

    fn put(&mut self, text: &str) {
        self.text.push_str(text);
    }

    fn one_of(&mut self, texts: &[&str]) {
        let at = self.below(texts.len());
        self.put(texts[at]);
    }

    fn name(&mut self) {
        self.one_of(NAMES);
    }

    /// The same again and again, with something between.
    fn several(&mut self, least: usize, between: &str, one: fn(&mut Maker)) {
        for turn in 0..least + self.below(3) {
            if turn > 0 {
                self.put(between);
            }
            one(self);
        }
    }

    /// Nothing, or what one call makes after a text.
    fn perhaps(&mut self, before: &str, one: fn(&mut Maker)) {
        if self.below(2) == 0 {
            self.put(before);
            one(self);
        }
    }

    fn module(&mut self) {
        if self.below(8) == 0 {
            self.one_of(&["enable f16;", "requires a;", "diagnostic(error, a.b);"]);
        }
        self.several(1, " ", Maker::declaration);
    }

    fn declaration(&mut self) {
        match self.below(8) {
            0 => self.put(";"),
            1 => {
                self.put("alias A = ");
                self.type_name();
                self.put(";");
            }
            2 => {
                self.put("const_assert ");
                self.expression();
                self.put(";");
            }
            3 => {
                self.put("struct S { ");
                self.several(1, ", ", Maker::member);
                self.one_of(&[" }", ", }", " } // a\n"]);
            }
            4 => {
                self.perhaps("", |it| it.one_of(PLACES));
                self.one_of(&[
                    "var<private> ",
                    "var<storage, read_write> ",
                    "override ",
                    "var ",
                ]);
                self.typed_name();
                self.perhaps(" = ", Maker::expression);
                self.put(";");
            }
            5 => {
                self.put("const ");
                self.name();
                self.put(" = ");
                self.expression();
                self.put(";");
            }
            _ => self.function(),
        }
    }

    fn function(&mut self) {
        self.perhaps("", |it| it.one_of(ATTRIBUTES));
        self.put("fn ");
        self.name();
        self.put("(");
        self.perhaps("", |it| it.several(1, ", ", Maker::member));
        self.put(")");
        self.perhaps(" -> ", Maker::type_name);
        self.put(" ");
        self.block();
    }

    fn member(&mut self) {
        self.perhaps("", |it| it.one_of(PLACES));
        self.typed_name();
    }

    fn typed_name(&mut self) {
        self.name();
        self.put(": ");
        self.type_name();
    }

    fn type_name(&mut self) {
        self.one_of(&[
            "i32",
            "vec3<f32>",
            "array<vec2<i32>, 4>",
            "S",
            "ptr<function, f32>",
        ]);
    }

    fn block(&mut self) {
        self.put("{ ");
        self.perhaps("", |it| it.several(1, " ", Maker::statement));
        self.put(" }");
    }

    fn statement(&mut self) {
        self.depth += 1;
        let kinds = if self.depth > DEEPEST { 9 } else { 16 };
        match self.below(kinds) {
            0 => self.put(";"),
            1 => self.one_of(&["break;", "continue;", "discard;", "return;"]),
            2 => {
                self.put("return ");
                self.expression();
                self.put(";");
            }
            3 => {
                self.one_of(&["let ", "var ", "const "]);
                self.name();
                self.put(" = ");
                self.expression();
                self.put(";");
            }
            4 | 5 => self.assignment(),
            6 => {
                self.name();
                self.one_of(&["++;", "--;"]);
            }
            7 => {
                self.call();
                self.put(";");
            }
            8 => {
                self.put("_ = ");
                self.expression();
                self.put("; // b\n");
            }
            kind => self.compound(kind),
        }
        self.depth -= 1;
    }

    fn assignment(&mut self) {
        self.name();
        self.perhaps("", |it| it.one_of(&["[1]", ".xy", "[a + 1].b"]));
        self.put(" ");
        self.one_of(ASSIGNED);
        self.put(" ");
        self.expression();
        self.put(";");
    }

    /// A statement that has others in it.
    fn compound(&mut self, kind: usize) {
        match kind {
            9 => self.block(),
            10 => self.headed("while "),
            11 => {
                self.put("for (var i = 0; ");
                self.perhaps("", Maker::expression);
                self.put("; ");
                self.perhaps("", |it| it.one_of(&["i++", "i += 2", "a(i)"]));
                self.put(") ");
                self.block();
            }
            12 => {
                self.put("loop { ");
                self.several(1, " ", Maker::statement);
                self.perhaps(" continuing ", |it| {
                    it.put("{ a = b; ");
                    it.perhaps("", |it| it.put("break if a; "));
                    it.put("}");
                });
                self.put(" }");
            }
            13 => {
                self.put("switch ");
                self.expression();
                self.put(" { case 1, 2u: ");
                self.block();
                self.perhaps(" case default ", Maker::block);
                self.put(" default: {} }");
            }
            _ => {
                self.headed("if ");
                self.perhaps(" else ", |it| it.headed("if "));
                self.perhaps(" else ", Maker::block);
            }
        }
    }

    fn headed(&mut self, word: &str) {
        self.put(word);
        self.expression();
        self.put(" ");
        self.block();
    }

    fn call(&mut self) {
        self.one_of(&["f", "vec3<f32>", "array<i32, 2>", "bitcast<u32>"]);
        self.put("(");
        self.perhaps("", |it| it.several(1, ", ", Maker::expression));
        self.put(")");
    }

    fn expression(&mut self) {
        self.depth += 1;
        let kinds = if self.depth > DEEPEST { 4 } else { 10 };
        match self.below(kinds) {
            0 | 1 => self.name(),
            2 | 3 => self.one_of(LITERALS),
            4 => {
                self.put("(");
                self.expression();
                self.put(")");
            }
            5 => {
                self.one_of(UNARY);
                self.expression();
            }
            6 => self.call(),
            7 => {
                self.name();
                self.one_of(&["[0]", ".x", "[a].yz", ".a.b"]);
            }
            _ => {
                self.expression();
                self.put(" ");
                self.one_of(BINARY);
                self.put(" ");
                self.expression();
            }
        }
        self.depth -= 1;
    }

    /// Puts something in, or leaves a character out.
    fn change(&mut self) {
        let places: Vec<usize> = self.text.char_indices().map(|(at, _)| at).collect();
        let at = places[self.below(places.len())];
        if self.below(2) == 0 {
            self.text.remove(at);
        } else {
            let put = PUT_IN[self.below(PUT_IN.len())];
            self.text.insert_str(at, put);
        }
    }
}
