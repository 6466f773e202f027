//! What the example `linker` makes of two modules.

#[allow(dead_code)]
#[path = "../examples/linker.rs"]
mod linker;

use centrelilac::parse;

/// Checks that two modules together are a third.
fn check(first: &str, second: &str, wanted: &str) {
    let [mut linked, second, wanted] = [first, second, wanted].map(|text| parse(text).expect(text));
    linker::link(&mut linked, second);
    assert_eq!(linked, wanted);
    assert_eq!(linked.to_string().parse(), Ok(wanted));
}

#[test]
fn names_that_both_declare_are_renamed_with_their_uses() {
    check(
        "struct S { a: i32 } const n = 2; fn f(s: S) -> i32 { return s.a * n; }",
        "struct S { n: f32 } const n = 3; fn g() -> f32 { var s: S; s.n += f(1); return s.n; }
        fn f(a: i32) -> array<S, n> { return array<S, n>(); } @id(n) override m = g();",
        "struct S { a: i32 } const n = 2; fn f(s: S) -> i32 { return s.a * n; }
        struct S_2 { n: f32 } const n_2 = 3;
        fn g() -> f32 { var s: S_2; s.n += f_2(1); return s.n; }
        fn f_2(a: i32) -> array<S_2, n_2> { return array<S_2, n_2>(); } @id(n_2) override m = g();",
    );
}

#[test]
fn each_may_use_what_the_other_declares() {
    check(
        "fn f() { g(); }",
        "fn g() { h(f); } fn h(f: i32) { let g = f; }",
        "fn f() { g(); } fn g() { h(f); } fn h(f: i32) { let g = f; }",
    );
}

#[test]
fn what_only_one_declares_keeps_its_name() {
    check(
        "fn min(a: i32) -> i32 { return a; } const b = 1;",
        "const a = min(max(1, 2), 3); const b = a;",
        "fn min(a: i32) -> i32 { return a; } const b = 1;
        const a = min(max(1, 2), 3); const b_2 = a;",
    );
}

/// A local value that hides a renamed declaration still hides it.
#[test]
fn local_names_stay_local() {
    check(
        "const a = 1;",
        "const a = 2; fn f(a: i32) { for (var a = a; a < 3; a++) { let b = a; } }",
        "const a = 1; const a_2 = 2;
        fn f(a_2: i32) { for (var a_2 = a_2; a_2 < 3; a_2++) { let b = a_2; } }",
    );
}

#[test]
fn new_names_are_new() {
    check(
        "const a = b.a_3; const a_2 = 1;",
        "const a = 2; fn f() { let a_4 = a; } const a_2 = a;",
        "const a = b.a_3; const a_2 = 1;
        const a_5 = 2; fn f() { let a_4 = a_5; } const a_2_2 = a_5;",
    );
}

#[test]
fn directives_come_once() {
    check(
        "enable f16; diagnostic(off, a);",
        "enable f16; requires b; const c = 1;",
        "enable f16; diagnostic(off, a); requires b; const c = 1;",
    );
}
