//! Prints, formats, minifies and reads modules, and prints a changed tree.

use centrelilac::syntax::GlobalDeclaration;
use std::error::Error;

fn main() -> Result<(), Box<dyn Error>> {
    let printed = centrelilac::format("const N=0x1f;")?;
    let tidied = centrelilac::tidy("const N=0x1f; // thirty-one")?;
    let small = centrelilac::minify("const size = 0x1f;", &Default::default())?.text;
    let unit = centrelilac::parse("alias A = B;")?;
    let sum: centrelilac::syntax::Expression = "a + b".parse()?;
    print!("{printed}{tidied}");
    println!("{small}");
    println!("{unit:?}");
    println!("{sum:?}");

    let mut module = centrelilac::parse("const a = 1;")?;
    let function: GlobalDeclaration = "fn f() {}".parse()?;
    module.global_declarations.push(function.into());
    print!("{module}");
    Ok(())
}
