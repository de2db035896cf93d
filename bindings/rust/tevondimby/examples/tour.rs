//! A tree, tokens, a refused commit, an accepted one and a renaming.
use tevondimby::{Change, Document, Edition, Error, Grammar, Payload};

fn main() -> Result<(), Error> {
    let mut doc = Document::open("fn twice(a: u32) -> u32 { a * 2 }", Edition::E2021, Grammar::Profile)?;
    for it in doc.tree()?.iter().take(4) {
        println!("{:width$}{:?}@{}..{}", "", it.kind, it.start, it.end, width = 2 * it.depth as usize);
    }
    println!("{:?}", doc.tokens()?.map(|it| it.kind).take(5).collect::<Vec<_>>());
    let at = |text| Change::Replace { kind: "PATH_EXPR", range: 26..27, with: Payload::Expr(text) };
    println!("{:?}", doc.commit(&[at("1 + 2")]));
    println!("{:?}", doc.commit(&[at("(1 + 2)")]));
    println!("{}", doc.text()?);
    println!("{:?}", doc.edit(0..9999, ""));
    doc.rename("twice", "double")?;
    println!("{} {:?}", doc.text()?, doc.errors()?);
    let answer = tevondimby::run(br#"{"edition":"2021","text":"fn f() {}","commands":[{"do":"errors"}]}"#)?;
    println!("{} {}", String::from_utf8_lossy(&answer.output), answer.status);
    Ok(())
}
