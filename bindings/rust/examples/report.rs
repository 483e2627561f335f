//! Prints records as a table of at most 60 columns, of which the first is bold and the hours are red:
//! `cargo run --example report`.
use basinmug::{Color, Error, Table};

fn main() -> Result<(), Error> {
    let notes = [
        [
            "1",
            "2026-11-02",
            "Ada Lovelace",
            "The analytical engine weaves algebraical patterns just as the loom weaves flowers and leaves.",
            "3.5",
        ],
        [
            "2",
            "2026-11-03",
            "関孝和",
            "東京で書いた、長い覚え書き。表の端はまっすぐ。",
            "12.25",
        ],
        [
            "3",
            "2026-11-04",
            "Grace Hopper",
            "She said \"ship it\" 🚀\nand it shipped.",
            "0.75",
        ],
    ];
    let table = Table::new(notes)
        .header(["id", "date", "author", "note", "hours"])
        .width(60)
        .color(0, Color::Bold)
        .color("hours", Color::Red);
    print!("{}", table.render()?);
    Ok(())
}
