//! What a caller sees of a table: rows of all kinds, texts, each option, each error.
use basinmug::{
    strip, width, Align, Color, Column, Error, Escapes, Place, Priority, Rules, Style, Table,
};
use std::time::{Duration, Instant};

/// These lines, each with its end.
fn lines(found: &[&str]) -> String {
    found.iter().map(|line| format!("{line}\n")).collect()
}

fn two_by_two() -> String {
    lines(&[
        "╭───┬───╮",
        "│ a │ b │",
        "├───┼───┤",
        "│ 1 │ 2 │",
        "╰───┴───╯",
    ])
}

#[test]
fn rows_of_all_kinds() {
    let owned = vec![vec![String::from("1"), "2".into()]];
    let numbers = (0..1).map(|_| 1..3);
    for table in [
        Table::new([["1", "2"]]),
        Table::new(&owned),
        Table::new(owned.clone()),
        Table::new(numbers),
        Table::new([[1.0, 2.0]]),
    ] {
        assert_eq!(table.header(["a", "b"]).to_string(), two_by_two());
    }
    let plain = lines(&["╭───┬───╮", "│ 1 │ 2 │", "╰───┴───╯"]);
    assert_eq!(Table::new(owned).to_string(), plain);
}

#[test]
fn no_rows_and_short_rows() {
    let none: [[&str; 0]; 0] = [];
    assert_eq!(Table::new(none).to_string(), "");
    assert_eq!(Table::new([none.concat()]).to_string(), "");
    let header = lines(&["╭───╮", "│ a │", "╰───╯"]);
    assert_eq!(Table::new(none).header(["a"]).to_string(), header);
    let ragged = Table::new([vec!["x", "y"], vec!["z"]]);
    let filled = lines(&["╭───┬───╮", "│ x │ y │", "│ z │   │", "╰───┴───╯"]);
    assert_eq!(ragged.to_string(), filled);
    let whole = Table::new([["x", "y"]]).header(["a", ""]).to_string();
    assert_eq!(Table::new([["x", "y"]]).header(["a"]).to_string(), whole);
}

#[test]
fn cells_with_line_feeds_tabs_and_quotes() {
    let table = Table::new([["a\n\"b\"", "c\td"], ["\x07", "e"]]);
    let wanted = lines(&[
        "╭─────┬────────╮",
        "│ a   │ c    d │",
        "│ \"b\" │        │",
        "│ ␇   │ e      │",
        "╰─────┴────────╯",
    ]);
    assert_eq!(table.to_string(), wanted);
}

#[test]
fn each_style() {
    for (style, table) in [
        (Style::Ascii, "+---+\n| a |\n+---+\n| x |\n+---+\n"),
        (Style::Modern, "┌───┐\n│ a │\n├───┤\n│ x │\n└───┘\n"),
        (Style::Extended, "╔═══╗\n║ a ║\n╠═══╣\n║ x ║\n╚═══╝\n"),
        (Style::Empty, " a \n x \n"),
        (Style::Rounded, "╭───╮\n│ a │\n├───┤\n│ x │\n╰───╯\n"),
        (Style::Markdown, "| a |\n|:--|\n| x |\n"),
    ] {
        let drawn = Table::new([["x"]]).header(["a"]).style(style).to_string();
        assert_eq!(drawn, table, "{style:?}");
    }
}

#[test]
fn each_rule() {
    let table = Table::new([["x"], ["y"]]).header(["a"]).style(Style::Ascii);
    for (rules, wanted) in [
        (Rules::Header, "+---+\n| a |\n+---+\n| x |\n| y |\n+---+\n"),
        (
            Rules::All,
            "+---+\n| a |\n+---+\n| x |\n+---+\n| y |\n+---+\n",
        ),
        (Rules::None, "+---+\n| a |\n| x |\n| y |\n+---+\n"),
    ] {
        assert_eq!(table.clone().rules(rules).to_string(), wanted, "{rules:?}");
    }
}

#[test]
fn a_width_wraps_or_cuts() {
    let wide = Table::new([["12 34 56"]]).width(6);
    let words = lines(&["╭────╮", "│ 12 │", "│ 34 │", "│ 56 │", "╰────╯"]);
    assert_eq!(wide.to_string(), words);
    let cut = lines(&["╭────╮", "│ 1… │", "╰────╯"]);
    assert_eq!(wide.truncate().to_string(), cut);
    let whole = Table::new([["ab"]]);
    assert_eq!(
        whole.clone().width(usize::MAX).to_string(),
        whole.to_string()
    );
}

#[test]
fn columns_that_do_not_fit() {
    let table = Table::new([["long text"; 9]]).width(40);
    assert!(table.to_string().ends_with("(3 of 9 columns)\n"));
    assert!(!table.all_columns().to_string().contains("columns"));
}

#[test]
fn each_priority() {
    for (priority, widths) in [
        (Priority::InTurn, [4, 10]),
        (Priority::Narrowest, [2, 12]),
        (Priority::Widest, [7, 7]),
        (Priority::Leftmost, [2, 12]),
        (Priority::Rightmost, [9, 5]),
    ] {
        let table = Table::new([["a".repeat(9), "b".repeat(14)]])
            .width(21)
            .all_columns()
            .style(Style::Ascii)
            .priority(priority);
        let [first, last] = widths.map(|it| "-".repeat(it + 2));
        let edge = format!("+{first}+{last}+\n");
        assert!(table.to_string().starts_with(&edge), "{priority:?}");
    }
}

#[test]
fn each_color() {
    use Color::*;
    let colors = [
        Black, Red, Green, Yellow, Blue, Magenta, Cyan, White, Bold, Underline,
    ];
    let codes = [
        (30, 39),
        (31, 39),
        (32, 39),
        (33, 39),
        (34, 39),
        (35, 39),
        (36, 39),
        (37, 39),
        (1, 22),
        (4, 24),
    ];
    for (color, (open, close)) in colors.into_iter().zip(codes) {
        let table = Table::new([["a", "b"]])
            .style(Style::Empty)
            .color(7, Black)
            .color(1, Black)
            .color(usize::MAX, Black)
            .color(1, color);
        let wanted = format!(" a  \x1b[{open}mb\x1b[{close}m \n");
        assert_eq!(table.to_string(), wanted, "{color}");
    }
}

#[test]
fn each_alignment() {
    let table = Table::new([["1", "x", "y"], ["100", "long", "more"]])
        .header(["n", "t", "u"])
        .align(0, Align::Left)
        .align("t", Align::Right)
        .align(String::from("u"), Align::Center);
    let wanted = lines(&[
        "╭─────┬──────┬──────╮",
        "│ n   │    t │  u   │",
        "├─────┼──────┼──────┤",
        "│ 1   │    x │  y   │",
        "│ 100 │ long │ more │",
        "╰─────┴──────┴──────╯",
    ]);
    assert_eq!(table.to_string(), wanted);
}

#[test]
fn any_text_may_be_a_header() {
    for header in ["2024", "a,b", "a=b", "0-1", "", "\x1b[1mbold\x1b[0m"] {
        let table = Table::new([["u", "v"]]).header(["x", header]);
        assert_eq!(
            table.clone().color(header, Color::Red).to_string(),
            table.clone().color(1, Color::Red).to_string()
        );
        assert_eq!(
            table.clone().columns([header]).to_string(),
            table.columns([1]).to_string()
        );
    }
    let table = Table::new([["u", "v"]]).header(["x", "\x1b[1mb\x1b[0m"]);
    let first = table.clone().columns(["b"]).to_string();
    assert_eq!(first, table.columns([1]).to_string());
    for header in ["x", "\x1b[1mx\x1b[0m"] {
        let once = Table::new([["u"]]).header([header]).to_string();
        for name in [header, "x"] {
            let twice = Table::new([["u", "v"]]).header([header, header]);
            assert_eq!(twice.columns([name]).to_string(), once);
        }
    }
    let exact = Table::new([["u", "v"]]).header(["\x1b[1mx\x1b[0m", "x"]);
    let second = exact.clone().columns([1]).to_string();
    assert_eq!(exact.columns(["x"]).to_string(), second);
}

#[test]
fn many_headers_that_are_named_take_no_long_time() {
    let header = |number: usize| format!("\x1b[1m{number}\x1b[0m");
    let many = 2000;
    let mut named = Table::new([vec![1; many]]).header((0..many).map(header));
    let mut numbered = named.clone();
    for number in 0..many {
        let name = number.to_string();
        named = named
            .align(name.as_str(), Align::Center)
            .color(name, Color::Red);
        numbered = numbered
            .align(number, Align::Center)
            .color(number, Color::Red);
    }
    let began = Instant::now();
    let wanted = numbered.render();
    let least = began.elapsed();
    assert_eq!(named.render(), wanted);
    let took = began.elapsed() - least;
    assert!(took < 2 * least + Duration::from_secs(1), "{took:?}");
}

#[test]
fn of_a_number_and_a_header_the_last_decides() {
    let table = Table::new([["u", "v"]]).header(["a", "b"]);
    let red = table.clone().color(1, Color::Red).to_string();
    let both = table.color("b", Color::Blue).color(1, Color::Red);
    assert_eq!(both.to_string(), red);
    let text = Table::csv("a,b\nu,v\n").color("b", Color::Blue);
    assert_eq!(text.color(1, Color::Red).to_string(), red);
}

#[test]
fn how_many_rows() {
    let table = Table::new([["p"], ["q"], ["r"], ["s"], ["t"]]).style(Style::Empty);
    for (some, wanted) in [
        (table.clone().max_rows(2), " p \n q \n(3 more rows)\n"),
        (table.clone().tail(2), " s \n t \n(3 earlier rows)\n"),
        (
            table.clone().max_rows(1).tail(1),
            " p \n … \n t \n(3 rows left out)\n",
        ),
        (table.clone().head(2), " p \n q \n"),
        (table.clone().head(0), ""),
        (table.clone().head(9), " p \n q \n r \n s \n t \n"),
    ] {
        assert_eq!(some.to_string(), wanted);
    }
    let headed = table.header(["a"]).head(1).to_string();
    assert_eq!(headed, " a \n p \n");
}

#[test]
fn rows_one_below_the_other() {
    let table = Table::new([["1", "x\ny"]]).header(["a", "name"]).expanded();
    let wanted = lines(&["-[ RECORD 0 ]-", "a    | 1", "name | x", "     | y"]);
    assert_eq!(table.to_string(), wanted);
}

#[test]
fn each_choice_of_escapes() {
    let table = Table::new([["\x1b[31mx\x1b]0;t\x07"]]).style(Style::Empty);
    assert_eq!(table.to_string(), " \x1b[31mx␛]0;t␇\x1b[39m \n");
    let none = table.clone().escapes(Escapes::None).to_string();
    assert_eq!(none, " ␛[31mx␛]0;t␇ \n");
    let all = table.escapes(Escapes::All).to_string();
    assert!(all.contains("\x1b]0;t\x07"));
}

#[test]
fn a_greatest_size() {
    let table = Table::new([["1", "2"]]).header(["a", "b"]);
    let size = two_by_two().len();
    assert_eq!(table.clone().max_size(size).render(), Ok(two_by_two()));
    assert_eq!(
        table.clone().max_size(usize::MAX).render(),
        Ok(two_by_two())
    );
    for less in [size - 1, 1, 0] {
        assert_eq!(
            table.clone().max_size(less).render(),
            Err(Error::OverMaxSize)
        );
    }
}

#[test]
fn a_table_of_many_times_its_cells() {
    let mut rows = vec![vec!["x".repeat(2000)]];
    rows.resize(501, vec![String::new()]);
    let table = Table::new(rows).style(Style::Empty).to_string();
    let wanted = format!(" {} \n", "x".repeat(2000)) + &format!("{:2002}\n", "").repeat(500);
    assert_eq!(table, wanted);
}

#[test]
fn texts_with_what_separates_their_fields() {
    for text in [
        "a,b\n1,2\n",
        "a;b\n1;2",
        "a\tb\n1\t2\n",
        "sep=|\na|b\n1|2\n",
    ] {
        assert_eq!(Table::csv(text).to_string(), two_by_two());
        assert_eq!(Table::csv(text.as_bytes()).to_string(), two_by_two());
    }
    let quoted = Table::csv("\"a\"\n\"1, \"\"2\"\"\n3\"\n").to_string();
    let cells = Table::new([["1, \"2\"\n3"]]).header(["a"]).to_string();
    assert_eq!(quoted, cells);
    let colons = Table::csv("a:b,c\n").delimiter(b':').no_header();
    let cells = Table::new([["a", "b,c"]]).to_string();
    assert_eq!(colons.to_string(), cells);
}

#[test]
fn a_head_of_a_text() {
    let text = "a\n1\n2\n";
    let one = Table::csv(text).head(1).to_string();
    assert_eq!(one, Table::csv("a\n1\n").to_string());
    assert_eq!(Table::csv(text).head(0).render(), Err(Error::Head));
}

#[test]
fn errors_of_cells_have_their_place() {
    let broken = Table::new([["a", "b"], ["c", "\x1b[31"]]);
    assert!(broken.to_string().contains("␛[31"));
    let broken = broken.escapes(Escapes::All);
    let place = Place::Cell { row: 1, column: 1 };
    assert_eq!(broken.render(), Err(Error::Escape(place)));
    assert_eq!(
        broken.clone().header(["x"]).render(),
        Err(Error::Escape(place))
    );
    let place = Place::Header { column: 1 };
    assert_eq!(
        broken.header(["x", "\x1b"]).render(),
        Err(Error::Escape(place))
    );
}

#[test]
fn errors_of_texts_have_their_place() {
    let place = Place::Field { line: 2, field: 2 };
    let bytes = Table::csv(&b"a,b\n1,\xff\n"[..]);
    assert_eq!(bytes.render(), Err(Error::NotUtf8(place)));
    let broken = Table::csv("a,b\n1,\x1b\n").escapes(Escapes::All);
    assert_eq!(broken.render(), Err(Error::Escape(place)));
    let open = Table::csv("a\n\"b");
    assert_eq!(open.render(), Err(Error::Quote { line: 2 }));
    for byte in [0, b'"', b'\n', b'\r', 128] {
        let table = Table::csv("a").delimiter(byte);
        assert_eq!(table.render(), Err(Error::Delimiter), "{byte}");
    }
}

#[test]
fn columns_that_there_are_not() {
    let missing = || Err(Error::NoColumn(Some("b".into())));
    for table in [Table::new([["x"]]).header(["a"]), Table::new([["x"]])] {
        assert_eq!(table.clone().color("b", Color::Red).render(), missing());
        assert_eq!(table.clone().align("b", Align::Left).render(), missing());
        assert_eq!(table.clone().columns(["b"]).render(), missing());
        for number in [1, usize::MAX] {
            let past = table.clone().columns([number]).render();
            assert_eq!(past, Err(Error::NoColumn(None)));
        }
        let none: [Column; 0] = [];
        assert_eq!(table.columns(none).render(), Err(Error::NoColumns));
    }
    let text = Table::csv("a\n").color("b", Color::Red);
    assert_eq!(text.render(), Err(Error::NoColumn(None)));
    for name in ["2024", "a,b", "a=b", "0-1", ""] {
        let text = Table::csv("a\n").color(name, Color::Red);
        assert_eq!(text.render(), Err(Error::Name(name.into())));
    }
}

#[test]
fn options_that_are_not_taken_together() {
    let table = Table::new([["a"]]);
    assert_eq!(table.clone().head(1).tail(1).render(), Err(Error::Head));
    let narrow = table.style(Style::Markdown).width(80);
    assert_eq!(narrow.render(), Err(Error::Markdown));
}

#[test]
fn each_error_has_a_text() {
    let cell = Place::Cell { row: 1, column: 2 };
    let field = Place::Field { line: 3, field: 4 };
    for (error, text) in [
        (Error::NotUtf8(field), "not UTF-8 in line 3, field 4"),
        (Error::Escape(cell), "broken escape in row 1, column 2"),
        (
            Error::Escape(Place::Header { column: 2 }),
            "broken escape in header 2",
        ),
        (
            Error::Quote { line: 3 },
            "a quote that is not closed in line 3",
        ),
        (
            Error::NoColumn(Some("b".into())),
            "no column has the header \"b\"",
        ),
        (
            Error::NoColumn(None),
            "columns, align or color names a column that there is not",
        ),
        (Error::NoColumns, "no columns are requested"),
        (
            Error::Name("2024".into()),
            "no list can name the column \"2024\": its number can",
        ),
        (
            Error::Head,
            "head is not taken with tail, and of a text it is at least 1",
        ),
        (
            Error::Delimiter,
            "a delimiter is a byte of ASCII, and no quote or end of a line",
        ),
        (Error::Markdown, "a table of Markdown takes no width"),
        (Error::Range, "size out of range"),
        (Error::Memory, "out of memory"),
        (
            Error::OverMaxSize,
            "the table has more bytes than it may have",
        ),
        (Error::Version(7), "the library has version number 7"),
        (Error::Status(8), "status 8"),
    ] {
        let boxed: Box<dyn std::error::Error + Send + Sync> = error.into();
        assert_eq!(boxed.to_string(), text);
    }
}

#[test]
#[should_panic]
fn to_string_panics_where_render_has_an_error() {
    let _ = Table::new([["\x1b"]]).escapes(Escapes::All).to_string();
}

#[test]
fn texts() {
    assert_eq!(
        (width(""), width("表 한"), width("\x1b[1ma\nbcd\x1b[0m")),
        (0, 5, 3)
    );
    assert_eq!(strip("\x1b[31mréd\x1b[0m"), Ok("réd".into()));
    assert_eq!(strip(""), Ok(String::new()));
}
