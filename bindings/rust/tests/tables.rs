//! Tables that find their widths are what tables of the widths are that browsers give them.

use text_block_renderer::{
    measure, text_width, Cell, CellAlign, Error, Extent, Options, Renderer, TableCell, WhiteSpace,
};

const TEXTS: [[&str; 3]; 3] =
    [["Bread and butter", "3.20", "漢字"], ["Tea", "12.00", "a b"], ["a-very-long-word or two", "1", "x"]];

fn by_rule(of: fn(&str) -> usize) -> [usize; 3] {
    [0, 1, 2].map(|place| TEXTS.iter().map(|row| of(row[place])).max().unwrap())
}

fn line(text: &str) -> usize {
    text_width(text).unwrap()
}

fn word(text: &str) -> usize {
    text.split(' ').map(line).max().unwrap()
}

fn found(width: usize) -> Result<String, Error> {
    let mut page = Renderer::new(&Options::plain(width))?;
    page.table(|table| {
        TEXTS.iter().try_for_each(|texts| table.row(|row| texts.iter().try_for_each(|text| row.text((), text))))
    })?;
    page.into_string()
}

fn given(width: usize, columns: [usize; 3]) -> Result<String, Error> {
    let mut page = Renderer::new(&Options::plain(width))?;
    page.start_table()?;
    page.add_horizontal_border_width(columns.iter().sum::<usize>() + 2)?;
    for texts in TEXTS {
        for (text, width) in texts.iter().zip(columns) {
            page.cell(width, |cell| cell.add_inline_text(text))?;
        }
        page.append_columns_with_borders(true)?;
    }
    page.into_string()
}

#[test]
fn columns_are_as_wide_as_their_widest_lines_if_all_fit() {
    let columns = by_rule(line);
    let width = columns.iter().sum::<usize>() + 2;
    for width in [width, width + 9] {
        assert_eq!(found(width).unwrap(), given(width, columns).unwrap());
    }
}

#[test]
fn columns_are_as_wide_as_their_longest_words_if_only_these_fit() {
    let columns = by_rule(word);
    let width = columns.iter().sum::<usize>() + 2;
    assert_eq!(found(width).unwrap(), given(width, columns).unwrap());
}

#[test]
fn texts_and_cells_are_measured() {
    let extent = Extent { longest_word: 6, widest_line: 16 };
    assert_eq!(measure("Bread and butter", WhiteSpace::Normal), Ok(extent));
    let mut page = Renderer::new(&Options::plain(40)).unwrap();
    assert_eq!(page.measure_open(), Err(Error::NoTable));
    page.start_auto_table().unwrap();
    assert_eq!(page.measure_open(), Err(Error::InTable));
    page.start_auto_cell(CellAlign::Right).unwrap();
    page.add_inline_text("Bread and butter").unwrap();
    assert_eq!(page.measure_open(), Ok(extent));
}

#[test]
fn a_block_has_a_prefix_of_ones_own_in_a_cell() {
    let mut page = Renderer::new(&Options::plain(12)).unwrap();
    let done = page.table(|table| {
        table.row(|row| {
            row.cell((), |cell| cell.prefixed("漢 ", "   ", |item| item.add_inline_text("Tea or milk")))?;
            row.text((), "3")
        })
    });
    assert_eq!(done, Ok(()));
    assert_eq!(page.prefixed(&"x".repeat(12), "", |_| Ok(())), Err(Error::TooNarrow));
    assert_eq!(page.into_string().unwrap(), "──────────┬─\n漢 Tea or │3\n   milk   │ \n──────────┴─\n");
}

#[test]
fn what_ends_has_to_be_innermost() {
    let mut page = Renderer::new(&Options::plain(40)).unwrap();
    assert_eq!(page.start_auto_cell(()), Err(Error::NoTable));
    assert_eq!(page.end_auto_table(), Err(Error::NothingToEnd));
    page.start_auto_table().unwrap();
    assert_eq!(page.add_inline_text("outside of cells"), Err(Error::InTable));
    assert_eq!(page.width(), Err(Error::InTable));
    assert_eq!(page.cell(Cell::new(3), |_| Ok(())), Err(Error::InTable));
    page.start_auto_cell(TableCell::default().columns(2).rows(2)).unwrap();
    assert_eq!(page.end_auto_row(), Err(Error::NothingToEnd));
    assert_eq!(page.end_strong(), Err(Error::NothingToEnd));
    page.add_inline_text("kept").unwrap();
    page.end_auto_cell().unwrap();
    assert_eq!(page.end_auto_table(), Err(Error::StillOpen));
    page.end_auto_row().unwrap();
    page.end_auto_table().unwrap();
    assert_eq!(page.depth(), Ok(0));
    assert!(page.into_string().unwrap().contains("kept"));
}

#[test]
fn a_refusal_in_a_cell_ends_the_table() {
    let mut page = Renderer::new(&Options::plain(40)).unwrap();
    let done = page.table(|table| {
        table.row(|row| {
            row.cell((), |cell| {
                cell.add_inline_text("some")?;
                cell.end_link()
            })
        })
    });
    assert_eq!(done, Err(Error::NothingToEnd));
    assert_eq!(page.into_string().unwrap(), "────\nsome\n────\n");
}
