//! The report.

use text_block_renderer::{measure, CellAlign, Error, Options, Renderer, Table, WhiteSpace};

/// A title, a table of records, of which the first has the headings, and how many there are. Where the columns don't
/// fit the width, the fields of each record come one below another.
pub fn report(title: &str, records: &[Vec<String>], width: usize) -> Result<String, Error> {
    let mut page = Renderer::new(&Options::plain(width).draw_borders(false).allow_width_overflow(true))?;
    page.header(1, |header| header.add_inline_text(title))?;
    if let Some((headings, records)) = records.split_first() {
        let count = records.iter().map(Vec::len).max().unwrap_or(0).max(headings.len());
        let columns: Vec<Column> =
            (0..count).map(|place| Column::of(headings, records, place)).collect::<Result<_, _>>()?;
        if columns.iter().map(|column| column.least).sum::<usize>() + count - 1 <= width {
            page.table(|table| beside(table, headings, records, &columns))?;
        } else {
            below(&mut page, headings, records)?;
        }
        page.start_block()?;
        page.add_inline_text(&format!("{} records", records.len()))?;
    }
    page.into_string()
}

/// A column of a table.
struct Column {
    /// The columns of its longest word.
    least: usize,
    /// At the right if all fields except the heading are numbers.
    align: CellAlign,
}

impl Column {
    fn of(headings: &[String], records: &[Vec<String>], place: usize) -> Result<Column, Error> {
        let fields = || records.iter().map(|record| field(record, place));
        let mut least = 1;
        for field in fields().chain([field(headings, place)]) {
            least = least.max(measure(field, WhiteSpace::Normal)?.longest_word);
        }
        let is_right = fields().filter(|field| !field.is_empty()).all(is_number);
        Ok(Column { least, align: if is_right { CellAlign::Right } else { CellAlign::Left } })
    }
}

fn is_number(field: &str) -> bool {
    field.contains(|c: char| c.is_ascii_digit()) && field.chars().all(|c| c.is_ascii_digit() || "+-.,%".contains(c))
}

/// A field of a record, which ends with empty ones.
fn field(record: &[String], place: usize) -> &str {
    record.get(place).map_or("", String::as_str)
}

/// A row of headings and a row for each record, between rules.
fn beside(
    table: &mut Table<'_>,
    headings: &[String],
    records: &[Vec<String>],
    columns: &[Column],
) -> Result<(), Error> {
    row(table, headings, columns)?;
    rule(table, columns)?;
    records.iter().try_for_each(|record| row(table, record, columns))?;
    rule(table, columns)
}

fn row(table: &mut Table<'_>, record: &[String], columns: &[Column]) -> Result<(), Error> {
    table.row(|row| {
        columns.iter().enumerate().try_for_each(|(place, column)| row.text(column.align, field(record, place)))
    })
}

/// A border in each column.
fn rule(table: &mut Table<'_>, columns: &[Column]) -> Result<(), Error> {
    table.row(|row| columns.iter().try_for_each(|_| row.cell((), Renderer::add_horizontal_border)))
}

/// A block for each record, in which each field comes after its heading.
fn below(page: &mut Renderer, headings: &[String], records: &[Vec<String>]) -> Result<(), Error> {
    for record in records {
        page.start_block()?;
        for (place, text) in record.iter().enumerate() {
            page.add_inline_text(&format!("{}: {text}", field(headings, place)))?;
            page.new_line()?;
        }
    }
    Ok(())
}
