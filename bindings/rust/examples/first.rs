//! The first program of the README.

use text_block_renderer::{CellAlign, Options, Renderer};

fn main() -> Result<(), text_block_renderer::Error> {
    let mut renderer = Renderer::new(&Options::plain(24))?;
    renderer.add_inline_text("The baker sells, from nine to noon on Sundays:")?;
    renderer.table(|table| {
        for (article, price) in [("A dark loaf", "3.20"), ("A cake", "12.00")] {
            table.row(|row| {
                row.text((), article)?;
                row.text(CellAlign::Right, price)
            })?;
        }
        Ok(())
    })?;
    print!("{}", renderer.into_string()?);
    Ok(())
}
