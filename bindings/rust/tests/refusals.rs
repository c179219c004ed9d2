//! What is refused, and what a refusal leaves.

use text_block_renderer::{render_script, Cell, Error, Options, Renderer, ScriptError};

#[test]
fn a_renderer_has_columns() {
    assert_eq!(Renderer::new(&Options::plain(0)).err(), Some(Error::BadWidth));
}

#[test]
fn an_end_needs_its_beginning() -> Result<(), Error> {
    let mut renderer = Renderer::new(&Options::plain(20))?;
    let ends = [
        Renderer::pop_ws,
        Renderer::pop_preformat,
        Renderer::end_link,
        Renderer::end_emphasis,
        Renderer::end_strong,
        Renderer::end_strikeout,
        Renderer::end_code,
        Renderer::end_superscript,
        Renderer::pop_colour,
        Renderer::pop_bgcolour,
        Renderer::end_cell,
        Renderer::end_quote,
        Renderer::end_item,
        |r: &mut Renderer| r.append_subrender("", ""),
        |r: &mut Renderer| r.end_ordered_item(1),
        |r: &mut Renderer| r.end_header(1),
    ];
    for end in ends {
        assert_eq!(end(&mut renderer), Err(Error::NothingToEnd));
    }
    renderer.add_inline_text("a")?;
    assert_eq!(renderer.into_string()?, "a\n");
    Ok(())
}

#[test]
fn what_began_outside_does_not_end_inside() -> Result<(), Error> {
    let mut renderer = Renderer::new(&Options::plain(20))?;
    renderer.start_emphasis()?;
    renderer.start_subrender(18)?;
    assert_eq!(renderer.end_emphasis(), Err(Error::NothingToEnd));
    assert_eq!(renderer.end_cell(), Err(Error::NothingToEnd));
    renderer.append_subrender("", "")?;
    renderer.end_emphasis()
}

#[test]
fn levels_and_cells_have_columns_and_rows() -> Result<(), Error> {
    let mut renderer = Renderer::new(&Options::plain(20))?;
    assert_eq!(renderer.start_subrender(0), Err(Error::BadWidth));
    assert_eq!(renderer.start_cell(0), Err(Error::BadWidth));
    assert_eq!(renderer.start_cell(Cell::new(1).span(0)), Err(Error::BadArgument));
    assert_eq!(renderer.depth(), Ok(0));
    Ok(())
}

#[test]
fn a_level_that_is_open_does_not_finish() -> Result<(), Error> {
    let mut renderer = Renderer::new(&Options::plain(20))?;
    renderer.start_subrender(18)?;
    assert_eq!(renderer.into_string(), Err(Error::StillOpen));

    let mut renderer = Renderer::new(&Options::plain(20))?;
    renderer.cell(5, |_| Ok(()))?;
    assert_eq!(renderer.waiting_cells(), Ok(1));
    assert!(matches!(renderer.into_lines(), Err(Error::StillOpen)));
    Ok(())
}

#[test]
fn a_row_that_does_not_fit_changes_nothing() -> Result<(), Error> {
    let mut renderer = Renderer::new(&Options::plain(9))?;
    renderer.cell(Cell::new(1).span(2), |cell| cell.add_inline_text("AB"))?;
    renderer.append_columns_with_borders(false)?;
    renderer.cell(1, |cell| cell.add_inline_text("x"))?;
    assert_eq!(renderer.append_columns_with_borders(false), Err(Error::RowDoesNotFit));
    assert_eq!(renderer.waiting_cells(), Ok(1));
    assert_eq!(renderer.failure(), None);
    Ok(())
}

#[test]
fn what_is_too_narrow_stays_so() -> Result<(), Error> {
    let mut renderer = Renderer::new(&Options::plain(1))?;
    renderer.add_inline_text("漢")?;
    assert_eq!(renderer.new_line(), Err(Error::TooNarrow));
    assert_eq!(renderer.add_inline_text("a"), Err(Error::TooNarrow));
    assert_eq!(renderer.failure(), Some(Error::TooNarrow));
    assert_eq!(renderer.into_string(), Err(Error::TooNarrow));

    let mut wider = Renderer::new(&Options::plain(1).allow_width_overflow(true))?;
    wider.add_inline_text("a漢b")?;
    assert_eq!(wider.into_string()?, "a\n漢\nb\n");
    Ok(())
}

#[test]
fn a_prefix_leaves_columns_or_is_too_wide() -> Result<(), Error> {
    let renderer = Renderer::new(&Options::plain(5))?;
    assert_eq!(renderer.width_minus(3, 4), Err(Error::TooNarrow));
    assert_eq!(renderer.width_minus(1, 4), Ok(4));
    assert_eq!(renderer.failure(), None);
    let wider = Renderer::new(&Options::plain(5).allow_width_overflow(true))?;
    assert_eq!(wider.width_minus(3, 4), Ok(4));
    Ok(())
}

#[test]
fn a_refusal_inside_a_level_is_told() -> Result<(), Error> {
    let mut renderer = Renderer::new(&Options::plain(9))?;
    let refused = renderer.subrender(5, "", "", |inside| inside.end_link());
    assert_eq!(refused, Err(Error::NothingToEnd));
    assert_eq!(renderer.depth(), Ok(1));
    Ok(())
}

#[test]
fn questions_are_of_the_innermost_level() -> Result<(), Error> {
    let mut renderer = Renderer::new(&Options::plain(9))?;
    assert_eq!(renderer.empty(), Ok(true));
    renderer.start_link("t")?;
    renderer.add_inline_text("a")?;
    assert_eq!((renderer.empty(), renderer.open_links(), renderer.width()), (Ok(false), Ok(1), Ok(9)));
    renderer.start_subrender(5)?;
    assert_eq!((renderer.empty(), renderer.open_links(), renderer.width()), (Ok(true), Ok(0), Ok(5)));
    assert_eq!(renderer.depth(), Ok(1));
    renderer.append_subrender("", "")?;
    renderer.cell(Cell::new(1).span(2), |cell| cell.add_inline_text("ab"))?;
    assert_eq!(renderer.has_overhang(), Ok(false));
    renderer.append_columns_with_borders(false)?;
    assert_eq!(renderer.has_overhang(), Ok(true));
    Ok(())
}

#[test]
fn a_script_is_refused_by_its_line() {
    let refused = |script: &[u8]| render_script(script).unwrap_err();
    let at = |line, error| ScriptError { line: Some(line), error };
    assert_eq!(refused(b""), at(1, Error::NotACommand));
    assert_eq!(refused(b"new 8 plain\nendcell\n"), at(2, Error::NothingToEnd));
    assert_eq!(refused("new 1 plain\ntext 漢\n".as_bytes()), ScriptError { line: None, error: Error::TooNarrow });
    assert_eq!(refused(b"new 8 plain\ntext \xff\n"), at(2, Error::NotACommand));
}

#[test]
fn a_script_may_be_longer_than_its_text_or_shorter() -> Result<(), ScriptError> {
    assert_eq!(render_script(b"new 8 plain\ntext Hello\n")?, "Hello\n");
    assert_eq!(render_script(b"new 40 plain\nborder\n")?, format!("{}\n", "─".repeat(40)));
    Ok(())
}

#[test]
fn errors_say_what_they_are() {
    let error: Box<dyn std::error::Error> = Box::new(Error::RowDoesNotFit);
    assert_eq!(error.to_string(), "row does not fit");
    let fault = ScriptError { line: Some(9), error: Error::RowDoesNotFit };
    assert_eq!(fault.to_string(), "line 9: row does not fit");
}
