//! What comes out of the renderer. The texts are those of docs/SCRIPT.md, where the same calls are lines of a script.

use text_block_renderer::{
    render_script, render_script_raw, text_width, Cell, CellAlign, Colour, Error, Format, ImageRenderMode, Options,
    Renderer, RichAnnotation, ScriptError, TaggedLine, TaggedLineElement, WhiteSpace,
};

type Tested = Result<(), Error>;

/// What calls on a renderer give.
fn rendered(options: Options, calls: impl FnOnce(&mut Renderer) -> Tested) -> Result<String, Error> {
    let mut renderer = Renderer::new(&options)?;
    calls(&mut renderer)?;
    renderer.into_string()
}

/// What calls on a renderer give, as lines.
fn lines(options: Options, calls: impl FnOnce(&mut Renderer) -> Tested) -> Result<Vec<TaggedLine>, Error> {
    let mut renderer = Renderer::new(&options)?;
    calls(&mut renderer)?;
    renderer.into_lines()?.collect()
}

#[test]
fn words_go_on_the_line_or_are_cut() -> Tested {
    let text = rendered(Options::plain(8), |r| r.add_inline_text("Hello, world.  Superlongwordreally"))?;
    assert_eq!(text, "Hello,\nworld.\nSuperlon\ngwordrea\nlly\n");
    Ok(())
}

#[test]
fn texts_come_with_all_their_characters() -> Tested {
    let text = rendered(Options::plain(5), |r| r.add_inline_text("漢字漢字 cafe\u{301}!"))?;
    assert_eq!(text, "漢字\n漢字\ncafe\u{301}!\n");
    Ok(())
}

#[test]
fn a_text_has_a_width() -> Tested {
    for (text, width) in [("", 0), ("a b", 3), ("  ", 2), (" a ", 3), ("漢字", 4), ("a\tb\n\u{200b}c", 3)] {
        assert_eq!(text_width(text)?, width, "{text:?}");
    }
    Ok(())
}

#[test]
fn a_nul_is_a_character_like_others() -> Tested {
    let lines = lines(Options::plain(20), |r| {
        r.record_frag_start("a\0b")?;
        r.add_inline_text("be\0ll")
    })?;
    assert_eq!(lines[0].to_string(), "bell");
    assert_eq!(lines[0].iter().next(), Some(&TaggedLineElement::FragmentStart("a\0b".to_owned())));
    Ok(())
}

/// A document with control characters in the prefixes of a block and in the target of a link.
fn with_controls(r: &mut Renderer) -> Tested {
    r.start_subrender(9)?;
    r.start_link("\u{1b}]0;x\u{7}")?;
    r.add_inline_text("here")?;
    r.end_link()?;
    r.append_subrender("\u{9b}\n", "")
}

#[test]
fn no_control_character_comes_out() -> Tested {
    let options = Options::rich(20).include_link_footnotes(true);
    assert_eq!(rendered(options, with_controls)?, "%C2%9B%0Ahere[1]\n\n[1]: %1B]0;x%07\n");
    assert_eq!(rendered(options.raw(true), with_controls)?, "\u{9b}\nhere[1]\n\n[1]: \u{1b}]0;x\u{7}\n");
    let lines = lines(options, with_controls)?;
    let piece = lines[0].tagged_strings().nth(1).unwrap();
    assert_eq!(piece.tag, [RichAnnotation::Link("\u{1b}]0;x\u{7}".to_owned())]);
    Ok(())
}

#[test]
fn no_control_character_of_a_script_comes_out() -> Result<(), ScriptError> {
    let script = b"new 20 plain\nsub 9\ntext a\nappend \\u{1b}\\n | \n";
    assert_eq!(render_script(script)?, "%1B%0Aa\n");
    assert_eq!(render_script_raw(script)?, "\u{1b}\na\n");
    Ok(())
}

#[test]
fn lines_are_shown_in_formats() -> Tested {
    let shown = |options: Options, format| {
        let mut renderer = Renderer::new(&options)?;
        renderer.link("https://example.org/\u{1b}", |link| link.add_inline_text("a < b"))?;
        renderer.into_string_as(format)
    };
    let ansi = "\u{1b}[4m\u{1b}]8;;https://example.org/%1B\u{1b}\\a < b\u{1b}]8;;\u{1b}\\\u{1b}[24m\n";
    let json = concat!(
        r#"{"border":false,"columns":5,"pieces":[{"text":"a < b","columns":5,"annotations":"#,
        r#"[{"kind":"link","target":"https://example.org/\u001b"}]}]}"#,
        "\n"
    );
    assert_eq!(shown(Options::rich(20), Format::Text)?, "a < b\n");
    assert_eq!(shown(Options::rich(20), Format::Ansi)?, ansi);
    assert_eq!(shown(Options::rich(20), Format::Html)?, "<a href=\"https://example.org/%1B\">a &lt; b</a>\n");
    assert_eq!(shown(Options::rich(20), Format::Json)?, json);
    assert_eq!(shown(Options::plain(20), Format::Html)?, "[a &lt; b]\n");
    Ok(())
}

#[test]
fn lines_are_shown_one_by_one() -> Tested {
    let mut renderer = Renderer::new(&Options::rich(20))?;
    renderer.emphasis(|text| text.add_inline_text("a"))?;
    renderer.new_line()?;
    renderer.add_inline_text("b")?;
    let mut lines = renderer.into_lines()?;
    assert_eq!(lines.line_as(Format::Html), Err(Error::NoLine));
    assert_eq!(lines.text_as(Format::Html)?, "<em>a</em>\nb\n");
    assert_eq!(lines.next().unwrap()?.to_string(), "a");
    assert_eq!(lines.line_as(Format::Html)?, "<em>a</em>");
    assert_eq!(lines.text_as(Format::Html)?, "b\n");
    Ok(())
}

#[test]
fn blocks_stand_apart() -> Tested {
    let text = rendered(Options::plain(20), |r| {
        r.add_inline_text("First block")?;
        r.start_block()?;
        r.add_inline_text("second block,")?;
        r.new_line()?;
        r.add_inline_text("on a line of its own")?;
        r.end_block()?;
        r.add_inline_text(" and a third.")
    })?;
    assert_eq!(text, "First block\n\nsecond block,\non a line of its own\n\nand a third.\n");
    Ok(())
}

#[test]
fn hard_lines_and_empty_lines() -> Tested {
    let text = rendered(Options::plain(20), |r| {
        r.add_inline_text("above")?;
        r.new_line_hard()?;
        r.new_line_hard()?;
        r.add_inline_text("below")?;
        r.add_empty_line()?;
        r.add_inline_text("last")
    })?;
    assert_eq!(text, "above\n\nbelow\n\nlast\n");
    Ok(())
}

#[test]
fn borders_have_a_width() -> Tested {
    let text = rendered(Options::plain(12), |r| {
        r.add_inline_text("Above")?;
        r.add_horizontal_border()?;
        r.add_inline_text("between")?;
        r.add_horizontal_border_width(5)?;
        r.add_inline_text("below")
    })?;
    assert_eq!(text, "Above\n────────────\nbetween\n─────\nbelow\n");
    Ok(())
}

#[test]
fn levels_lie_within_one_another() -> Tested {
    let text = rendered(Options::plain(8), |r| {
        r.subrender(6, "> ", "> ", |quote| quote.subrender(4, "- ", "  ", |item| item.add_inline_text("a b c d")))
    })?;
    assert_eq!(text, "> - a b\n>   c d\n");
    Ok(())
}

#[test]
fn cells_span_rows_and_are_aligned() -> Tested {
    let price = |text: &'static str| move |cell: &mut Renderer| cell.add_inline_text(text);
    let text = rendered(Options::plain(36), |r| {
        r.add_horizontal_border_width(24)?;
        r.cell(Cell::new(16).span(2), |cell| cell.add_inline_text("Bread, a dark loaf and a white one"))?;
        r.cell(Cell::new(7).align(CellAlign::Right), price("3.20"))?;
        r.append_columns_with_borders(false)?;
        r.cell(16, |_| Ok(()))?;
        r.cell(Cell::new(7).align(CellAlign::Right), price("2.80"))?;
        r.append_columns_with_borders(false)
    })?;
    let expected = "────────────────┬───────\n\
                    Bread, a dark   │   3.20\n\
                    loaf and a white├───────\n\
                    one             │   2.80\n\
                    ────────────────┴───────\n";
    assert_eq!(text, expected);
    Ok(())
}

#[test]
fn a_table_in_a_table_collapses() -> Tested {
    let text = rendered(Options::plain(5), |r| {
        r.add_horizontal_border()?;
        r.cell(3, |cell| {
            cell.add_horizontal_border()?;
            cell.cell(1, |inner| inner.add_inline_text("1"))?;
            cell.cell(1, |inner| inner.add_inline_text("2"))?;
            cell.append_columns_with_borders(false)
        })?;
        r.cell(1, |cell| cell.add_inline_text("xy"))?;
        r.append_columns_with_borders(true)
    })?;
    assert_eq!(text, "─┬─┬─\n1│2│x\n │ │y\n─┴─┴─\n");
    Ok(())
}

#[test]
fn cells_stand_one_below_another() -> Tested {
    let text = rendered(Options::plain(12), |r| {
        r.cell(12, |cell| cell.add_inline_text("Name"))?;
        r.cell(12, |cell| cell.add_inline_text("Maya Lindqvist"))?;
        r.append_vert_row()
    })?;
    assert_eq!(text, "Name\n////////////\nMaya\nLindqvist\n────────────\n");
    Ok(())
}

#[test]
fn white_space_is_kept_where_a_mode_says_so() -> Tested {
    let text = rendered(Options::plain(20), |r| {
        r.push_ws(WhiteSpace::Pre)?;
        r.add_inline_text("foo\nbar\nwib   asdf;\n")?;
        r.pop_ws()?;
        r.add_inline_text("and as usual")
    })?;
    assert_eq!(text, "foo\nbar\nwib   asdf;\nand as usual\n");
    Ok(())
}

#[test]
fn decorators_show_stretches() -> Tested {
    let calls = |r: &mut Renderer| {
        r.add_inline_text("See ")?;
        r.start_link("https://example.org")?;
        r.add_inline_text("the rules")?;
        r.end_link()?;
        r.add_inline_text(" of x")?;
        r.start_superscript()?;
        r.add_inline_text("2")?;
        r.end_superscript()?;
        r.add_inline_text(".")
    };
    assert_eq!(rendered(Options::plain(30), calls)?, "See [the rules] of x^{2}.\n");
    assert_eq!(rendered(Options::trivial(30), calls)?, "See the rules of x^{2}.\n");
    Ok(())
}

#[test]
fn struck_out_text_has_strokes() -> Tested {
    let calls = |r: &mut Renderer| {
        r.start_strikeout()?;
        r.add_inline_text("a rat")?;
        r.end_strikeout()
    };
    assert_eq!(rendered(Options::plain(20), calls)?, "a\u{336} \u{336}r\u{336}a\u{336}t\u{336}\n");
    assert_eq!(rendered(Options::plain(20).use_unicode_strikeout(false), calls)?, "a rat\n");
    Ok(())
}

#[test]
fn links_have_footnotes() -> Tested {
    let calls = |r: &mut Renderer| {
        r.start_link("https://example.org/a/long/way")?;
        r.add_inline_text("A long way")?;
        r.end_link()
    };
    let options = Options::plain(20).include_link_footnotes(true);
    assert_eq!(rendered(options, calls)?, "[A long way][1]\n\n[1]: https://example\n.org/a/long/way\n");
    let uncut = rendered(options.wrap_links(false), calls)?;
    assert_eq!(uncut, "[A long way][1]\n\n[1]: https://example.org/a/long/way\n");
    Ok(())
}

#[test]
fn images_show_titles() -> Tested {
    let untitled = |r: &mut Renderer| r.add_image("cats/tom.png", "");
    assert_eq!(rendered(Options::plain(30), |r| r.add_image("cats/tom.png", "Tom the cat"))?, "[Tom the cat]\n");
    assert_eq!(rendered(Options::plain(30), untitled)?, "");
    assert_eq!(rendered(Options::plain(30).img_mode(ImageRenderMode::ShowAlways), untitled)?, "[]\n");
    assert_eq!(rendered(Options::plain(30).img_mode(ImageRenderMode::Filename), untitled)?, "[tom.png]\n");
    Ok(())
}

#[test]
fn lines_are_wrapped_padded_and_undrawn() -> Tested {
    let text = "A line of forty columns is hard to read beside others.";
    let wrapped = rendered(Options::plain(40).wrap_width(20), |r| r.add_inline_text(text))?;
    assert_eq!(wrapped, "A line of forty\ncolumns is hard to\nread beside others.\n");
    assert_eq!(rendered(Options::plain(4).pad_block_width(true), |r| r.add_inline_text("a"))?, "a   \n");
    let undrawn = rendered(Options::plain(9).draw_borders(false), |r| {
        r.cell(Cell::new(3).align(CellAlign::Right), |cell| cell.add_inline_text("a"))?;
        r.cell(Cell::new(5).align(CellAlign::Centre), |cell| cell.add_inline_text("bc"))?;
        r.append_columns_with_borders(false)
    })?;
    assert_eq!(undrawn, "  a  bc  \n");
    Ok(())
}

#[test]
fn the_decorator_has_prefixes() -> Tested {
    let plain = Renderer::new(&Options::plain(20))?;
    assert_eq!(plain.header_prefix(3)?, "### ");
    assert_eq!(plain.header_prefix(40)?, format!("{} ", "#".repeat(40)));
    assert_eq!(plain.quote_prefix()?, "> ");
    assert_eq!(plain.unordered_item_prefix()?, "* ");
    assert_eq!(plain.ordered_item_prefix(-1)?, "-1. ");
    assert_eq!(Renderer::new(&Options::trivial(20))?.quote_prefix()?, "");
    assert_eq!(Renderer::new(&Options::rich(20))?.header_prefix(0)?, " ");
    Ok(())
}

#[test]
fn pieces_have_annotations() -> Tested {
    let orange = Colour { r: 255, g: 128, b: 0 };
    let lines = lines(Options::rich(30), |r| {
        r.add_inline_text("see ")?;
        r.start_link("https://example.org/ü")?;
        r.start_emphasis()?;
        r.add_inline_text("here")?;
        r.end_emphasis()?;
        r.end_link()?;
        r.push_colour(orange)?;
        r.push_bgcolour(Colour::default())?;
        r.add_inline_text("it is")?;
        r.pop_bgcolour()?;
        r.pop_colour()
    })?;
    let link = RichAnnotation::Link("https://example.org/ü".to_owned());
    let colours = [RichAnnotation::Colour(orange), RichAnnotation::BgColour(Colour::default())];
    let pieces: Vec<_> = lines[0].tagged_strings().map(|piece| (piece.s.as_str(), piece.tag.as_slice())).collect();
    assert_eq!(
        pieces,
        [("see ", [].as_slice()), ("here", &[link, RichAnnotation::Emphasis]), ("it is", colours.as_slice())]
    );
    assert_eq!(lines.len(), 1);
    assert_eq!(lines[0].width(), 13);
    Ok(())
}

#[test]
fn each_kind_of_stretch_has_its_annotation() -> Tested {
    let lines = lines(Options::rich(40), |r| {
        r.start_strong()?;
        r.start_code()?;
        r.add_inline_text("a")?;
        r.end_code()?;
        r.end_strong()?;
        r.start_strikeout()?;
        r.add_inline_text("b")?;
        r.end_strikeout()?;
        r.add_image("c.png", "c")?;
        r.start_superscript()?;
        r.end_superscript()
    })?;
    let tags: Vec<_> = lines[0].tagged_strings().map(|piece| piece.tag.clone()).collect();
    let image = RichAnnotation::Image("c.png".to_owned());
    assert_eq!(
        tags,
        [
            vec![RichAnnotation::Strong, RichAnnotation::Code],
            vec![RichAnnotation::Strikeout],
            vec![image],
            vec![RichAnnotation::Default],
        ]
    );
    Ok(())
}

#[test]
fn a_preformatted_line_that_goes_on_says_so() -> Tested {
    let lines = lines(Options::rich(3), |r| {
        r.push_ws(WhiteSpace::Pre)?;
        r.push_preformat()?;
        r.add_inline_text("abcd")?;
        r.pop_preformat()?;
        r.pop_ws()
    })?;
    let tags: Vec<_> = lines.iter().flat_map(TaggedLine::tagged_strings).map(|piece| piece.tag.as_slice()).collect();
    assert_eq!(tags, [[RichAnnotation::Preformat(false)], [RichAnnotation::Preformat(true)]]);
    Ok(())
}

#[test]
fn markers_stand_between_the_words() -> Tested {
    let lines = lines(Options::plain(3), |r| {
        r.add_inline_text("ab ")?;
        r.record_frag_start("x")?;
        r.add_inline_text("cde")
    })?;
    let texts: Vec<_> = lines.iter().map(TaggedLine::to_string).collect();
    assert_eq!(texts, ["ab", "cde"]);
    assert_eq!(lines[1].iter().next(), Some(&TaggedLineElement::FragmentStart("x".to_owned())));
    assert!(matches!(lines[0].iter().next(), Some(TaggedLineElement::Str(_))));
    Ok(())
}

#[test]
fn lines_that_were_taken_are_not_in_the_text() -> Tested {
    let mut renderer = Renderer::new(&Options::plain(5))?;
    renderer.add_inline_text("one two three")?;
    let mut lines = renderer.into_lines()?;
    assert_eq!(lines.next().unwrap()?.to_string(), "one");
    assert_eq!(lines.text()?, "two\nthree\n");
    assert_eq!(lines.by_ref().count(), 2);
    assert!(lines.next().is_none());
    assert_eq!(lines.text()?, "");
    Ok(())
}

#[test]
fn an_empty_line_and_a_border_are_told_apart() -> Tested {
    let lines = lines(Options::plain(4), |r| {
        r.add_empty_line()?;
        r.add_horizontal_border()
    })?;
    let seen: Vec<_> = lines.iter().map(|line| (line.to_string(), line.width(), line.is_border())).collect();
    assert_eq!(seen, [(String::new(), 0, false), ("────".to_owned(), 4, true)]);
    Ok(())
}
