//! Renderers and their lines go from thread to thread.

use std::thread;
use text_block_renderer::{Error, Lines, Options, Renderer};

/// It compiles only where both may be sent.
const _: () = {
    const fn is_sent<T: Send>() {}
    is_sent::<Renderer>();
    is_sent::<Lines>();
};

/// What a thread answers. A panic in it is one here.
fn on_another_thread<T: Send>(calls: impl FnOnce() -> T + Send) -> T {
    thread::scope(|scope| scope.spawn(calls).join()).unwrap()
}

#[test]
fn a_renderer_goes_on_on_another_thread() -> Result<(), Error> {
    let mut renderer = Renderer::new(&Options::rich(20))?;
    renderer.start_link("https://example.org")?;
    renderer.add_inline_text("one two ")?;
    let lines = on_another_thread(move || {
        renderer.start_emphasis()?;
        renderer.add_inline_text("three four five")?;
        renderer.into_lines()
    })?;
    let texts = on_another_thread(move || lines.map(|line| Ok(line?.to_string())).collect::<Result<Vec<_>, Error>>())?;
    assert_eq!(texts, ["one two three four", "five"]);
    Ok(())
}

#[test]
fn each_thread_has_its_own() {
    let render = || -> Result<String, Error> {
        let mut renderer = Renderer::new(&Options::plain(8))?;
        renderer.add_inline_text(&"Hello, world. ".repeat(200))?;
        renderer.into_string()
    };
    thread::scope(|scope| {
        let threads: Vec<_> = (0..4).map(|_| scope.spawn(render)).collect();
        for thread in threads {
            assert_eq!(thread.join().unwrap(), Ok("Hello,\nworld.\n".repeat(200)));
        }
    });
}
