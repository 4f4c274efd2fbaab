//! A page in a real browser, where one is installed.

use super::days::place;
use std::fs::{self, File};
use std::process::{Child, Command, Stdio};
use std::thread::sleep;
use std::time::{Duration, Instant};

const BROWSERS: [&str; 3] = ["chromium", "chromium-browser", "google-chrome"];
const PATIENCE: Duration = Duration::from_secs(180);
/// A browser's window has a least width, so a page is looked at in a frame.
const WIDTHS: [u32; 2] = [390, 1280];

/// What a browser says of a page in a frame of a width.
#[derive(Debug)]
pub struct Seen {
    pub width: u32,
    /// How wide the page would be, to be seen without scrolling.
    pub needed: u32,
    /// Elements that reach out of the page, but for those in a table's own
    /// container.
    pub outside: u32,
    /// Elements that have no height, but for those that are empty.
    pub flat: u32,
    /// Tables that scroll in their own container.
    pub scrolling: u32,
    pub rows: u32,
    /// Whether the text that was looked for is there to be read.
    pub is_read: bool,
}

/// The name of a browser that is installed.
pub fn installed() -> Option<&'static str> {
    BROWSERS.into_iter().find(|name| {
        let version = Command::new(name).arg("--version").output();
        version.is_ok_and(|output| output.status.success())
    })
}

/// Loads a page at both widths, and looks for a text in it.
pub fn look(browser: &str, name: &str, page: &str, text: &str) -> Vec<Seen> {
    let frames = place(&format!("{name}.html"));
    fs::write(&frames, frames_of(page, text)).expect("the frames are written");
    let loaded = load(browser, name, &frames);
    let said = loaded.split("<title>").nth(1).expect("a title");
    let said = said.split("</title>").next().expect("a title's end");
    said.split(';').map(seen).collect()
}

fn seen(said: &str) -> Seen {
    let numbers: Vec<u32> = said
        .split(',')
        .map(|number| number.parse().unwrap_or_else(|_| panic!("{said:?}")))
        .collect();
    let &[width, needed, outside, flat, scrolling, rows, is_read] = &numbers[..] else {
        panic!("{said:?}");
    };
    Seen {
        width,
        needed,
        outside,
        flat,
        scrolling,
        rows,
        is_read: is_read == 1,
    }
}

/// A document with the page in a frame of each width, which says in its title
/// what it sees.
fn frames_of(page: &str, text: &str) -> String {
    let quoted = |text: &str| text.replace('&', "&amp;").replace('"', "&quot;");
    let frames = WIDTHS.map(|width| {
        let page = quoted(page);
        format!(
            "<iframe style=\"width:{width}px;height:2000px;border:0\" srcdoc=\"{page}\"></iframe>"
        )
    });
    format!(
        "<!DOCTYPE html><html><head><meta charset=\"utf-8\"><title>waiting</title></head>\
         <body data-text=\"{}\">{}<script>{LOOK}</script></body></html>",
        quoted(text),
        frames.concat()
    )
}

const LOOK: &str = "
addEventListener('load', () => {
  const text = document.body.dataset.text;
  document.title = [...document.querySelectorAll('iframe')].map(frame => {
    const page = frame.contentDocument, width = frame.clientWidth;
    const shown = [...page.body.querySelectorAll('*')].filter(each => !each.closest('details:not([open])'));
    const box = each => each.getBoundingClientRect();
    const outside = shown.filter(each => !each.closest('.w') || each.matches('.w'))
      .filter(each => box(each).left < -0.5 || box(each).right > width + 0.5);
    const flat = shown.filter(each => each.innerText && box(each).height < 1);
    const scrolling = [...page.querySelectorAll('.w')].filter(each => each.scrollWidth > each.clientWidth);
    return [width, page.documentElement.scrollWidth, outside.length, flat.length, scrolling.length,
      page.querySelectorAll('tr').length, Number(page.body.innerText.includes(text))].join();
  }).join(';');
});
";

/// The document that a browser makes of a file.
fn load(browser: &str, name: &str, file: &std::path::Path) -> String {
    let (output, profile) = (
        place(&format!("{name}.dom")),
        place(&format!("{name}.profile")),
    );
    let mut address = std::ffi::OsString::from("file://");
    address.push(file);
    let browsing = Command::new(browser)
        .args([
            "--headless",
            "--no-sandbox",
            "--disable-gpu",
            "--hide-scrollbars",
        ])
        .args(["--window-size=1800,2200", "--dump-dom"])
        .arg(format!("--user-data-dir={}", profile.display()))
        .arg(address)
        .stdout(File::create(&output).expect("a file for the document"))
        .stderr(Stdio::null())
        .spawn()
        .expect("the browser starts");
    wait(browsing);
    let _ = fs::remove_dir_all(profile);
    fs::read_to_string(output).expect("a document")
}

fn wait(mut browsing: Child) {
    let start = Instant::now();
    while browsing.try_wait().expect("the browser runs").is_none() {
        if start.elapsed() > PATIENCE {
            let _ = browsing.kill();
            let _ = browsing.wait();
            panic!("the browser did not end");
        }
        sleep(Duration::from_millis(50));
    }
}
