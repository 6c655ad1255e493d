//! Compares the parts of a sample with the stored ones, and the text of the page with the sample.
//! If a Chromium is found, the text that it shows is compared too.

use std::fs;
use std::process::Command;

fn highlight(words: &[&str]) -> String {
    let output = Command::new(env!("CARGO_BIN_EXE_highlight")).args(words).output().expect("the program runs");
    assert!(output.status.success());
    String::from_utf8(output.stdout).expect("a page is text")
}

fn plain(html: &str) -> String {
    let mut text = String::new();
    for (number, part) in html.split('<').enumerate() {
        text.push_str(if number == 0 { part } else { part.split_once('>').expect("a tag ends").1 });
    }
    text.replace("&quot;", "\"").replace("&gt;", ">").replace("&lt;", "<").replace("&amp;", "&")
}

fn body(page: &str) -> &str {
    let from = page.find("<pre>\n").expect("a page has a body") + 6;
    &page[from..page.find("</pre>").expect("a body ends")]
}

#[test]
fn each_part_has_its_kind() {
    let page = highlight(&["data/sample.rs.txt"]);
    let found: Vec<String> = body(&page)
        .split("<span class=\"")
        .skip(1)
        .map(|part| {
            let (class, rest) = part.split_once("\">").expect("a class");
            format!("{class}\t{}", plain(rest.split("</span>").next().unwrap_or("")).replace('\n', "⏎"))
        })
        .collect();
    let wanted = fs::read_to_string("data/sample.parts").unwrap();
    assert_eq!(found, wanted.lines().collect::<Vec<_>>());
}

#[test]
fn the_page_has_all_of_the_source() {
    for path in ["data/sample.rs.txt", "src/paint.rs", "src/lexer.rs", "tests/output.rs"] {
        assert_eq!(plain(body(&highlight(&[path]))), fs::read_to_string(path).unwrap(), "{path}");
    }
}

/// Returns the name of a Chromium, if one is found.
fn browser() -> Option<&'static str> {
    ["chromium", "chromium-browser", "google-chrome"]
        .into_iter()
        .find(|name| Command::new(name).arg("--version").output().is_ok_and(|output| output.status.success()))
}

/// Returns a text as `encodeURIComponent` of a browser encodes it.
fn encoded(text: &str) -> String {
    let plain = |byte: u8| byte.is_ascii_alphanumeric() || b"-_.!~*'()".contains(&byte);
    text.bytes().map(|byte| if plain(byte) { char::from(byte).to_string() } else { format!("%{byte:02X}") }).collect()
}

#[test]
fn a_browser_shows_all_of_the_source() {
    let Some(browser) = browser() else {
        eprintln!("there is no Chromium here, so no page was shown");
        return;
    };
    let script = "<script>document.body.textContent = encodeURIComponent(document.querySelector('pre').textContent)</script></body>";
    let page = concat!(env!("CARGO_TARGET_TMPDIR"), "/page.html");
    fs::write(page, highlight(&["data/sample.rs.txt"]).replace("</body>", script)).unwrap();
    let output = Command::new(browser)
        .args(["--headless", "--no-sandbox", "--disable-gpu", "--dump-dom"])
        .arg(format!("file://{page}"))
        .output()
        .expect("the browser runs");
    let shown = String::from_utf8(output.stdout).expect("a page is text");
    let wanted = encoded(&fs::read_to_string("data/sample.rs.txt").unwrap());
    let text = shown.split_once("<body>").and_then(|(_, rest)| rest.split_once("</body>")).map(|(text, _)| text.trim());
    assert_eq!(text, Some(wanted.as_str()), "{shown}");
}

#[test]
fn without_its_colours_a_terminal_has_all_of_the_source() {
    let mut text = String::new();
    for (number, part) in highlight(&["--ansi", "src/paint.rs"]).split('\x1B').enumerate() {
        text.push_str(if number == 0 { part } else { part.split_once('m').expect("a colour ends").1 });
    }
    assert_eq!(text, fs::read_to_string("src/paint.rs").unwrap());
}

#[test]
fn no_source_of_this_example_has_a_wrong_part() {
    for path in ["src/paint.rs", "src/main.rs", "tests/output.rs"] {
        assert!(!body(&highlight(&[path])).contains("class=\"wrong\""), "{path}");
    }
}
