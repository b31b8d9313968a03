//! The pictures and the page in headless Chromium: every text is measured as it
//! is really set. Where no `chromium` is on the path the test is passed over.

#[allow(dead_code)]
mod common;
mod drawn;

use drawn::elements;
use registrar::draft::Draft;
use registrar::page::{self, Journal, Page};
use registrar::picture::svg::{Canvas, Rect, STYLES};
use registrar::run::Run;
use registrar::{journal_text, list, picture, plan_text};
use retraction::Plan;
use std::fs::{self, File};
use std::path::{Path, PathBuf};
use std::process::{Command, Stdio};
use std::time::{Duration, Instant};
use testing::samples as made;

/// Measures every text of every picture, in its own fonts and in others that a
/// system may have in their place: none leaves its box, no two of one picture
/// overlap. The findings take the place of the document.
const MEASURE: &str = "<script>
const findings = [];
let count = 0;
function measure(svg, fonts) {
  const at = svg.getBoundingClientRect();
  const boxes = [];
  for (const text of svg.querySelectorAll('text')) {
    const r = text.getBoundingClientRect();
    const b = {l: r.left - at.left, t: r.top - at.top, r: r.right - at.left, b: r.bottom - at.top};
    const [x, y, w, h] = text.dataset.box.split(' ').map(Number);
    const words = svg.dataset.case + ', ' + fonts + ': ' + text.textContent;
    if (!(r.width > 0)) findings.push('nothing shown of ' + words);
    if (b.l < x - 0.5 || b.t < y - 0.5 || b.r > x + w + 0.5 || b.b > y + h + 0.5) {
      findings.push('leaves its box: ' + words);
    }
    for (const [o, other] of boxes) {
      if (b.l < o.r - 0.5 && o.l < b.r - 0.5 && b.t < o.b - 0.5 && o.t < b.b - 0.5) {
        findings.push('overlap: ' + words + ' / ' + other);
      }
    }
    boxes.push([b, words]);
    count += 1;
  }
}
const forced = document.body.appendChild(document.createElement('style'));
for (const fonts of ['its own', 'sans-serif', 'DejaVu Sans', 'Liberation Sans']) {
  forced.textContent = fonts === 'its own' ? '' : `svg text{font-family:${fonts}!important}`;
  document.querySelectorAll('svg[data-case]').forEach(svg => measure(svg, fonts));
}
document.body.textContent = count + ' texts\\n' + findings.join('\\n') + '\\nmeasured';
</script>";

/// How many times each text is measured.
const FONTS: usize = 4;

/// Turns through a page by its links, and tells what is shown.
const TURN: &str = "<script>
const findings = [];
const shown = () => [...document.querySelectorAll('article')]
  .filter(a => getComputedStyle(a).display !== 'none').map(a => a.id).join(' ');
const last = document.querySelectorAll('article').length - 1;
if (shown() !== 'step-' + last) findings.push('at first ' + shown());
for (const link of document.querySelectorAll('a')) {
  const to = link.getAttribute('href');
  if (!document.querySelector(to)) findings.push('no place for ' + to);
}
for (let step = last; step > 0; step -= 1) {
  const back = [...document.querySelectorAll('#step-' + step + ' a')].find(a => a.textContent === 'Back');
  location.hash = back.getAttribute('href');
  if (shown() !== 'step-' + (step - 1)) findings.push('back from ' + step + ' is ' + shown());
}
const used = document.querySelector('#step-0 svg').getBBox();
if (!(used.width > 100)) findings.push('the picture is not shown again');
if (document.scripts.length !== 1) findings.push('a script of its own');
const asked = performance.getEntriesByType('resource').map(e => e.name);
if (asked.length) findings.push('asked for ' + asked);
document.body.textContent = last + ' steps\\n' + findings.join('\\n') + '\\nturned';
</script>";

/// A browser's folder, which is removed in the end.
struct Folder(PathBuf);

impl Folder {
    fn new(name: &str) -> Folder {
        let path = std::env::temp_dir().join(format!("registrar-{name}-{}", std::process::id()));
        fs::create_dir_all(&path).expect("a temporary folder");
        Folder(path)
    }
}

impl Drop for Folder {
    fn drop(&mut self) {
        let _ = fs::remove_dir_all(&self.0);
    }
}

/// The browser on the path, if there is one.
fn chromium() -> Option<PathBuf> {
    let path = std::env::var_os("PATH")?;
    let mut found = std::env::split_paths(&path).map(|folder| folder.join("chromium"));
    let found = found.find(|file| file.is_file());
    if found.is_none() {
        println!("passed over: no chromium here");
    }
    found
}

const MOST_SECONDS: u64 = 60;

/// What the browser has made of a document once its scripts have run.
fn shown(chromium: &Path, name: &str, document: &str) -> String {
    let folder = Folder::new(name);
    let file = folder.0.join("case.html");
    let dumped = folder.0.join("shown.html");
    fs::write(&file, document).expect("a file that can be written");
    let mut browser = Command::new(chromium)
        .args(["--headless", "--no-sandbox", "--disable-gpu", "--dump-dom"])
        .arg(format!(
            "--user-data-dir={}",
            folder.0.join("user").display()
        ))
        .arg(format!("file://{}", file.display()))
        .stdin(Stdio::null())
        .stdout(File::create(&dumped).expect("a file that can be written"))
        .stderr(Stdio::null())
        .spawn()
        .expect("a browser that starts");
    let begun = Instant::now();
    let status = loop {
        if let Some(status) = browser.try_wait().expect("a browser that can be asked") {
            break status;
        }
        if begun.elapsed() > Duration::from_secs(MOST_SECONDS) {
            let _ = browser.kill();
            let _ = browser.wait();
            panic!("the browser has not ended within {MOST_SECONDS} seconds");
        }
        std::thread::sleep(Duration::from_millis(50));
    };
    assert!(status.success(), "the browser ended with {status}");
    fs::read_to_string(&dumped).expect("what the browser shows")
}

/// The pictures by their names.
type Pictures = Vec<(String, String)>;

/// A sample with its names, and its journals' calls.
fn each_sample(mut then: impl FnMut(&str, &Draft, Vec<(String, Run)>)) {
    for sample in common::samples() {
        let read = |name: &str| fs::read_to_string(sample.file(name)).expect("a text");
        let draft = plan_text::read(&read("plan.txt")).expect("a good text");
        let plan = Plan::read(draft.records.encode()).expect("an accepted plan");
        let run = |name: &String| {
            let text = read(&format!("{name}.txt"));
            let journal = journal_text::read(&text, &draft).expect("a good text");
            let run = Run::of(&plan, journal.limit, &journal.calls, None);
            (name.clone(), run)
        };
        let runs = sample.journals.iter().map(run).collect();
        let name = sample.folder.file_name().expect("a name");
        then(&name.to_string_lossy(), &draft, runs);
    }
}

fn pictures() -> Pictures {
    let mut pictures = Vec::new();
    each_sample(|name, draft, runs| {
        pictures.push((name.to_string(), picture::plan(draft)));
        for (journal, run) in runs {
            let svg = picture::timeline(draft, &run);
            pictures.push((format!("{name} {journal}"), svg));
        }
    });
    for (name, records) in [
        ("three levels", made::scoped_links(60)),
        ("loops", made::looping_link()),
        ("deviations", made::three_links()),
        ("eight levels", testing::generate::plans::chain(8)),
    ] {
        let draft = drawn::draft(&records.encode());
        pictures.push((name.to_string(), picture::plan(&draft)));
    }
    pictures.push(("32 tracks".to_string(), picture::plan(&drawn::full(60))));
    pictures.push(("all steps".to_string(), picture::plan(&drawn::full(240))));
    for seed in 1000..1020 {
        let plan = picture::plan(&drawn::generated(seed, 32));
        pictures.push((format!("plan {seed}"), plan));
        let (draft, journal) = drawn::generated_run(seed, 32);
        let most = if seed % 2 == 0 { i32::MAX } else { 900 };
        let run = drawn::with_run(&draft, &journal, |run| picture::banded(&draft, run, most));
        pictures.push((format!("run {seed}"), run));
    }
    pictures.push(("letters".to_string(), specimen()));
    pictures
}

/// Every character from `!` to `~` and accented letters in every style, many
/// times each, in boxes of just the width that is thought to be enough, but for
/// the pixel by which ink may stand out.
fn specimen() -> String {
    let mut canvas = Canvas::default();
    let (mut y, mut right) = (0, 0);
    let letters = (33..127u8)
        .map(char::from)
        .chain("ÅÄÖåäöéèüßæœŒÆŁłŵĦ家族".chars());
    for letter in letters {
        let many = letter.to_string().repeat(40);
        let mut x = 0;
        for style in STYLES {
            let taken = Rect::new(x + 1, y + 1, style.width(&many), style.line());
            canvas.text(style, (taken.x, taken.y), &many, taken.inset(-1));
            x = taken.right() + 1;
        }
        right = right.max(x);
        y += 20;
    }
    canvas.finish("plan", "letters", (right, y), "")
}

#[test]
fn texts_are_legible_as_they_are_set() {
    let chromium = match chromium() {
        Some(chromium) => chromium,
        None => return,
    };
    let pictures = pictures();
    let mut document =
        "<!DOCTYPE html><html><head><meta charset=\"utf-8\"></head><body>".to_string();
    let mut texts = 0;
    for (name, svg) in &pictures {
        texts += elements(svg).iter().filter(|e| e.tag == "text").count();
        let named = format!("<svg data-case=\"{name}\"");
        document += &svg.replacen("<svg", &named, 1);
    }
    assert!(pictures.len() > 55 && texts > 3000, "{texts} texts");
    document += MEASURE;
    let shown = shown(&chromium, "pictures", &document);
    let wanted = format!("{} texts\n\nmeasured", FONTS * texts);
    assert!(shown.contains(&wanted), "wanted {wanted}, found {shown}");
}

/// The longest page of the samples.
fn longest_page() -> String {
    let mut pages = Vec::new();
    each_sample(|_, draft, runs| {
        for (_, run) in &runs {
            let plan = Plan::read(draft.records.encode()).expect("an accepted plan");
            let parts = Page {
                draft,
                listing: &list::list(draft, &plan),
                journal: Some(Journal::of(draft, run, "nothing")),
            };
            pages.push(page::page(&parts));
        }
    });
    let longest = pages.into_iter().max_by_key(String::len);
    longest.expect("a page")
}

#[test]
fn a_page_asks_for_nothing() {
    let page = longest_page();
    assert!(page.len() < 300_000, "{} bytes", page.len());
    let mut ids: Vec<String> = Vec::new();
    for element in elements(&page) {
        assert_ne!(element.tag, "script");
        for (name, value) in &element.attributes {
            assert!(!name.starts_with("on"), "{name}");
            let address = value.contains("//") || value.contains("http:");
            assert!(!address || name == "xmlns", "{name}={value}");
            let leads_out = ["href", "src"].contains(&name.as_str()) && !value.starts_with('#');
            assert!(!leads_out, "{name}={value}");
        }
        ids.extend(element.get("id").map(str::to_string));
    }
    let count = ids.len();
    ids.sort();
    ids.dedup();
    assert_eq!(ids.len(), count, "an id stands twice");
    assert!(!page.contains("@import") && !page.contains("url(h"));
}

#[test]
fn a_page_is_turned_without_a_script() {
    let chromium = match chromium() {
        Some(chromium) => chromium,
        None => return,
    };
    let page = longest_page();
    let steps = page.matches("<article").count() - 1;
    let page = page.replace("</body>", &format!("{TURN}</body>"));
    let shown = shown(&chromium, "page", &page);
    let wanted = format!("{steps} steps\n\nturned");
    assert!(shown.contains(&wanted), "wanted {wanted}, found {shown}");
}
