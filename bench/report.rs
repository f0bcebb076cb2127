//! Measures, and writes what was measured: lines, the table of docs/SPEED.md and the picture docs/speed.svg.
use std::fmt::{Debug, Write as _};
use std::hint::black_box;
use std::time::Instant;

/// Makes a call so many times, and gives the seconds that this took.
type Timed = Box<dyn Fn(usize) -> f64>;

fn timed<T: 'static>(call: impl Fn() -> T + 'static) -> Timed {
    Box::new(move |calls| {
        let start = Instant::now();
        for _ in 0..calls {
            black_box(call());
        }
        start.elapsed().as_secs_f64()
    })
}

/// The least time of a call, in seconds.
struct Side {
    call: Timed,
    least: f64,
}

impl Side {
    fn new(call: Timed) -> Self {
        Side { call, least: f64::MAX }
    }

    fn round(&mut self, calls: usize) {
        self.least = self.least.min((self.call)(calls) / calls as f64);
    }
}

struct Input {
    name: String,
    items: usize,
    ours: Side,
    theirs: Side,
    /// A part of our time that is told apart.
    apart: Option<Side>,
}

impl Input {
    /// Many rounds of all sides in turn, so that a slow moment of the machine meets each.
    fn measure(&mut self) {
        let calls = (1 << 21) / self.items + 1;
        let start = Instant::now();
        for round in 0..21 {
            self.ours.round(calls);
            self.theirs.round(calls);
            if let Some(apart) = &mut self.apart {
                apart.round(calls);
            }
            if round >= 4 && start.elapsed().as_secs() >= 1 {
                break;
            }
        }
    }

    fn ratio(&self) -> f64 {
        self.ours.least / self.theirs.least
    }

    /// The ratio of what is left of our time.
    fn ratio_of_rest(&self) -> Option<f64> {
        let apart = self.apart.as_ref()?;
        Some((self.ours.least - apart.least) / self.theirs.least)
    }
}

/// Inputs that make one bar of the picture: a call, what it is given, and what it is beside.
pub struct Section {
    heading: String,
    what: String,
    given: String,
    beside: String,
    inputs: Vec<Input>,
}

impl Section {
    pub fn new(heading: &str, what: &str, given: &str, beside: &str) -> Self {
        let (heading, what, given, beside) = (heading.into(), what.into(), given.into(), beside.into());
        Section { heading, what, given, beside, inputs: Vec::new() }
    }

    /// Adds an input of so many items, octets or characters, on which both sides have to answer the same.
    pub fn add<T: PartialEq + Debug + 'static>(
        &mut self,
        name: &str,
        items: usize,
        ours: impl Fn() -> T + 'static,
        theirs: impl Fn() -> T + 'static,
    ) {
        assert_eq!(ours(), theirs(), "{}, {}: {name}", self.what, self.given);
        let (ours, theirs) = (Side::new(timed(ours)), Side::new(timed(theirs)));
        self.inputs.push(Input { name: name.into(), items, ours, theirs, apart: None });
    }

    /// Tells a part of our time on the last input apart.
    pub fn apart<T: 'static>(&mut self, call: impl Fn() -> T + 'static) {
        if let Some(input) = self.inputs.last_mut() {
            input.apart = Some(Side::new(timed(call)));
        }
    }

    /// What the inputs have in common with those of like sections: what is given without its size or its script.
    fn kind(&self) -> &str {
        self.given.rsplit_once(", ").map_or(&self.given, |(kind, _)| kind)
    }

    /// Whether both are in one row of the table.
    fn is_like(&self, other: &Section) -> bool {
        (&self.what, &self.beside, self.kind()) == (&other.what, &other.beside, other.kind())
    }

    fn ratios(&self) -> Vec<f64> {
        self.inputs.iter().map(Input::ratio).collect()
    }

    /// The ratios less what is told apart, where each input has it.
    fn ratios_of_rest(&self) -> Option<Vec<f64>> {
        self.inputs.iter().map(Input::ratio_of_rest).collect()
    }
}

/// The geometric mean.
fn mean(ratios: &[f64]) -> f64 {
    (ratios.iter().map(|ratio| ratio.ln()).sum::<f64>() / ratios.len() as f64).exp()
}

fn greatest(ratios: &[f64]) -> f64 {
    ratios.iter().copied().fold(0.0, f64::max)
}

/// A sentence in lines of at most 120 characters.
fn wrapped(note: &str) -> String {
    let (mut text, mut column) = (String::new(), 0);
    for word in note.split(' ') {
        let len = word.chars().count();
        if column + 1 + len > 120 {
            text.push('\n');
            column = 0;
        } else if column > 0 {
            text.push(' ');
            column += 1;
        }
        text.push_str(word);
        column += len;
    }
    text
}

/// A cell of a table, without the mark that ends it.
fn column(cell: &str) -> String {
    if cell.is_empty() { "| ".into() } else { format!("| {cell} ") }
}

#[derive(Default)]
pub struct Bench {
    sections: Vec<Section>,
    notes: Vec<String>,
}

impl Bench {
    pub fn add(&mut self, section: Section) {
        self.sections.push(section);
    }

    /// Adds a sentence on the inputs.
    pub fn note(&mut self, note: String) {
        self.notes.push(note);
    }

    /// Goes over all inputs so many times, so that none is measured in one bad minute alone.
    pub fn measure(&mut self, times: usize) {
        for _ in 0..times {
            for input in self.sections.iter_mut().flat_map(|section| &mut section.inputs) {
                input.measure();
            }
        }
    }

    pub fn tell(&self) {
        println!("  {:<28} {:>9} {:>9} {:>6}", "input, ns an item", "octseq", "Rust", "ratio");
        for section in &self.sections {
            for input in &section.inputs {
                let each = 1e9 / input.items as f64;
                let (a, b) = (input.ours.least * each, input.theirs.least * each);
                print!("  {:<28} {a:>9.3} {b:>9.3} {:>6.2}", input.name, input.ratio());
                match input.ratio_of_rest() {
                    Some(rest) => println!("  less the copy {rest:.2}"),
                    None => println!(),
                }
            }
            let ratios = section.ratios();
            let (what, given) = (&section.what, &section.given);
            println!("{what}, {given}: mean {:.2}, greatest {:.2}\n", mean(&ratios), greatest(&ratios));
        }
        self.notes.iter().for_each(|note| println!("{note}"));
    }

    /// Writes the table between its marks in SPEED.md, and speed.svg beside it.
    pub fn write(&self, folder: &str, when: &str) -> std::io::Result<()> {
        const FROM: &str = "<!-- bench/run writes from here -->\n";
        const TO: &str = "<!-- to here -->\n";
        let path = format!("{folder}/SPEED.md");
        let page = std::fs::read_to_string(&path)?;
        let parts = page.split_once(FROM).and_then(|(before, rest)| Some((before, rest.split_once(TO)?.1)));
        let Some((before, after)) = parts else {
            return Err(std::io::Error::other("SPEED.md has not both marks"));
        };
        std::fs::write(&path, format!("{before}{FROM}{}{TO}{after}", self.table(when)))?;
        std::fs::write(format!("{folder}/speed.svg"), self.picture(when))
    }

    /// The sections, like ones together.
    fn rows(&self) -> Vec<Vec<&Section>> {
        let mut rows: Vec<Vec<&Section>> = Vec::new();
        for section in &self.sections {
            match rows.iter_mut().find(|row| row[0].is_like(section)) {
                Some(row) => row.push(section),
                None => rows.push(vec![section]),
            }
        }
        rows
    }

    /// A row for like sections. A call and what it is beside are named where they differ from the row above.
    fn table(&self, when: &str) -> String {
        let mut page = format!("Measured on {when}, as time over Rust's.\n");
        for note in &self.notes {
            let _ = write!(page, "\n{}\n", wrapped(note));
        }
        page.push_str("\n| call | beside | input | mean | greatest |\n|---|---|---|---|---|\n");
        let (mut what, mut beside) = ("", "");
        for row in self.rows() {
            let ratios: Vec<f64> = row.iter().flat_map(|section| section.ratios()).collect();
            let rests: Option<Vec<Vec<f64>>> = row.iter().map(|section| section.ratios_of_rest()).collect();
            let rest = rests.map(|rests| format!("; less the copy {:.2}", mean(&rests.concat()))).unwrap_or_default();
            let means = format!("{:.2}{rest}", mean(&ratios));
            let most = if ratios.len() == 1 { String::new() } else { format!("{:.2}", greatest(&ratios)) };
            let names = [(&row[0].what, what), (&row[0].beside, beside)];
            let [call, other] = names.map(|(name, above)| if name == above { "" } else { name });
            let cells = [call, other, row[0].kind(), &means, &most].map(column);
            let _ = writeln!(page, "{}|", cells.concat());
            (what, beside) = (&row[0].what, &row[0].beside);
        }
        page
    }

    /// A bar a section from 0 to its mean, a thin line on to its greatest, and a line at 1.
    fn picture(&self, when: &str) -> String {
        const LEFT: f64 = 540.0;
        const ONE: f64 = 190.0;
        const MOST: f64 = 2.0;
        const ROW: f64 = 20.0;
        let across = |ratio: f64| LEFT + ratio.min(MOST) * ONE;
        let (mut bars, mut y, mut heading) = (String::new(), 62.0, "");
        for section in &self.sections {
            if section.heading != heading {
                heading = &section.heading;
                y += 8.0;
                let _ = writeln!(bars, r#"<text x="12" y="{:.0}" font-weight="bold">{heading}</text>"#, y + 14.0);
                y += ROW;
            }
            let ratios = section.ratios();
            let (mean, greatest) = (mean(&ratios), greatest(&ratios));
            let color = if mean < 1.005 { "#2f81c7" } else { "#c4633a" };
            let what = format!("{}, {}", section.what, section.given);
            let what = what.replace('`', "").replace('&', "&amp;").replace('<', "&lt;").replace('>', "&gt;");
            let _ = writeln!(bars, r#"<text x="24" y="{:.0}">{what}</text>"#, y + 14.0);
            let _ = writeln!(bars, r#"<text x="{:.0}" y="{:.0}" text-anchor="end">{mean:.2}</text>"#,
                LEFT - 8.0, y + 14.0);
            let _ = writeln!(bars, r#"<path d="M{LEFT} {}H{:.0}" stroke="{color}" stroke-width="2"/>"#,
                y + ROW / 2.0, across(greatest));
            let _ = writeln!(bars, r#"<rect x="{LEFT}" y="{}" width="{:.0}" height="12" fill="{color}"/>"#,
                y + 4.0, across(mean) - LEFT);
            y += ROW;
        }
        let (width, height, one) = (LEFT + MOST * ONE + 20.0, y + 12.0, across(1.0));
        format!(
            r##"<svg xmlns="http://www.w3.org/2000/svg" viewBox="0 0 {width} {height}" width="{width}" height="{height}"
 font-family="sans-serif" font-size="12" fill="#6e7781">
<title>Time of octseq over that of Rust's std</title>
<text x="12" y="20" font-size="15" font-weight="bold">Time over that of Rust's std, shorter is faster</text>
<text x="12" y="38">{when}. A bar is a mean over inputs; the thin line goes on to the greatest.</text>
{bars}<path d="M{one} 60V{}" stroke="#6e7781" stroke-dasharray="4 3"/>
<text x="{one}" y="56" text-anchor="middle">Rust: 1.0</text>
</svg>
"##,
            y + 2.0
        )
    }
}
