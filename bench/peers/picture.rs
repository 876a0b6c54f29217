//! Two pictures of the peers as SVG: bars of all that was measured of the largest tables, and the time of a lookup by
//! the number of items. Each has a background of its own, light or dark as the reader asks for.

use std::fmt::Write;

use crate::contenders::Told;

const STYLE: &str = "<style>
  .ground { fill: #ffffff } text { fill: #24292f; font: 13px sans-serif } .line { stroke: #8c959f }
  .ours { fill: #0969da } .other { fill: #8c959f } .number { text-anchor: end } .head { font-weight: bold }
  @media (prefers-color-scheme: dark) {
    .ground { fill: #0d1117 } text { fill: #e6edf3 } .line { stroke: #6e7681 }
    .ours { fill: #58a6ff } .other { fill: #6e7681 }
  }
</style>";

/// One for each peer, told apart in light and in dark.
const COLOURS: [&str; 7] = [
    "#0072b2", "#56b4e9", "#009e73", "#cc79a7", "#e69f00", "#d55e00", "#999999",
];

fn begin(width: usize, height: usize) -> String {
    format!(
        "<svg xmlns=\"http://www.w3.org/2000/svg\" viewBox=\"0 0 {width} {height}\" width=\"{width}\" \
         height=\"{height}\">\n{STYLE}\n<rect class=\"ground\" width=\"{width}\" height=\"{height}\"/>\n"
    )
}

fn put(svg: &mut String, piece: std::fmt::Arguments) {
    svg.write_fmt(piece).expect("a string takes all");
    svg.push('\n');
}

const BAR: usize = 20;
const PANEL: usize = 420;
const NAME: usize = 150;
const LONGEST: f64 = 200.0;

/// What a panel shows: its head, and a number of each peer that has one.
type Panel = (&'static str, fn(&Told) -> Option<f64>);

const PANELS: [Panel; 5] = [
    ("lookup of a present key, ns", |told| Some(told.present)),
    ("lookup of an absent key, ns", |told| Some(told.absent)),
    ("build, ns an item", |told| Some(told.build)),
    ("bytes an item", |told| Some(told.bytes)),
    ("open, microseconds", |told| {
        told.open.map(|time| time / 1000.0)
    }),
];

/// All panels, two beside one another. Shorter is better in each.
pub fn bars(power: u32, told: &[Told]) -> String {
    let height = BAR * (told.len() + 2);
    let mut svg = begin(2 * PANEL, 40 + height * PANELS.len().div_ceil(2));
    let items = format!(
        "10^{power} items from numbers of 64 bits to numbers of 32 bits; shorter is better"
    );
    put(
        &mut svg,
        format_args!("<text class=\"head\" x=\"16\" y=\"26\">{items}</text>"),
    );
    for (place, panel) in PANELS.iter().enumerate() {
        let (x, y) = (16 + place % 2 * PANEL, 60 + place / 2 * height);
        put_panel(&mut svg, panel, told, (x, y));
    }
    svg + "</svg>\n"
}

fn put_panel(svg: &mut String, (head, of): &Panel, told: &[Told], (x, y): (usize, usize)) {
    put(
        svg,
        format_args!("<text class=\"head\" x=\"{x}\" y=\"{y}\">{head}</text>"),
    );
    let most = told.iter().filter_map(of).fold(0.0, f64::max);
    for (place, peer) in told.iter().enumerate() {
        let base = y + BAR * (place + 1);
        put(
            svg,
            format_args!("<text x=\"{x}\" y=\"{base}\">{}</text>", peer.name),
        );
        let (start, text) = (x + NAME, base - 11);
        let Some(number) = of(peer) else {
            put(
                svg,
                format_args!("<text x=\"{start}\" y=\"{base}\">-</text>"),
            );
            continue;
        };
        let (long, kind) = (LONGEST * number / most, kind_of(peer));
        let place = format!("x=\"{start}\" y=\"{text}\" width=\"{long:.1}\" height=\"13\"");
        put(svg, format_args!("<rect class=\"{kind}\" {place}/>"));
        let end = start as f64 + long + 6.0;
        put(
            svg,
            format_args!("<text x=\"{end:.1}\" y=\"{base}\">{}</text>", shown(number)),
        );
    }
}

fn kind_of(peer: &Told) -> &'static str {
    if peer.name.starts_with("odht") {
        "ours"
    } else {
        "other"
    }
}

fn shown(number: f64) -> String {
    if number < 10.0 {
        format!("{number:.1}")
    } else {
        format!("{number:.0}")
    }
}

const LEFT: f64 = 60.0;
const TOP: f64 = 50.0;
const WIDE: f64 = 520.0;
const HIGH: f64 = 320.0;

/// The place of a time between two powers of ten.
struct Scale {
    low: f64,
    high: f64,
}

impl Scale {
    fn of(all: &[(u32, Vec<Told>)]) -> Scale {
        let times = || {
            all.iter()
                .flat_map(|(_, told)| told)
                .map(|peer| peer.present.log10())
        };
        Scale {
            low: times().fold(f64::INFINITY, f64::min).floor(),
            high: times().fold(f64::NEG_INFINITY, f64::max).ceil(),
        }
    }

    fn y(&self, time: f64) -> f64 {
        TOP + HIGH * (self.high - time.log10()) / (self.high - self.low).max(1.0)
    }
}

fn x(all: &[(u32, Vec<Told>)], place: usize) -> f64 {
    LEFT + WIDE * place as f64 / (all.len() - 1).max(1) as f64
}

/// The time of a lookup of a present key, by the number of items; both axes by powers of ten.
pub fn by_size(all: &[(u32, Vec<Told>)]) -> String {
    let scale = Scale::of(all);
    let mut svg = begin(760, 420);
    let head = "lookup of a present key, ns, by the number of items";
    put(
        &mut svg,
        format_args!("<text class=\"head\" x=\"16\" y=\"26\">{head}</text>"),
    );
    put_axes(&mut svg, all, &scale);
    let mut labels = labels(all, &scale);
    spread(&mut labels);
    for (peer, colour) in COLOURS.iter().enumerate().take(labels.len()) {
        put_line(&mut svg, all, peer, colour, &scale);
        let (at, name) = (LEFT + WIDE + 28.0, labels[peer].1);
        put(
            &mut svg,
            format_args!(
                "<circle cx=\"{:.1}\" cy=\"{:.1}\" r=\"5\" fill=\"{colour}\"/>",
                at - 10.0,
                labels[peer].0
            ),
        );
        put(
            &mut svg,
            format_args!(
                "<text x=\"{at:.1}\" y=\"{:.1}\">{name}</text>",
                labels[peer].0 + 4.0
            ),
        );
    }
    svg + "</svg>\n"
}

fn put_axes(svg: &mut String, all: &[(u32, Vec<Told>)], scale: &Scale) {
    let (right, mut power) = (LEFT + WIDE, scale.low);
    while power <= scale.high {
        let (time, y) = (10_f64.powf(power), scale.y(10_f64.powf(power)));
        put(
            svg,
            format_args!(
                "<path class=\"line\" stroke-width=\"0.5\" d=\"M{LEFT} {y:.1}H{right}\"/>"
            ),
        );
        put(
            svg,
            format_args!(
                "<text class=\"number\" x=\"{:.1}\" y=\"{:.1}\">{time}</text>",
                LEFT - 8.0,
                y + 4.0
            ),
        );
        power += 1.0;
    }
    for (place, (power, _)) in all.iter().enumerate() {
        let (x, y) = (x(all, place), TOP + HIGH + 24.0);
        put(
            svg,
            format_args!("<text x=\"{:.1}\" y=\"{y:.1}\">10^{power}</text>", x - 16.0),
        );
    }
}

fn put_line(svg: &mut String, all: &[(u32, Vec<Told>)], peer: usize, colour: &str, scale: &Scale) {
    let points = all
        .iter()
        .enumerate()
        .map(|(place, (_, told))| (x(all, place), scale.y(told[peer].present)));
    let points: Vec<String> = points.map(|(x, y)| format!("{x:.1},{y:.1}")).collect();
    put(
        svg,
        format_args!(
            "<polyline fill=\"none\" stroke=\"{colour}\" stroke-width=\"2\" points=\"{}\"/>",
            points.join(" ")
        ),
    );
    for point in points {
        let (x, y) = point.split_once(',').expect("a point has two numbers");
        put(
            svg,
            format_args!("<circle cx=\"{x}\" cy=\"{y}\" r=\"3.5\" fill=\"{colour}\"/>"),
        );
    }
}

/// Where each line ends, with its name.
fn labels(all: &[(u32, Vec<Told>)], scale: &Scale) -> Vec<(f64, &'static str)> {
    let (_, last) = all.last().expect("there are sizes");
    last.iter()
        .map(|peer| (scale.y(peer.present), peer.name))
        .collect()
}

/// Moves names down that would be upon another, from the top one on.
fn spread(labels: &mut [(f64, &'static str)]) {
    let mut order: Vec<usize> = (0..labels.len()).collect();
    order.sort_by(|one, other| labels[*one].0.total_cmp(&labels[*other].0));
    for pair in order.windows(2) {
        labels[pair[1]].0 = labels[pair[1]].0.max(labels[pair[0]].0 + 17.0);
    }
}
