//! The picture: the stations' labels, their loads, and the plan, three drawings of one height beside each other.

use std::fmt::Write;

use planconv::Record;

use crate::decimals::{in_full, six_decimals};
use crate::desk::Load;
use crate::layout::{is_tall, line, Column, Layout, ROW, TOP};
use crate::plan::Plan;
use crate::survey::Survey;
use crate::text::html;

/// The most characters of a label.
const MOST_CHARACTERS: usize = 18;
/// The longest bar, where it begins, and where the figures beside it do.
const BAR: f64 = 84.0;
const BAR_FROM: f64 = 4.0;
const FIGURES: f64 = BAR_FROM + BAR + 8.0;
/// The width of a character of a bound, of a load and of a label.
const SMALL: f64 = 5.7;
const MIDDLE: f64 = 10.0;
const LARGE: f64 = 8.0;

/// A station's number, with its name behind it.
pub fn title(plan: &Plan, station: usize) -> String {
    match plan.names.get(&(station as u16)) {
        Some(name) => format!("{station} {name}"),
        None => station.to_string(),
    }
}

/// A title of which so many characters are kept.
fn shortened(title: &str) -> String {
    if title.chars().count() <= MOST_CHARACTERS {
        return title.to_string();
    }
    let kept: String = title.chars().take(MOST_CHARACTERS - 1).collect();
    format!("{}\u{2026}", kept.trim_end())
}

/// Whether a station is marked as the busiest: none is where all loads are 0.
pub fn is_marked(survey: &Survey, station: usize) -> bool {
    survey.busiest == station && survey.loads[station].load > 0
}

/// A station's load in words.
fn in_words(load: &Load, marked: bool) -> String {
    let six = six_decimals(load.load);
    match (load.pairs, marked) {
        (0, _) => format!("load {six}, idle"),
        (_, true) => format!("load {six}, busiest"),
        (_, false) => format!("load {six}"),
    }
}

/// A drawing of a width, with its class.
fn drawing(class: &str, width: f64, height: f64, label: &str, content: &str) -> String {
    format!(
        "<svg id=\"{class}\" role=\"group\" aria-label=\"{label}\" viewBox=\"0 0 {width:.0} {height:.0}\" \
         preserveAspectRatio=\"none\" style=\"--w:{width:.0};--h:{height:.0}\">\n{content}</svg>\n"
    )
}

/// The row of a station, as an area to click on.
fn row(station: usize, width: f64) -> String {
    let from = line(station) - ROW / 2.0;
    format!("<rect class=\"row\" data-station=\"{station}\" y=\"{from:.0}\" width=\"{width:.0}\" height=\"{ROW:.0}\"/>\n")
}

/// The stations' labels, which take the focus.
fn labels(plan: &Plan, survey: &Survey, height: f64) -> String {
    let titles: Vec<String> = (0..plan.sizes.stations)
        .map(|station| title(plan, station))
        .collect();
    let shown: Vec<String> = titles.iter().map(|title| shortened(title)).collect();
    let longest = shown.iter().map(|label| label.chars().count()).max();
    let width = 26.0 + LARGE * longest.unwrap_or(1).max(6) as f64;
    let mut content = format!(
        "<text class=\"head\" x=\"22\" y=\"{:.0}\">station</text>\n",
        TOP - 10.0
    );
    for (station, title) in titles.iter().enumerate() {
        let marked = is_marked(survey, station);
        let words = in_words(&survey.loads[station], marked);
        let label = html(&format!("station {title}, {words}"));
        let stop = if station == 0 { 0 } else { -1 };
        let mark = if marked { " busiest" } else { "" };
        let middle = line(station) + 5.0;
        let star = format!("<text class=\"star\" x=\"3\" y=\"{middle:.0}\">\u{2605}</text>");
        let star = if marked { star.as_str() } else { "" };
        let _ = writeln!(
            content,
            "<g class=\"station{mark}\" id=\"s{station}\" role=\"button\" tabindex=\"{stop}\" aria-label=\"{label}\">\
             <title>{}</title>{}{star}<text x=\"22\" y=\"{middle:.0}\">{}</text></g>",
            html(title),
            row(station, width).trim_end(),
            html(&shown[station])
        );
    }
    drawing("labels", width, height, "stations", &content)
}

/// What the drawing of the loads is measured by: the largest load, and where the bounds begin.
struct Measure {
    largest: u64,
    span: f64,
}

/// A load as a bar, with its figures: six decimals, and the low and the high in full.
fn load(station: usize, load: &Load, measure: &Measure, marked: bool) -> String {
    let span = measure.span;
    let middle = line(station);
    let length = BAR * load.load as f64 / measure.largest.max(1) as f64;
    let mark = if marked { " busiest" } else { "" };
    let note = match load.pairs {
        0 => "idle",
        _ if marked => "\u{2605} busiest",
        _ => "",
    };
    let mut drawn = format!(
        "<g class=\"load{mark}\"><rect class=\"bar\" x=\"{BAR_FROM:.0}\" y=\"{:.0}\" width=\"{length:.1}\" height=\"16\"/>\
         <text class=\"six\" id=\"l{station}\" x=\"{FIGURES:.0}\" y=\"{:.0}\">{}</text>\
         <text class=\"note\" x=\"{FIGURES:.0}\" y=\"{:.0}\">{note}</text>",
        middle - 8.0,
        middle + 1.0,
        six_decimals(load.load),
        middle + 13.0
    );
    if load.pairs > 0 {
        let _ = write!(
            drawn,
            "<text class=\"full\" x=\"{span:.0}\" y=\"{:.0}\">{}</text>\
             <text class=\"full\" x=\"{span:.0}\" y=\"{:.0}\">{}</text>",
            middle - 2.0,
            in_full(load.low),
            middle + 10.0,
            in_full(load.high)
        );
    }
    drawn.push_str("</g>\n");
    drawn
}

/// The loads of all stations.
fn loads(survey: &Survey, height: f64) -> String {
    let largest = survey.loads.iter().map(|load| load.load).max().unwrap_or(0);
    let span = FIGURES + MIDDLE * six_decimals(largest).len() as f64 + 2.0;
    let carrying = survey.loads.iter().filter(|load| load.pairs > 0);
    let bounds = carrying.map(|load| in_full(load.low).len().max(in_full(load.high).len()));
    let bounds = bounds
        .max()
        .map(|characters| SMALL * characters.max(16) as f64);
    let width = span + bounds.unwrap_or(0.0) + 8.0;
    let above = TOP - 10.0;
    let mut content =
        format!("<text class=\"head\" x=\"{BAR_FROM:.0}\" y=\"{above:.0}\">load</text>\n");
    if bounds.is_some() {
        let _ = writeln!(
            content,
            "<text class=\"head\" x=\"{span:.0}\" y=\"{above:.0}\">exact low, high</text>"
        );
    }
    let measure = Measure { largest, span };
    for (station, figures) in survey.loads.iter().enumerate() {
        content.push_str(&row(station, width));
        content.push_str(&load(
            station,
            figures,
            &measure,
            is_marked(survey, station),
        ));
    }
    drawing("loads", width, height, "loads", &content)
}

/// The column of a slot, with its number above it and, where the plan is tall, below it.
fn column(slot: usize, column: &Column, stations: usize) -> String {
    let shade = if slot % 2 == 0 { "even" } else { "odd" };
    let below = ROW * stations as f64;
    let middle = column.from + column.width / 2.0;
    let name = if column.width > 44.0 { "slot " } else { "" };
    let mut drawn = format!(
        "<rect class=\"slot {shade}\" x=\"{:.1}\" y=\"{TOP:.0}\" width=\"{:.1}\" height=\"{below:.0}\"/>\n",
        column.from, column.width
    );
    let heights = [TOP - 10.0, TOP + below + 16.0];
    for y in &heights[..1 + usize::from(is_tall(stations))] {
        let _ = writeln!(
            drawn,
            "<text class=\"head slot-number\" x=\"{middle:.1}\" y=\"{y:.0}\">{name}{slot}</text>"
        );
    }
    drawn
}

/// A contact as an arrow: a dot at the sender, a head at the hearer.
fn arrow(position: usize, [slot, a, b]: &Record, x: f64, pitch: f64) -> String {
    let (from, to) = (line(usize::from(*a)), line(usize::from(*b)));
    let half = (0.42 * pitch).clamp(1.4, 4.5);
    let back = if from < to { -2.2 * half } else { 2.2 * half };
    let stop = if position == 0 { 0 } else { -1 };
    let touch = pitch.min(14.0);
    format!(
        "<g class=\"contact\" id=\"c{position}\" role=\"button\" tabindex=\"{stop}\">\
         <title>slot {slot}: {a} sends, {b} hears</title>\
         <path class=\"touch\" stroke-width=\"{touch:.1}\" d=\"M{x:.1} {from:.0}V{to:.0}\"/>\
         <path class=\"shaft\" d=\"M{x:.1} {from:.0}V{:.1}\"/><circle cx=\"{x:.1}\" cy=\"{from:.0}\" r=\"{:.1}\"/>\
         <path class=\"tip\" d=\"M{x:.1} {to:.0}l{half:.1} {back:.1}h-{:.1}z\"/></g>\n",
        to + back,
        0.75 * half,
        2.0 * half
    )
}

/// The plan: slots, stations' lines, contacts, and room for a walk.
fn contacts(plan: &Plan, layout: &Layout) -> String {
    let mut content = String::new();
    for (at, of_slot) in layout.columns.iter().enumerate() {
        content.push_str(&column(at + 1, of_slot, plan.sizes.stations));
    }
    for station in 0..plan.sizes.stations {
        content.push_str(&row(station, layout.width));
        let (y, end) = (line(station), layout.width);
        let _ = writeln!(
            content,
            "<path class=\"line\" id=\"y{station}\" d=\"M0 {y:.0}H{end:.0}\"/>"
        );
    }
    let shaft = (0.3 * layout.pitch).clamp(0.9, 1.6);
    let _ = writeln!(content, "<g id=\"contacts\" style=\"--shaft:{shaft:.1}\">");
    for (position, (record, x)) in plan.records.iter().zip(&layout.lanes).enumerate() {
        content.push_str(&arrow(position, record, *x, layout.pitch));
    }
    content.push_str("</g>\n<g id=\"walk\" aria-hidden=\"true\"></g>\n");
    drawing(
        "plan",
        layout.width,
        layout.height,
        "contacts by slot",
        &content,
    )
}

/// The three drawings.
pub fn picture(plan: &Plan, survey: &Survey, layout: &Layout) -> String {
    let height = layout.height;
    [
        labels(plan, survey, height),
        loads(survey, height),
        contacts(plan, layout),
    ]
    .concat()
}
