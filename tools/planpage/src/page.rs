//! The page of a plan, and the page of a plan that is refused.

use planconv::{words, Names, PROGRAM};

use crate::data::data;
use crate::decimals::six_decimals;
use crate::layout::Layout;
use crate::picture::{is_marked, picture, title};
use crate::plan::{Fault, Plan, Refusal, Units};
use crate::survey::{Survey, MOST_INSIDE, MOST_WALKS};
use crate::text::{fill, html};

const PLAN: &str = include_str!("../page/plan.html");
const REFUSED: &str = include_str!("../page/refused.html");
const ABOUT: &str = include_str!("../page/about.html");
const STYLE: &str = concat!(
    include_str!("../page/style.css"),
    include_str!("../page/picture.css"),
    include_str!("../page/print.css")
);
const SCRIPT: &str = concat!(
    "(() => {\n\"use strict\";\n",
    include_str!("../page/data.js"),
    include_str!("../page/walks.js"),
    include_str!("../page/panels.js"),
    include_str!("../page/controls.js"),
    "})();\n"
);

/// The most stations of a plan that leaves room for tables on its sheet.
const SMALL: usize = 10;

/// The units, in words.
fn units(units: Units) -> &'static str {
    match units {
        Units::Now => "two slots (g = 2)",
        Units::Older => "one slot (g = 1, older units)",
    }
}

/// A number of things.
fn number_of(number: usize, one: &str) -> String {
    let many = if number == 1 { "" } else { "s" };
    format!("{number} {one}{many}")
}

/// Stations, slots and contacts.
fn summary(plan: &Plan) -> String {
    let parts = [
        number_of(plan.sizes.stations, "station"),
        number_of(plan.sizes.slots, "slot"),
        number_of(plan.records.len(), "contact"),
    ];
    parts.join(", ")
}

/// Which station is the busiest.
fn busiest(plan: &Plan, survey: &Survey) -> String {
    let station = survey.busiest;
    if !is_marked(survey, station) {
        return "No station is inside a shortest walk: all loads are 0.".to_string();
    }
    let load = six_decimals(survey.loads[station].load);
    let title = html(&title(plan, station));
    let equal = survey
        .loads
        .iter()
        .filter(|other| other.load == survey.loads[station].load);
    let equal = match equal.count() {
        1 => "",
        _ => " Others have the same load; the lowest-numbered is marked.",
    };
    format!("\u{2605} Busiest: station <b>{title}</b>, load <b>{load}</b>.{equal}")
}

/// The names of stations that the plan does not have.
fn unknown_names(plan: &Plan) -> String {
    let unknown = plan.names.range(plan.sizes.stations as u16..);
    let unknown: Vec<String> = unknown
        .map(|(station, name)| html(&format!("{station} {name}")))
        .collect();
    if unknown.is_empty() {
        return String::new();
    }
    let list = unknown.join("; ");
    format!("<p class=\"note\">Named, but in no contact of the plan: {list}.</p>")
}

/// An option for each station, the chosen one marked.
fn station_options(plan: &Plan, chosen: Option<usize>) -> String {
    let option = |station| {
        let mark = if chosen == Some(station) {
            " selected"
        } else {
            ""
        };
        let title = html(&title(plan, station));
        format!("<option value=\"{station}\"{mark}>{title}</option>")
    };
    (0..plan.sizes.stations).map(option).collect()
}

/// An option for each contact.
fn contact_options(plan: &Plan) -> String {
    let option = |(position, [slot, a, b]): (usize, &planconv::Record)| {
        format!("<option value=\"{position}\">slot {slot}: {a} \u{2192} {b}</option>")
    };
    plan.records.iter().enumerate().map(option).collect()
}

/// The page of a plan.
pub fn page(plan: &Plan, survey: &Survey) -> String {
    let layout = Layout::new(&plan.records, plan.sizes);
    let last = plan.sizes.stations - 1;
    fill(
        PLAN,
        &[
            ("style", STYLE),
            ("summary", &summary(plan)),
            ("units", units(plan.units)),
            ("busiest", &busiest(plan, survey)),
            ("unknown", &unknown_names(plan)),
            ("stations", &station_options(plan, None)),
            ("from", &station_options(plan, Some(0))),
            ("to", &station_options(plan, Some(last))),
            ("contacts", &contact_options(plan)),
            ("picture", &picture(plan, survey, &layout)),
            (
                "size",
                if plan.sizes.stations <= SMALL {
                    "small"
                } else {
                    ""
                },
            ),
            ("rows", &plan.sizes.stations.to_string()),
            ("about", &about()),
            ("data", &data(plan, survey, &layout)),
            ("script", SCRIPT),
        ],
    )
}

/// What is proved and what is not, and the limits.
fn about() -> String {
    fill(
        ABOUT,
        &[
            ("walks", &MOST_WALKS.to_string()),
            ("inside", &MOST_INSIDE.to_string()),
        ],
    )
}

/// A station of a record at fault.
fn named(station: u16, names: &Names) -> String {
    match names.get(&station) {
        Some(name) => format!("station {station} ({name})"),
        None => format!("station {station}"),
    }
}

/// Position, slot and stations of the record at fault.
fn fault(fault: &Fault, names: &Names) -> String {
    let [slot, a, b] = fault.record;
    let (a, b) = (named(a, names), named(b, names));
    format!(
        "position {}, slot {slot}, {a} sends, {b} hears",
        fault.position
    )
}

/// A refusal as one line.
pub fn refusal_line(refusal: &Refusal, names: &Names) -> String {
    let words = words(refusal.number, PROGRAM);
    let line = format!("refused {}: {words}", refusal.number);
    match &refusal.record {
        Some(record) => format!("{line}: {}", fault(record, names)),
        None => format!("{line}: {}", measures(refusal)),
    }
}

/// The sizes of a plan that is refused.
fn measures(refusal: &Refusal) -> String {
    let (records, rest) = (refusal.length / 6, refusal.length % 6);
    let mut measures = format!(
        "{} bytes, {}",
        refusal.length,
        number_of(records, "whole record")
    );
    if rest > 0 {
        measures.push_str(&format!(" and {} more", number_of(rest, "byte")));
    }
    if let Some(sizes) = refusal.sizes {
        let (n, t) = (sizes.stations, sizes.slots);
        measures.push_str(&format!(", n = {n}, T = {t}"));
    }
    measures
}

/// Rows of the record at fault, and of the one before it for 5.
fn fault_rows(refusal: &Refusal, names: &Names) -> String {
    let Some(record) = &refusal.record else {
        return String::new();
    };
    let row = |head: &str, text: &str| format!("<tr><th>{head}</th><td>{}</td></tr>", html(text));
    let [slot, a, b] = record.record;
    let mut rows = [
        row("position", &format!("{} (counted from 0)", record.position)),
        row("slot", &slot.to_string()),
        row("sender", &named(a, names)),
        row("hearer", &named(b, names)),
    ]
    .concat();
    if let (5, Some([slot, a, b])) = (refusal.number, record.before) {
        let (a, b) = (named(a, names), named(b, names));
        rows += &row(
            "record before it",
            &format!("slot {slot}, {a} sends, {b} hears"),
        );
    }
    format!("<h2>The record at fault</h2><table id=\"fault\">{rows}</table>")
}

/// The page of a plan that is refused.
pub fn refused_page(refusal: &Refusal, names: &Names) -> String {
    fill(
        REFUSED,
        &[
            ("style", STYLE),
            ("number", &refusal.number.to_string()),
            ("words", &html(&words(refusal.number, PROGRAM))),
            ("fault", &fault_rows(refusal, names)),
            ("measures", &measures(refusal)),
        ],
    )
}
