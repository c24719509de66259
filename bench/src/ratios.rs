//! The picture of the ratios of a run: bars that begin at 1, on a logarithmic scale.

use crate::results::{ratio, Row, Run};
use crate::svg::{Anchor, Panel, Svg, BLUE, EDGE, ORANGE};

/// The cases of one group stand side by side, one for each m from 2 to 5.
const IN_GROUP: usize = 4;
const BAR: f64 = 18.2;

pub fn picture(run: &Run, rows: &[Row]) -> String {
    let mut svg = Svg::new(900, 420, "How long brute force takes, as a multiple of the library's time");
    let Run { date, commit, machine, rounds, .. } = run;
    let told = format!("medians of {rounds} rounds, {date}, commit {commit}, {machine}, plain x86-64");
    svg.text(450.0, 45.0, 11, Anchor::Middle, &told);
    svg.legend_patch(110.0, 70.0, BLUE, "quickest brute force (transform: plain loop)");
    svg.legend_patch(400.0, 70.0, ORANGE, "plain program (transform: sum by definition)");

    let up = decades(rows);
    let groups = rows.len() / IN_GROUP;
    let panel = Panel { left: 72.0, right: 892.0, top: 95.0, bottom: 350.0, across: (0.0, groups as f64), up };
    let ticks: Vec<(f64, String)> = (up.0 as i32..=up.1 as i32).map(|k| (k as f64, power_of_ten(k))).collect();
    let places: Vec<(f64, String)> = (0..rows.len()).map(|k| (centre(k), format!("m={}", 2 + k % IN_GROUP))).collect();
    panel.axes(&mut svg, (&places, ""), (&ticks, "times the library's time"));
    for (k, group) in rows.chunks(IN_GROUP).enumerate() {
        let name = group[0].name().rsplit_once(" m=").map_or(group[0].name(), |(name, _)| name);
        svg.text(panel.x(k as f64 + 0.5), panel.bottom + 37.0, 13, Anchor::Middle, name);
        if k > 0 {
            svg.line(&[(panel.x(k as f64), panel.top), (panel.x(k as f64), panel.bottom + 40.0)], EDGE);
        }
    }
    for (k, row) in rows.iter().enumerate() {
        let x = panel.x(centre(k));
        bar(&mut svg, &panel, x - BAR - 0.5, row.quickest, BLUE);
        bar(&mut svg, &panel, x + 0.5, row.plain, ORANGE);
    }
    svg.line(&[(panel.left, panel.y(0.0)), (panel.right, panel.y(0.0))], EDGE);
    svg.text(450.0, 410.0, 12, Anchor::Middle, "above 1 the library is the quicker, below 1 the slower");
    svg.finish()
}

/// The powers of ten below and above all ratios, with room for their numbers, as exponents.
fn decades(rows: &[Row]) -> (f64, f64) {
    let logarithms = || rows.iter().flat_map(|row| [row.quickest, row.plain]).map(f64::log10);
    let (least, greatest) = (logarithms().fold(0.0, f64::min), logarithms().fold(0.0, f64::max));
    ((least - 0.2).floor(), (greatest + 0.2).ceil())
}

/// Where a case stands: groups are 1 wide, with a little room at both sides.
fn centre(k: usize) -> f64 {
    (k / IN_GROUP) as f64 + 0.02 + 0.96 * ((k % IN_GROUP) as f64 + 0.5) / IN_GROUP as f64
}

fn power_of_ten(k: i32) -> String {
    if k < 0 {
        format!("0.{}1", "0".repeat(-k as usize - 1))
    } else {
        format!("1{}", "0".repeat(k as usize))
    }
}

/// A bar from 1 to the ratio, and the ratio beyond its end.
fn bar(svg: &mut Svg, panel: &Panel, x: f64, value: f64, fill: &str) {
    let (one, end) = (panel.y(0.0), panel.y(value.log10()));
    svg.rectangle(x, one.min(end), BAR, (one - end).abs(), fill);
    let y = if end <= one { end - 3.0 } else { end + 10.0 };
    svg.text(x + BAR / 2.0, y, 9, Anchor::Middle, &ratio(value));
}
