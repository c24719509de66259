//! Draws docs/found.svg: how often decoding finds the message sent, as noise or damage grows.
//!     picture SEED      from the top of the repository; bench/picture gives the seed
//! All is drawn from the seed in whole numbers, so the picture is the same on every computer. Where the theorems
//! promise the message (crates/theorems, damage-two and damage-four, soft-back and hard-back), a miss is an error.

use bench::channel::{damaged, decided, noisy, tones};
use bench::draw::Draw;
use bench::svg::{Anchor, Panel, Stroke, Svg, BLUE, VERMILION};
use sharqudel::{encode, hard, soft, Closest, Message, Refusal};
use std::error::Error;

const FILE: &str = "docs/found.svg";
const TRIALS: usize = 1000;
const M: usize = 5;
const N: usize = 1 << M;
/// The level at which words are sent, and the steps in which the spread of the noise grows. Nothing is ever cut: no
/// noise is beyond six spreads, and the greatest value is 2,000 + 6 * 3,600.
const LEVEL: i16 = 2000;
const STEP: i64 = LEVEL as i64 / 10;
const STEPS: usize = 18;
/// The greatest damage.
const DAMAGE: usize = 18;

/// How many of the trials found the message, at each point.
type Curve = Vec<usize>;

fn message(draw: &mut Draw, h: usize) -> Message {
    Message(draw.below(32 << (h * (M + 1))) as u64)
}

fn sent(h: usize, message: Message) -> Result<[u8; N], Refusal> {
    let mut word = [0; N];
    encode(h as u32, M as u32, message, &mut word)?;
    Ok(word)
}

/// Soft decoding of noisy values, and hard decoding of the symbols decided from the same values.
fn with_noise(draw: &mut Draw, h: usize) -> Result<(Curve, Curve), Box<dyn Error>> {
    let (mut by_soft, mut by_hard) = (vec![0; STEPS + 1], vec![0; STEPS + 1]);
    for step in 0..=STEPS {
        for _ in 0..TRIALS {
            let message = message(draw, h);
            let values = noisy(draw, &tones(h, &sent(h, message)?, LEVEL), step as i64 * STEP);
            by_soft[step] += (soft(h as u32, M as u32, &values)?.message == message) as usize;
            by_hard[step] += (hard(h as u32, M as u32, &decided(h, &values))?.message == message) as usize;
        }
    }
    if by_soft[0] < TRIALS || by_hard[0] < TRIALS {
        return Err(format!("h={h}: a message that was sent without noise is not found").into());
    }
    Ok((by_soft, by_hard))
}

/// The greatest damage that is proved to come back: twice it is below the least distance, 2^(m-2) or 2^(m-1).
fn proved(h: usize) -> usize {
    (1 << (M - 3 + h)) / 2 - 1
}

/// Hard decoding of damaged words.
fn with_damage(draw: &mut Draw, h: usize) -> Result<Curve, Box<dyn Error>> {
    let mut found = vec![0; DAMAGE + 1];
    for (weight, found) in found.iter_mut().enumerate() {
        for _ in 0..TRIALS {
            let message = message(draw, h);
            let word = damaged(draw, h, &sent(h, message)?, weight);
            let closest = hard(h as u32, M as u32, &word)?;
            *found += (closest.message == message) as usize;
            if weight <= proved(h) && closest != (Closest { message, distance: weight as u32, tied: false }) {
                return Err(format!("h={h}: damage {weight} to message {message} gives {closest:?}").into());
            }
        }
    }
    Ok(found)
}

/// How a curve is drawn: the colour tells the phases, the dashes soft and hard too.
#[derive(Clone, Copy)]
struct Kind {
    name: &'static str,
    stroke: Stroke,
}

const fn kind(name: &'static str, colour: &'static str, dashes: &'static str) -> Kind {
    Kind { name, stroke: Stroke { colour, width: 2.2, dashes } }
}

const SOFT_TWO: Kind = kind("h=1 (2 phases), soft", VERMILION, "2 3");
const HARD_TWO: Kind = kind("h=1 (2 phases), hard", VERMILION, "10 3 2 3");
const SOFT_FOUR: Kind = kind("h=2 (4 phases), soft", BLUE, "");
const HARD_FOUR: Kind = kind("h=2 (4 phases), hard", BLUE, "7 4");

fn percents() -> Vec<(f64, String)> {
    (0..=5).map(|k| (20.0 * k as f64, format!("{} %", 20 * k))).collect()
}

/// A frame whose points are numbered from 0 to `last`.
fn frame(left: f64, right: f64, last: usize) -> Panel {
    Panel { left, right, top: 84.0, bottom: 328.0, across: (0.0, last as f64), up: (0.0, 100.0) }
}

fn curve(svg: &mut Svg, panel: &Panel, kind: Kind, curve: &Curve) {
    let share = |found: usize| 100.0 * found as f64 / TRIALS as f64;
    let point = |(k, found): (usize, &usize)| (panel.x(k as f64), panel.y(share(*found)));
    let points: Vec<(f64, f64)> = curve.iter().enumerate().map(point).collect();
    svg.line(&points, kind.stroke);
    points.iter().for_each(|(x, y)| svg.dot(*x, *y, kind.stroke.colour));
}

fn noise_panel(svg: &mut Svg, curves: &[(Kind, Curve)]) {
    let panel = frame(80.0, 450.0, STEPS);
    let tenths = |k: usize| (k as f64, format!("{}.{}", k / 10, k % 10));
    let ticks: Vec<(f64, String)> = (0..=STEPS).step_by(2).map(tenths).collect();
    svg.text((panel.left + panel.right) / 2.0, 70.0, 13, Anchor::Middle, "Noise: soft and hard decoding");
    panel.axes(svg, (&ticks, "spread of the noise, as a multiple of the level"), (&percents(), "messages found"));
    curves.iter().for_each(|(kind, points)| curve(svg, &panel, *kind, points));
}

fn damage_panel(svg: &mut Svg, curves: &[(Kind, Curve, usize)]) {
    let panel = frame(525.0, 885.0, DAMAGE);
    let ticks: Vec<(f64, String)> = (0..=DAMAGE).step_by(2).map(|k| (k as f64, k.to_string())).collect();
    svg.text((panel.left + panel.right) / 2.0, 70.0, 13, Anchor::Middle, "Damaged symbols: hard decoding");
    panel.axes(svg, (&ticks, "places changed (h=1), Lee weight of the damage (h=2)"), (&percents(), ""));
    for (kind, points, h) in curves {
        let x = panel.x(proved(*h) as f64);
        let mark = Stroke { colour: kind.stroke.colour, width: 1.2, dashes: "" };
        svg.line(&[(x, panel.top), (x, panel.bottom)], mark);
        svg.upward(x + 13.0, panel.top + 85.0, 11, &format!("h={h}: proved up to {}", proved(*h)));
        curve(svg, &panel, *kind, points);
    }
}

fn main() -> Result<(), Box<dyn Error>> {
    let seed: u64 = std::env::args().nth(1).ok_or("a seed is asked for")?.parse()?;
    println!("seed {seed}, {TRIALS} trials for each point; messages found at each point:");
    let mut draw = Draw::new(seed);
    let (soft_two, hard_two) = with_noise(&mut draw, 1)?;
    let (soft_four, hard_four) = with_noise(&mut draw, 2)?;
    let noise = [(SOFT_TWO, soft_two), (HARD_TWO, hard_two), (SOFT_FOUR, soft_four), (HARD_FOUR, hard_four)];
    let damage = [(HARD_TWO, with_damage(&mut draw, 1)?, 1), (HARD_FOUR, with_damage(&mut draw, 2)?, 2)];
    noise.iter().for_each(|(kind, found)| println!("noise, {}: {found:?}", kind.name));
    damage.iter().for_each(|(kind, found, _)| println!("damage, {}: {found:?}", kind.name));

    let mut svg = Svg::new(900, 420, "How often the message sent is found");
    let drawn = format!("{N} carriers (m={M}), {TRIALS} messages for each point, seed {seed}");
    let told = format!("{drawn}; up to a vertical line all are proved to be found");
    svg.text(450.0, 46.0, 12, Anchor::Middle, &told);
    noise_panel(&mut svg, &noise);
    damage_panel(&mut svg, &damage);
    for (k, (kind, _)) in noise.iter().enumerate() {
        svg.legend_line(88.0 + 190.0 * k as f64, 402.0, kind.stroke, kind.name);
    }
    std::fs::write(FILE, svg.finish())?;
    println!("written: {FILE}");
    Ok(())
}
