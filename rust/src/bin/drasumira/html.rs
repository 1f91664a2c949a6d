// The report as one page for a browser: a histogram for each detector, the totals, the refused lines by cause. Nothing is fetched from elsewhere.
use crate::shown::thousands;
use drasumira::{Detector, Report};

/// Bins of a detector, each 1/64 of ratio wide; the last has all that is above.
const BINS: u32 = 513;
const PER_ONE: u32 = 64;
const MOST_ONES: u32 = 8;
const HEIGHT: u32 = 100;

/// What the page tells beside the report: the files, the threshold at which noise begins, how many lines are noise, and of the refused lines each
/// cause in words and how many they are.
pub struct Facts {
    pub files: Vec<String>,
    pub threshold: f32,
    pub noise: u64,
    pub causes: Vec<(String, u64)>,
}

pub fn page(report: &Report, facts: &Facts) -> String {
    let refused: u64 = facts.causes.iter().map(|(_, count)| count).sum();
    let files: Vec<String> = facts.files.iter().map(|file| escaped(file)).collect();
    let causes = if facts.causes.is_empty() { String::new() } else { format!("<h2>Refused lines by cause</h2>\n{}", table(&facts.causes)) };
    let lines = report.len() as u64;
    let noise = format!("noise: a score of {} or above", facts.threshold);
    let totals = [("lines", lines), ("accepted", lines - refused), (&noise, facts.noise), ("refused", refused)];
    let totals = table(&totals.map(|(name, count)| (name.to_string(), count)));
    let histograms: String = Detector::ALL.into_iter().map(|detector| histogram(report, detector)).collect();
    format!("{HEAD}<p>{}</p>\n{totals}{causes}<h2>Ratios by detector</h2>\n<p>{EXPLAINED}</p>\n{histograms}", files.join(", "))
}

fn table(rows: &[(String, u64)]) -> String {
    let rows: String = rows.iter().map(|(words, count)| format!("<tr><td>{}<td>{}\n", escaped(words), thousands(*count))).collect();
    format!("<table>\n{rows}</table>\n")
}

// Light and dark as the reader has it, narrow windows, and paper: a figure is not cut over two sheets, and its bars are printed.
const HEAD: &str = "<!doctype html>
<html lang=\"en\">
<meta charset=\"utf-8\">
<meta name=\"viewport\" content=\"width=device-width, initial-scale=1\">
<title>Noise in the log</title>
<style>
:root { color-scheme: light dark; --ink: #222; --paper: #fff; --pale: #666; --ground: #f2f2f2; --grid: #ccc; --bar: #b33 }
@media (prefers-color-scheme: dark) {
:root { --ink: #ddd; --paper: #1b1b1b; --pale: #aaa; --ground: #2a2a2a; --grid: #555; --bar: #e66 } }
body { font: 16px/1.4 sans-serif; max-width: 60em; margin: 2em auto; padding: 0 1em; color: var(--ink); background: var(--paper) }
p, td { overflow-wrap: anywhere } td { padding: 0 2em 0 0; vertical-align: top } td + td { text-align: right; white-space: nowrap; padding: 0 }
figure { margin: 1.5em 0; break-inside: avoid } figcaption { margin-bottom: .3em }
svg { display: block; width: 100%; height: 9em; background: var(--ground); print-color-adjust: exact; -webkit-print-color-adjust: exact }
.none { height: 1px } rect { fill: var(--bar) } line { stroke: var(--grid); vector-effect: non-scaling-stroke }
.ticks { display: flex; justify-content: space-between; color: var(--pale); font-size: 12px }
</style>
<h1>Noise in the log</h1>
";

const EXPLAINED: &str = "Each bar is the lines whose ratio lies in one 64th. The first bin, of lines in which the detector found nothing to speak of, \
is told in words and not drawn; a bar at 8 has all ratios of 8 and above. Each figure is as wide as its ratios go, and as high as its highest bar.";

fn histogram(report: &Report, detector: Detector) -> String {
    let (nothing, drawn): (Vec<_>, Vec<_>) = report.bins(detector).into_iter().partition(|(bin, _)| *bin == 0);
    let sum = |bins: &[(u32, u32)]| bins.iter().map(|(_, count)| u64::from(*count)).sum();
    let (without, with) = (lines(sum(&nothing)), thousands(sum(&drawn)));
    let caption = format!("<figure>\n<figcaption><b>{detector}</b>: {without} with nothing, {with} with something");
    let Some(highest) = drawn.iter().map(|(_, count)| *count).max() else {
        return format!(
            "{caption}</figcaption>\n<svg class=\"none\" role=\"img\" aria-label=\"{detector}: nothing to draw\"></svg>\n</figure>\n"
        );
    };
    let bars: String = drawn.iter().map(|bin| bar(*bin, highest)).collect();
    // as wide as the ratios go, in whole ones; one alone is told in quarters
    let ones = drawn.last().map_or(1, |(bin, _)| (bin / PER_ONE + 1).min(MOST_ONES));
    let width = if ones == MOST_ONES { BINS } else { ones * PER_ONE };
    let steps = if ones == 1 { 4 } else { ones };
    let at = |step: u32| step * ones * PER_ONE / steps;
    let grid: String = (1..steps).map(|step| format!("<line x1=\"{0}\" x2=\"{0}\" y1=\"0\" y2=\"{HEIGHT}\"/>", at(step))).collect();
    let ticks: String = (0..=steps).map(|step| format!("<span>{}</span>", ratio(at(step)))).collect();
    format!(
        "{caption}; the highest bar is {}</figcaption>\n\
         <svg viewBox=\"0 0 {width} {HEIGHT}\" preserveAspectRatio=\"none\" role=\"img\" aria-label=\"{detector}\">\n{grid}\n{bars}</svg>\n\
         <div class=\"ticks\">{ticks}</div>\n</figure>\n",
        lines(highest.into())
    )
}

// As high as its share of the highest; a bar of one line can still be seen.
fn bar((bin, count): (u32, u32), highest: u32) -> String {
    let height = (HEIGHT * count / highest).max(1);
    let ratios = if bin + 1 == BINS { "8 and above".to_string() } else { format!("from {} to {}", ratio(bin), ratio(bin + 1)) };
    let (top, count) = (HEIGHT - height, lines(count.into()));
    format!("<rect x=\"{bin}\" y=\"{top}\" width=\"1\" height=\"{height}\"><title>{ratios}: {count}</title></rect>\n")
}

// Where a bin begins.
fn ratio(bin: u32) -> f64 {
    f64::from(bin) / f64::from(PER_ONE)
}

fn lines(count: u64) -> String {
    format!("{} {}", thousands(count), if count == 1 { "line" } else { "lines" })
}

fn escaped(text: &str) -> String {
    text.replace('&', "&amp;").replace('<', "&lt;").replace('>', "&gt;").replace('"', "&quot;")
}
