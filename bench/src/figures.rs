//! Tables of the paper's experiment, to be laid beside its figures: one configuration step by step (11, 16, 20), all of them
//! by load (13, 14, 18, 19), and how often and how far clocks move a duration (section 4.4).

use crate::paper::{configurations, Point};

fn microseconds(duration: Option<u64>) -> String {
    duration.map_or("none".into(), |ns| format!("{:.3}", ns as f64 / 1_000.0))
}

fn one(points: &[Point]) {
    println!("{:>5} {:>7} {:>12} {:>12} {:>12} {:>12}", "flows", "load %", "least", "safe", "clocks least", "clocks safe");
    for point in points {
        let [least, safe] = point.equal.map(microseconds);
        let [least_apart, safe_apart] = point.apart.map(microseconds);
        let load = point.load as f64 / 100.0;
        println!("{:>5} {load:>7.2} {least:>12} {safe:>12} {least_apart:>12} {safe_apart:>12}", point.flows);
    }
}

/// The number at so many percent of a rising row.
fn at(row: &[f64], percent: usize) -> f64 {
    row[(row.len() - 1) * percent / 100]
}

/// Steps by tens of percent of load: how many, at how many no duration is margin-safe, then medians and the ends of 95 % of them:
/// least and margin-safe duration in us, and the second by the first.
fn by_load(points: &[&Point]) {
    println!(
        "{:>7} {:>6} {:>6} {:>10} {:>10} {:>10} {:>10} {:>10} {:>7} {:>7}",
        "load %", "steps", "none", "least", "95 %", "safe", "95 %", "most", "ratio", "95 %"
    );
    for tens in 0..10 {
        let band: Vec<&&Point> = points.iter().filter(|point| point.load / 1_000 == tens).collect();
        let found: Vec<(u64, u64)> = band.iter().filter_map(|point| point.apart[0].zip(point.apart[1])).collect();
        if found.is_empty() {
            continue;
        }
        let sorted = |number: fn(&(u64, u64)) -> f64| {
            let mut row: Vec<f64> = found.iter().map(number).collect();
            row.sort_by(f64::total_cmp);
            row
        };
        let least = sorted(|found| found.0 as f64 / 1_000.0);
        let safe = sorted(|found| found.1 as f64 / 1_000.0);
        let ratio = sorted(|found| found.1 as f64 / found.0 as f64);
        println!(
            "{:>7} {:>6} {:>6} {:>10.1} {:>10.1} {:>10.1} {:>10.1} {:>10.1} {:>7.2} {:>7.2}",
            format!("{}-{}", 10 * tens, 10 * tens + 10),
            band.len(),
            band.len() - found.len(),
            at(&least, 50),
            at(&least, 95),
            at(&safe, 50),
            at(&safe, 95),
            at(&safe, 100),
            at(&ratio, 50),
            at(&ratio, 95)
        );
    }
}

/// Steps at which clocks move a duration, and by how much.
fn moved(points: &[&Point]) {
    for (which, name) in [(0, "least"), (1, "margin-safe")] {
        let both = points.iter().filter_map(|point| point.equal[which].zip(point.apart[which]));
        let differ = both.filter(|(equal, apart)| equal != apart);
        let apart: Vec<f64> = differ.map(|(equal, apart)| (apart - equal) as f64 / 1_000.0).collect();
        let lost = points.iter().filter(|point| point.equal[which].is_some() && point.apart[which].is_none()).count();
        let average = apart.iter().sum::<f64>() / apart.len().max(1) as f64;
        let (lowest, highest) = apart.iter().fold((f64::MAX, 0f64), |ends, by| (ends.0.min(*by), ends.1.max(*by)));
        print!("clocks move the {name} duration at {} of {} steps", apart.len(), points.len());
        if !apart.is_empty() {
            print!(", by {lowest:.3} to {highest:.3} us, {average:.3} on average");
        }
        println!("{}", if lost > 0 { format!("; at {lost} more there is none with clocks") } else { String::new() });
    }
}

const SAID: &str = "\
Flows of Table 2 of document 000 at 100 Mbit/s, without blockers; clocks with a drift of 100 ppm, a timing jitter of
2 ns and a synchronization error of 1,000 ns. There the guard bands take a tenth of the duration: here they are 0 and
the rate is 90. There loads leave out 20 bytes of each frame: here frames are 20 bytes shorter. There durations have
no top: here it is 99,500 us.
";

pub fn print() {
    println!("{SAID}");
    for (line, name) in [(false, "One node"), (true, "A line of 16 nodes")] {
        let all = configurations(line);
        let points: Vec<&Point> = all.iter().flatten().collect();
        println!("{name}: one configuration, durations in us");
        one(&all[0]);
        println!("\n{name}: {} configurations with clocks, durations in us", all.len());
        by_load(&points);
        println!();
        moved(&points);
        println!();
    }
}
