//! The table of measurements.

use std::time::Duration;

/// Measurements of the product and the twin on the same input.
#[derive(Debug, Clone, Copy)]
pub struct Pair<T> {
    pub product: T,
    pub twin: T,
}

impl<T> Pair<T> {
    pub fn map<U>(self, change: impl Fn(T) -> U) -> Pair<U> {
        Pair {
            product: change(self.product),
            twin: change(self.twin),
        }
    }
}

/// Prints rows and keeps the worst ratio.
#[derive(Debug, Default)]
pub struct Report {
    title: String,
    worst: Option<(f64, String)>,
}

impl Report {
    pub fn heading(&mut self, title: &str) {
        self.title = title.to_string();
        println!();
        println!(
            "{title:<44} {:>12} {:>12} {:>13}",
            "product", "twin", "product/twin"
        );
    }

    /// So many things were done in these times. Prints things per second; the
    /// ratio is that of the times, so above 1 the product is the slower one.
    pub fn rate(&mut self, name: &str, things: usize, times: Pair<Duration>) {
        let rate = |time: Duration| scaled(things as f64 / time.as_secs_f64());
        let ratio = times.product.as_secs_f64() / times.twin.as_secs_f64();
        self.row(name, [rate(times.product), rate(times.twin)], ratio);
    }

    /// Memory in KiB.
    pub fn memory(&mut self, name: &str, kib: Pair<u64>) {
        let ratio = kib.product as f64 / kib.twin as f64;
        let shown = [kib.product, kib.twin].map(|kib| format!("{kib} KiB"));
        self.row(name, shown, ratio);
    }

    /// Two numbers that are not to be divided by one another.
    pub fn side_by_side(&self, name: &str, shown: Pair<String>) {
        println!("  {name:<42} {:>12} {:>12}", shown.product, shown.twin);
    }

    pub fn close(self) {
        if let Some((ratio, name)) = self.worst {
            println!();
            println!("worst ratio product/twin: {ratio:.2} ({name})");
        }
    }

    fn row(&mut self, name: &str, [product, twin]: [String; 2], ratio: f64) {
        println!("  {name:<42} {product:>12} {twin:>12} {ratio:>13.2}");
        if self.worst.as_ref().is_none_or(|(worst, _)| *worst < ratio) {
            self.worst = Some((ratio, format!("{}, {name}", self.title)));
        }
    }
}

fn scaled(rate: f64) -> String {
    match rate {
        1e9.. => format!("{:.2} G/s", rate / 1e9),
        1e6.. => format!("{:.2} M/s", rate / 1e6),
        _ => format!("{:.2} k/s", rate / 1e3),
    }
}
