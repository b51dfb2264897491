//! What the comparing tests share: how often each thing was compared, and the end of the run at a difference.
use std::collections::BTreeMap;
use std::fmt::Debug;

/// How often each thing was compared, and how often each number came back.
#[derive(Default)]
pub struct Counts {
    pub compared: BTreeMap<&'static str, u64>,
    codes: BTreeMap<(&'static str, u32), u64>,
}

impl Counts {
    pub fn seen(&mut self, what: &'static str) {
        *self.compared.entry(what).or_default() += 1;
    }

    pub fn one(&mut self, what: &'static str, code: u32) {
        self.seen(what);
        *self.codes.entry((what, code)).or_default() += 1;
    }

    /// Each of these calls gave each of these numbers, 0 for an accepted call, and no other.
    pub fn expect(&self, calls: &[(&'static str, &[u32])]) {
        for (call, numbers) in calls {
            let met: Vec<u32> = self.codes.keys().filter(|(what, _)| what == call).map(|(_, code)| *code).collect();
            same("the numbers of refusal that were met", call, met, numbers.to_vec());
        }
    }

    pub fn print(&self) {
        for (what, count) in &self.compared {
            let codes: Vec<String> = self.codes.iter().filter(|((w, _), _)| w == what).map(|((_, code), n)| format!("{code}: {n}")).collect();
            let codes = if codes.is_empty() { String::new() } else { format!(" (by number of refusal: {})", codes.join(", ")) };
            println!("  {count} {what}{codes}");
        }
    }
}

pub fn same<T: PartialEq + Debug>(what: &str, context: &dyn Debug, proved: T, outside: T) {
    if proved != outside {
        println!("DIFFERENCE in {what}\nof {context:02x?}\nproved:  {proved:02x?}\noutside: {outside:02x?}");
        std::process::exit(1);
    }
}

pub fn code_of<T>(result: &Result<T, u32>) -> u32 {
    result.as_ref().err().copied().unwrap_or(0)
}
