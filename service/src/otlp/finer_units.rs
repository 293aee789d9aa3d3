//! `--integer-unit`: what is measured in one unit is taken as whole numbers of a finer one.
//!
//! `rewrite` does it to a request in the book's form, so it is the same for both encodings. A double counts as its
//! shortest decimal, which is what a program wrote or meant, and is multiplied exactly. `rounded` is what was rounded meanwhile. `units` decides for metrics that no rule is for, and `scale` is the same
//! for points that are read by number.

mod folder_units;
mod plan;
mod rewrite;
mod rounded;
mod scale;
mod units;

pub(super) use rewrite::rewritten;
pub(super) use rounded::{shown_of, RoundedPoint};
pub use rounded::{Rounded, Rounding, ShownSeries};
pub(super) use scale::{scale_of, InFiner, Scale, Scaled};
pub use units::Decided;

use super::series::Profile;
use std::collections::BTreeMap;
use std::fmt;
use std::str::FromStr;
use std::sync::Arc;
use units::{Unit, Units};

/// The largest factor: with it the product of any double's digits fits 128 bits.
const MAX_FACTOR: u64 = 1_000_000_000_000_000_000;

/// How long a unit's name may be, as OpenTelemetry has it.
const MAX_UNIT: usize = 63;

/// Units of times, of bytes and of parts of one, with how many of the finest one of their kind they are.
const TIMES: [(&str, u64); 7] = [
    ("d", 86_400_000_000_000),
    ("h", 3_600_000_000_000),
    ("min", 60_000_000_000),
    ("s", 1_000_000_000),
    ("ms", 1_000_000),
    ("us", 1_000),
    ("ns", 1),
];
const BYTES: [(&str, u64); 9] = [
    ("TiBy", 1 << 40),
    ("TBy", 1_000_000_000_000),
    ("GiBy", 1 << 30),
    ("GBy", 1_000_000_000),
    ("MiBy", 1 << 20),
    ("MBy", 1_000_000),
    ("KiBy", 1 << 10),
    ("kBy", 1_000),
    ("By", 1),
];
/// UCUM has `[ppm]` for 10^-6.
const PARTS: [(&str, u64); 3] = [("1", 1_000_000), ("%", 10_000), ("[ppm]", 1)];

/// One rule: a unit, the finer one, and how many of it one is.
#[derive(Clone, Debug, PartialEq, Eq)]
pub struct Rule {
    pub from: String,
    pub factor: u64,
    pub to: String,
    /// All of it, as it is counted.
    text: Arc<str>,
}

impl FromStr for Rule {
    type Err = String;

    /// `s=us`, `By`, `{step}=1000:{millistep}`; `=` is of metrics without a unit.
    fn from_str(text: &str) -> Result<Rule, String> {
        if text == "=" {
            return Ok(Rule::new("", 1, ""));
        }
        let (from, right) = text.split_once('=').unwrap_or((text, text));
        let (factor, to) = match right.split_once(':') {
            Some((factor, to)) => (factor_of(factor)?, to),
            None => (known_factor(from, right)?, right),
        };
        for unit in [from, to] {
            if unit.is_empty() || unit.len() > MAX_UNIT || unit.contains(char::is_whitespace) {
                return Err(format!(
                    "a unit is 1 to {MAX_UNIT} bytes without blanks, and this is none: `{unit}`"
                ));
            }
        }
        Ok(Rule::new(from, factor, to))
    }
}

impl Rule {
    fn new(from: &str, factor: u64, to: &str) -> Rule {
        let text = format!("{from}={factor}:{to}").into();
        Rule { from: from.into(), factor, to: to.into(), text }
    }

    /// Whether whole numbers stay as they are.
    fn is_same(&self) -> bool {
        self.factor == 1 && self.from == self.to
    }
}

fn factor_of(text: &str) -> Result<u64, String> {
    let factor = text.parse().ok().filter(|factor| (1..=MAX_FACTOR).contains(factor));
    factor.ok_or_else(|| {
        format!("a factor is a whole number from 1 to {MAX_FACTOR}, and this is none: `{text}`")
    })
}

/// How many of the one unit are in the other, where both are known.
fn known_factor(from: &str, to: &str) -> Result<u64, String> {
    if from == to {
        return Ok(1);
    }
    let size = |units: &[(&str, u64)], unit| units.iter().find(|known| known.0 == unit).map(|known| known.1);
    let pair = |units| Some((size(units, from)?, size(units, to)?));
    match pair(&TIMES).or_else(|| pair(&BYTES)).or_else(|| pair(&PARTS)) {
        Some((from, to)) if from % to == 0 => Ok(from / to),
        Some(_) => Err(format!("`{to}` is not finer than `{from}`, or no whole part of it")),
        None => Err(format!("how many `{to}` is one `{from}`? Write {from}=FACTOR:{to}")),
    }
}

impl fmt::Display for Rule {
    fn fmt(&self, out: &mut fmt::Formatter<'_>) -> fmt::Result {
        out.write_str(&self.text)
    }
}

/// What `--integer-unit` is given: a rule, or how metrics without one are taken.
#[derive(Clone, Debug, PartialEq, Eq)]
pub enum Choice {
    Auto,
    Off,
    Rule(Rule),
}

impl FromStr for Choice {
    type Err = String;

    fn from_str(text: &str) -> Result<Choice, String> {
        match text {
            "auto" => Ok(Choice::Auto),
            "off" => Ok(Choice::Off),
            rule => rule.parse().map(Choice::Rule),
        }
    }
}

/// All rules, one for a unit.
#[derive(Clone, Default)]
pub struct FinerUnits {
    rules: BTreeMap<String, Rule>,
    /// For known units without a rule; none where these are off.
    units: Option<Arc<Units>>,
    /// Of which points it is.
    profile: Profile,
}

impl FinerUnits {
    /// Rules alone. The error names the unit that has two.
    pub fn new(rules: impl IntoIterator<Item = Rule>) -> Result<FinerUnits, String> {
        let mut all = BTreeMap::new();
        for rule in rules {
            if let Some(other) = all.insert(rule.from.clone(), rule) {
                return Err(format!("--integer-unit has two rules for the unit `{}`", other.from));
            }
        }
        Ok(FinerUnits { rules: all, units: None, profile: Profile::default() })
    }

    /// As the option has it: `auto` unless it is off.
    pub fn of(choices: impl IntoIterator<Item = Choice>) -> Result<FinerUnits, String> {
        let (mut rules, mut said) = (Vec::new(), [false; 2]);
        for choice in choices {
            match choice {
                Choice::Auto => said[0] = true,
                Choice::Off => said[1] = true,
                Choice::Rule(rule) => rules.push(rule),
            }
        }
        match said {
            [true, true] => Err("--integer-unit is both auto and off: leave one out".to_string()),
            [_, true] => FinerUnits::new(rules),
            _ => Ok(FinerUnits { units: Some(Arc::default()), ..FinerUnits::new(rules)? }),
        }
    }

    /// The same, for these points.
    pub fn with_profile(self, profile: Profile) -> FinerUnits {
        FinerUnits { profile, ..self }
    }

    /// The same for a shard of several, which decides by what it has itself.
    pub fn of_shard(&self) -> FinerUnits {
        let units = self.units.clone();
        FinerUnits { units: units.map(|of_all| Arc::new(Units::of_shard(of_all))), ..self.clone() }
    }

    /// Whose decisions these are: 0 where all shards have the same.
    pub fn decides(&self) -> u64 {
        self.units.as_ref().map_or(0, |units| units.number)
    }

    /// Whether metrics without a unit have a rule, also where their field is not there.
    pub fn has_no_unit(&self) -> bool {
        self.rules.contains_key("")
    }

    /// Whether metrics of this unit may be taken in another one.
    pub fn is_about(&self, unit: &str) -> bool {
        self.rules.contains_key(unit) || (self.units.is_some() && Unit::of(unit).is_some())
    }

    /// Whether whole numbers of a metric stay as they are, which is known without a look at its points: also in the finest unit
    /// only once that is decided, since other units of its name go by it.
    pub fn leaves(&self, metric: &str, unit: &str) -> bool {
        match (self.rules.contains_key(unit), &self.units, Unit::of(unit)) {
            (true, ..) => false,
            (_, Some(units), Some(unit)) => units.decided(metric, unit) == Some(unit),
            _ => true,
        }
    }
}

impl fmt::Debug for FinerUnits {
    fn fmt(&self, out: &mut fmt::Formatter<'_>) -> fmt::Result {
        let auto = if self.units.is_some() { "auto" } else { "off" };
        out.debug_tuple("FinerUnits").field(&auto).field(&self.rules).finish()
    }
}

#[cfg(test)]
mod tests;
