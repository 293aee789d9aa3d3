//! Options of how requests are read, for `serve` and `explain`.

use super::values::{time_or, MayBeNone};
use crate::book::FlushWindow;
use crate::otlp::{Bounds, Choice, Clock, FinerUnits, Profile, Reading, INSTANCE};
use anyhow::{anyhow, bail};
use clap::builder::NonEmptyStringValueParser;
use clap::Args;

const LONGEST_ATTRIBUTE: usize = 128;

#[derive(Args)]
#[command(next_help_heading = "Options of reading")]
pub(super) struct ReadingOptions {
    /// A resource attribute to leave out of each request; may be given again
    #[arg(
        long = "drop-attribute",
        env = "TOTXEGUN_DROP_ATTRIBUTE",
        value_name = "NAME",
        value_delimiter = ',',
        value_parser = NonEmptyStringValueParser::new()
    )]
    drop_attributes: Vec<String>,
    /// Takes what is measured in one unit as whole numbers of a finer one, rounded: s=us, By, FROM=FACTOR:TO; may be given again. `auto` is for doubles and histograms of known units without such a rule, `off` leaves these out [default: auto]
    #[arg(long, env = "TOTXEGUN_INTEGER_UNIT", value_name = "FROM=TO", value_delimiter = ',')]
    integer_unit: Vec<Choice>,
    /// The resource attribute that names a sender without the header x-sender, such as service.instance.id
    #[arg(long, env = "TOTXEGUN_SENDER_FROM", value_name = "ATTRIBUTE", value_parser = NonEmptyStringValueParser::new())]
    sender_from: Option<String>,
    /// The resource attribute to set to the name that a sender's certificate or token proves, whatever the body says: so nobody posts under another's name
    #[arg(long, env = "TOTXEGUN_SENDER_ATTRIBUTE", value_name = "ATTRIBUTE", value_parser = attribute)]
    sender_attribute: Option<String>,
    /// Leaves out points that end more than this time after this clock's time, or `off` for none; of instances that share a store, one whose clock is off by a tenth of it takes no shards
    #[arg(long, env = "TOTXEGUN_MAX_AHEAD", value_name = "TIME", default_value = "10m", value_parser = time_or("off"))]
    max_ahead: MayBeNone,
    /// Leaves out points that ended more than this time before this clock's time, or `off` for none
    #[arg(long, env = "TOTXEGUN_MAX_AGE", value_name = "TIME", default_value = "off", value_parser = time_or("off"))]
    max_age: MayBeNone,
    /// Takes cumulative sums and histograms, which SDKs send by default, and makes deltas of them
    #[arg(long, env = "TOTXEGUN_CUMULATIVE", value_name = "WHETHER", default_value = "on", value_enum)]
    cumulative: Profile,
    /// Gives a resource without service.instance.id its sender's name as one, so that two processes that don't name themselves have series of their own
    #[arg(long, env = "TOTXEGUN_INSTANCE_FROM_SENDER")]
    instance_from_sender: bool,
    /// Takes exponential histograms in buckets of these bounds, in their own unit: 1,2,4,8. A point is not taken if it has values in a bucket that spans a bound
    #[arg(long, env = "TOTXEGUN_EXPONENTIAL", value_name = "BOUNDS", allow_hyphen_values = true)]
    exponential: Option<Bounds>,
}

impl ReadingOptions {
    pub fn profile(&self) -> Profile {
        self.cumulative
    }

    pub fn clock(&self) -> Clock {
        Clock { max_ahead: self.max_ahead.0, max_age: self.max_age.0 }
    }

    /// The options that decide what posts mean. All instances of a store must have the same.
    pub fn likeness(&self, across: FlushWindow) -> String {
        let choice = |choice: &Choice| match choice {
            Choice::Auto => "auto".to_string(),
            Choice::Off => "off".to_string(),
            Choice::Rule(rule) => rule.to_string(),
        };
        let units: Vec<String> = self.integer_unit.iter().map(choice).collect();
        let cumulative = match self.cumulative {
            Profile::AlsoCumulative => "On",
            Profile::Deltas => "Off",
        };
        // Only if it is given, so that a store without it keeps its text.
        let sender_attribute = self.sender_attribute.as_ref();
        let sender_attribute = sender_attribute.map(|name| format!(" sender-attribute={name}"));
        format!(
            "integer-unit={} drop-attribute={} sender-from={} cumulative={cumulative} split-at={across:?} instance-from-sender={} \
             exponential={:?}{}",
            units.join(","),
            self.drop_attributes.join(","),
            self.sender_from.as_deref().unwrap_or_default(),
            self.instance_from_sender,
            self.exponential,
            sender_attribute.unwrap_or_default()
        )
    }

    pub fn reading(self) -> anyhow::Result<Reading> {
        if self.instance_from_sender && self.drop_attributes.iter().any(|name| name == INSTANCE) {
            bail!("--instance-from-sender gives what --drop-attribute {INSTANCE} takes away: leave one of them out");
        }
        if let Some(name) = &self.sender_attribute {
            if self.drop_attributes.contains(name) {
                bail!(
                    "--sender-attribute gives what --drop-attribute {name} takes away: leave one of them out"
                );
            }
            if self.instance_from_sender && name == INSTANCE {
                bail!("--instance-from-sender gives what --sender-attribute {INSTANCE} does: leave it out");
            }
        }
        let finer_units = FinerUnits::of(self.integer_unit).map_err(|why| anyhow!(why))?;
        Ok(Reading {
            dropped: self.drop_attributes,
            finer_units: finer_units.with_profile(self.cumulative),
            sender_from: self.sender_from,
            sender_attribute: self.sender_attribute,
            profile: self.cumulative,
            instance_from_sender: self.instance_from_sender,
            exponential: self.exponential,
        })
    }
}

/// An attribute's name that needs no escaping in JSON.
fn attribute(text: &str) -> Result<String, String> {
    let is_plain = |byte: u8| byte.is_ascii_alphanumeric() || b"._-/".contains(&byte);
    match (1..=LONGEST_ATTRIBUTE).contains(&text.len()) && text.bytes().all(is_plain) {
        true => Ok(text.to_string()),
        false => Err(format!("an attribute's name is 1 to {LONGEST_ATTRIBUTE} of A-Z a-z 0-9 . _ - /")),
    }
}

#[cfg(test)]
mod tests {
    use super::*;
    use clap::Parser;

    #[derive(Parser)]
    struct Line {
        #[command(flatten)]
        of_reading: ReadingOptions,
    }

    /// The store keeps this text, and an instance whose text differs does not start.
    #[test]
    fn what_instances_agree_by_keeps_its_words() {
        let likeness = |words: &[&str]| Line::parse_from(words).of_reading.likeness(FlushWindow::Hour);
        assert_eq!(
            likeness(&["serve"]),
            "integer-unit= drop-attribute= sender-from= cumulative=On split-at=Hour instance-from-sender=false exponential=None"
        );
        let words =
            ["serve", "--integer-unit", "auto,s=ms", "--drop-attribute", "a,b", "--sender-from", "id"];
        let told = likeness(&words);
        let begin = "integer-unit=auto,s=1000:ms drop-attribute=a,b sender-from=id cumulative=On ";
        assert!(told.starts_with(begin), "{told}");
        let told = likeness(&["serve", "--sender-attribute", "posted.by"]);
        assert!(told.ends_with(" exponential=None sender-attribute=posted.by"), "{told}");
    }

    #[test]
    fn what_another_option_takes_away_or_gives_is_refused() {
        for (words, why) in [
            ("--drop-attribute a,b --sender-attribute b", "takes away"),
            ("--instance-from-sender --sender-attribute service.instance.id", "leave it out"),
        ] {
            let words = ["serve"].into_iter().chain(words.split(' '));
            let refused = Line::parse_from(words).of_reading.reading().unwrap_err().to_string();
            assert!(refused.contains(why), "{refused}");
        }
        let both = ["serve", "--instance-from-sender", "--sender-attribute", "by"];
        assert!(Line::parse_from(both).of_reading.reading().is_ok());
    }
}
