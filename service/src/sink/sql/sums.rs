//! Sums of points. Thousands of 64-bit numbers fit 128 bits.

use crate::otlp::series::Value;

#[derive(Clone, Debug, Default, PartialEq, Eq)]
pub(in crate::sink) struct Sums {
    pub(in crate::sink) points: i64,
    /// The sum of the values; for a histogram, of its sums.
    pub(in crate::sink) total: i128,
    /// Only for histograms.
    pub(in crate::sink) count: i128,
    pub(in crate::sink) without_sum: i64,
    /// Only for histograms.
    pub(in crate::sink) buckets: Option<Vec<i128>>,
}

impl Sums {
    pub(in crate::sink) fn of<'a>(values: impl IntoIterator<Item = &'a Value>) -> Sums {
        let mut all = Sums::default();
        values.into_iter().for_each(|value| all.add(value));
        all
    }

    fn add(&mut self, value: &Value) {
        self.points += 1;
        match value {
            Value::Sum(value) => self.total += i128::from(*value),
            Value::Histogram { count, sum, buckets } => {
                self.total += i128::from(sum.unwrap_or(0));
                self.count += i128::from(*count);
                self.without_sum += i64::from(sum.is_none());
                self.add_buckets(buckets.iter().map(|bucket| i128::from(*bucket)));
            }
        }
    }

    /// Adds another's points, which are of the same kind.
    pub(in crate::sink) fn merge(&mut self, other: &Sums) {
        self.points += other.points;
        self.total += other.total;
        self.count += other.count;
        self.without_sum += other.without_sum;
        if let Some(buckets) = &other.buckets {
            self.add_buckets(buckets.iter().copied());
        }
    }

    pub(in crate::sink) fn add_buckets(&mut self, buckets: impl ExactSizeIterator<Item = i128>) {
        let all = self.buckets.get_or_insert_with(|| vec![0; buckets.len()]);
        all.iter_mut().zip(buckets).for_each(|(all, bucket)| *all += bucket);
    }
}
