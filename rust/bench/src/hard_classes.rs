//! Classes of instances on which planners are slow: short of crews or nearly, with a demand near all
//! that can be met, with many pairs, narrow windows, many crews, or costs that are all equal. Some of
//! their instances have no schedule.

use crate::generated::{Normal, Scheme};
use reference::Plan;

/// What makes a class hard.
#[derive(Clone, Copy, Debug, PartialEq, Eq)]
pub enum Kind {
    /// Crews are short, or nearly.
    Crews,
    /// The demand is near all that can be met.
    Demand,
    /// Most pairs are excluded.
    Pairs,
    /// Windows leave few starts.
    Windows,
    /// As many units may be out as can be.
    ManyCrews,
    /// All units cost the same, but for where their maintenance costs lead.
    Equal,
}

impl Kind {
    /// All kinds.
    pub const ALL: [Kind; 6] = [
        Kind::Crews,
        Kind::Demand,
        Kind::Pairs,
        Kind::Windows,
        Kind::ManyCrews,
        Kind::Equal,
    ];

    /// Its name.
    pub fn name(self) -> &'static str {
        match self {
            Kind::Crews => "crews",
            Kind::Demand => "demand",
            Kind::Pairs => "pairs",
            Kind::Windows => "windows",
            Kind::ManyCrews => "many-crews",
            Kind::Equal => "equal",
        }
    }
}

/// A hard class.
#[derive(Clone, Copy)]
pub struct HardClass {
    /// What makes it hard.
    pub kind: Kind,
    /// What its instances are drawn from, but for the seed.
    scheme: Scheme,
    /// The seed of instance 0.
    first_seed: u64,
}

impl HardClass {
    /// All hard classes.
    pub fn all() -> Vec<Self> {
        let schemes = [crews(), demand(), pairs(), windows(), many_crews(), equal()];
        let schemes = schemes.into_iter().zip(Kind::ALL);
        let schemes =
            schemes.flat_map(|(schemes, kind)| schemes.into_iter().map(move |s| (kind, s)));
        let class = |((kind, scheme), first_seed)| HardClass {
            kind,
            scheme,
            first_seed,
        };
        schemes.zip((22_000..).step_by(100)).map(class).collect()
    }

    /// Its size: units x weeks.
    pub fn size(&self) -> String {
        format!("{}x{}", self.scheme.units, self.scheme.weeks)
    }

    /// Its name: what makes it hard, the size, the crews, and the demand at the peak in thousandths of
    /// all capacity.
    pub fn name(&self) -> String {
        let Scheme { crews, high, .. } = self.scheme;
        format!("{} {}m{crews} {high}", self.kind.name(), self.size())
    }

    /// Its instance of a number from 1 to 99.
    pub fn plan(&self, number: u32) -> Plan {
        let seed = self.first_seed + u64::from(number);
        Scheme {
            seed,
            ..self.scheme
        }
        .plan()
    }
}

/// A size with a demand, all else as usual.
fn sized(units: u32, weeks: u32, crews: u32, low: f64, high: f64) -> Scheme {
    Scheme {
        units,
        weeks,
        crews,
        low,
        high,
        ..Scheme::default()
    }
}

fn crews() -> Vec<Scheme> {
    let lasting = |mean, scheme| Scheme {
        duration: Normal::new(mean, 1.0),
        ..scheme
    };
    vec![
        sized(12, 26, 1, 600.0, 720.0),
        lasting(2.2, sized(14, 13, 2, 500.0, 600.0)),
        lasting(2.6, sized(16, 20, 2, 500.0, 600.0)),
    ]
}

fn demand() -> Vec<Scheme> {
    vec![
        sized(12, 13, 3, 760.0, 880.0),
        sized(15, 13, 3, 780.0, 900.0),
        sized(15, 13, 3, 740.0, 860.0),
        sized(16, 20, 3, 780.0, 900.0),
    ]
}

fn pairs() -> Vec<Scheme> {
    let with = |pairs, units, weeks| Scheme {
        pairs,
        ..sized(units, weeks, 4, 400.0, 500.0)
    };
    vec![with(36, 10, 13), with(50, 12, 13), with(70, 14, 20)]
}

fn windows() -> Vec<Scheme> {
    let with = |window, scheme| Scheme { window, ..scheme };
    vec![
        with(2, sized(14, 13, 3, 650.0, 770.0)),
        with(3, sized(16, 20, 2, 600.0, 720.0)),
        with(8, sized(16, 52, 1, 600.0, 720.0)),
    ]
}

fn many_crews() -> Vec<Scheme> {
    let with = |scheme, mean, deviation, longest, pairs| Scheme {
        duration: Normal::new(mean, deviation),
        longest,
        pairs,
        ..scheme
    };
    vec![
        sized(14, 4, 16, 400.0, 500.0),
        with(sized(14, 52, 14, 200.0, 200.0), 40.0, 0.0, 52, 0),
        with(sized(14, 52, 14, 200.0, 300.0), 20.0, 4.0, 40, 0),
        with(sized(16, 1, 16, 300.0, 300.0), 1.0, 1.0, 0, 0),
        sized(16, 13, 16, 400.0, 500.0),
        with(sized(16, 20, 6, 400.0, 520.0), 4.0, 1.0, 0, 2),
        with(sized(16, 26, 8, 300.0, 400.0), 5.0, 2.0, 0, 1),
        with(sized(16, 52, 16, 300.0, 400.0), 8.0, 3.0, 0, 0),
    ]
}

fn equal() -> Vec<Scheme> {
    let alike = |units, weeks| Scheme {
        maint_deviation: 0.0,
        running_deviation: 0.0,
        ..sized(units, weeks, 3, 600.0, 720.0)
    };
    vec![alike(12, 13), alike(14, 13), alike(16, 20)]
}

#[cfg(test)]
mod tests {
    use super::HardClass;
    use crate::generated::checksum;
    use reference::{bytes_of, encode, read};

    /// Figures of different days are of the same instances.
    #[test]
    fn instances_stay_as_they_were() {
        let classes = HardClass::all();
        let mut bytes = vec![];
        for class in &classes {
            for number in 1..=5 {
                let words = encode(&class.plan(number));
                assert_eq!(read(&words), Ok(class.plan(number)), "{}", class.name());
                bytes.extend(bytes_of(&words));
            }
        }
        assert_eq!((classes.len(), bytes.len()), (24, 338_440));
        assert_eq!(checksum(&bytes), 0x7B416B8755177A36);
    }
}
