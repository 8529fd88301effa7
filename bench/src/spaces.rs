//! Spaces of N objectives, each divided into boxes by a rule of its own.

use std::array;

/// Which figures are better.
#[derive(Clone, Copy, PartialEq, Eq, Debug)]
pub enum Better {
    Larger,
    Smaller,
}

/// The rule of one objective. A figure is given by its 32 bits: a step rule takes them for a signed number, a ratio rule for an
/// unsigned one.
#[derive(Clone, Debug)]
pub enum Rule {
    /// Boxes of one width between two ends.
    Step {
        better: Better,
        low: i32,
        high: i32,
        step: u32,
    },
    /// Boxes that grow in proportion, up to a ceiling, given by the least figure of each. Larger figures are better.
    Ratio { ceiling: u32, edges: Vec<u32> },
}

impl Rule {
    /// The ratio rule whose boxes grow by so many per cent, and by one at least.
    pub fn ratio(per_cent: u32, ceiling: u32) -> Rule {
        let mut edges = Vec::new();
        let mut edge = 1;
        while edge <= u64::from(ceiling) {
            edges.push(edge as u32);
            edge = (edge + 1).max(edge * u64::from(100 + per_cent) / 100);
        }
        Rule::Ratio { ceiling, edges }
    }

    fn admits(&self, figure: u32) -> bool {
        match self {
            Rule::Step { low, high, .. } => (*low..=*high).contains(&figure.cast_signed()),
            Rule::Ratio { ceiling, .. } => (1..=*ceiling).contains(&figure),
        }
    }

    fn no_worse(&self, a: u32, b: u32) -> bool {
        match self {
            Rule::Step { better, .. } => match better {
                Better::Larger => a.cast_signed() >= b.cast_signed(),
                Better::Smaller => a.cast_signed() <= b.cast_signed(),
            },
            Rule::Ratio { .. } => a >= b,
        }
    }

    /// Which box holds a figure that is admitted.
    fn box_number(&self, figure: u32) -> u32 {
        match self {
            Rule::Step {
                better,
                low,
                high,
                step,
            } => match better {
                Better::Larger => figure.cast_signed().abs_diff(*low) / step,
                Better::Smaller => high.abs_diff(figure.cast_signed()) / step,
            },
            Rule::Ratio { edges, .. } => edges.partition_point(|edge| *edge <= figure) as u32 - 1,
        }
    }
}

/// N rules, one an objective.
#[derive(Clone, Debug)]
pub struct Space<const N: usize> {
    pub rules: [Rule; N],
}

impl<const N: usize> Space<N> {
    /// Whether a point is on the grid.
    pub fn admits(&self, p: &[u32; N]) -> bool {
        self.rules.iter().zip(p).all(|(rule, v)| rule.admits(*v))
    }

    fn no_worse(&self, p: &[u32; N], q: &[u32; N]) -> bool {
        let figures = p.iter().zip(q);
        self.rules
            .iter()
            .zip(figures)
            .all(|(rule, (v, w))| rule.no_worse(*v, *w))
    }

    /// Whether p is at least as good as q in every objective, and better in one.
    pub fn dominates(&self, p: &[u32; N], q: &[u32; N]) -> bool {
        self.no_worse(p, q) && !self.no_worse(q, p)
    }

    /// The box numbers of a point that is admitted.
    pub fn boxes(&self, p: &[u32; N]) -> [u32; N] {
        array::from_fn(|i| self.rules[i].box_number(p[i]))
    }
}
