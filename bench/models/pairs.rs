// Pairs of models to be made one, as records.
use super::{Kind, Model, Random, Rule, Rules, ANY, CROWDED};

// Pairs with few rules, and up to more than 64 in a thread together.
pub fn pairs() -> Vec<[Vec<u8>; 2]> {
    let mut random = Random(4);
    let kinds = [1, 4, 16, 48, 64, 72].map(|rules| Kind { k: 2, rules, ..CROWDED });
    kinds.repeat(64).iter().map(|&kind| random.pair(kind).map(|m| m.record())).collect()
}

impl Random {
    // Two models with one head, each with about five in eight of the same rules, held alike; and every other time the second has one head
    // field or one mark changed.
    fn pair(&mut self, kind: Kind) -> [Model; 2] {
        let whole = self.model(kind);
        let tops = ANY.map(|_| Some(self.below(kind.symbols)).filter(|top| top % 2 == 0));
        let [a, b] = whole.rules.map(|rules| self.with_marks(rules));
        let mut part = || {
            let [(a, marks_a), (b, marks_b)] = [self.part(&a), self.part(&b)];
            Model { tops, held: [marks_a, marks_b], rules: [a, b], ..whole }
        };
        let (first, mut second) = (part(), part());
        match self.below(16) {
            0 => second.k = 1,
            1 => second.target ^= 1,
            2 => second.tops[0] = Some(0),
            3 => second.tops[1] = None,
            4 => second.first[0] ^= 1,
            5 => second.first[1] ^= 1,
            6 => second.held[0] ^= 1,
            7 => second.held[1] ^= 1,
            _ => {}
        }
        [first, second]
    }

    // Each rule with whether it is held.
    fn with_marks(&mut self, rules: Rules) -> Vec<(Rule, bool)> {
        rules.into_iter().map(|rule| (rule, self.below(8) < 3)).collect()
    }

    // Some of these rules, at most 64, and their marks.
    fn part(&mut self, list: &[(Rule, bool)]) -> (Rules, u64) {
        let (mut rules, mut marks) = (Rules::new(), 0);
        for &(rule, held) in list {
            if self.below(8) < 5 && rules.len() < 64 {
                marks |= u64::from(held) << rules.len();
                rules.insert(rule);
            }
        }
        (rules, marks)
    }
}
