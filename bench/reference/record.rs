// The model of a record, or the number of its first fault.
use super::{Model, Right, Rule, Thread};

struct Reader<'a> {
    bytes: &'a [u8],
    at: usize,
}

pub fn read(bytes: &[u8]) -> Result<Model, u64> {
    let mut r = Reader { bytes, at: 0 };
    let map = r.byte()?;
    let bit = |n: u8| map >> n & 1 == 1;
    if !bit(3) {
        return Err(2);
    }
    let g = r.field(bit(0), 3, 1, 5, 4)?;
    let k = r.field(bit(1), 3, 1, 4, 2)?;
    let start = r.field(bit(2), 3, 0, g, 0)?;
    let target = r.byte()?;
    if g <= target % 128 {
        return Err(3);
    }
    // a second map, of the tops, of the marks of held rules and of the symbol counts
    let second = r.field(target >= 128, 3, 0, 64, 0)?;
    let top_a = r.top(second & 1 != 0)?;
    let top_b = r.top(second & 2 != 0)?;
    let marks_a = r.marks(second & 4 != 0)?;
    let marks_b = r.marks(second & 8 != 0)?;
    let symbols_a = r.field(second & 16 != 0, 3, 1, 17, 16)?;
    let symbols_b = r.field(second & 32 != 0, 3, 1, 17, 16)?;
    let a = r.field(bit(4), 3, 0, 16, 0)?;
    let b = r.field(bit(5), 3, 0, 16, 0)?;
    let rules_a = r.rules(bit(6), g, marks_a)?;
    let rules_b = r.rules(bit(7), g, marks_b)?;
    if beyond(marks_a, &rules_a) || beyond(marks_b, &rules_b) {
        return Err(11);
    }
    let a = Thread { symbols: symbols_a as usize, first: a as usize, top: top_a, rules: rules_a };
    let b = Thread { symbols: symbols_b as usize, first: b as usize, top: top_b, rules: rules_b };
    if uncounted(&a) || uncounted(&b) {
        return Err(17);
    }
    if r.at < bytes.len() {
        return Err(6);
    }
    Ok(Model { g: g as usize, k: k as usize, start: start as usize, target: (target % 128) as usize, a, b })
}

// Whether a mark stands for a rule number that the list lacks.
fn beyond(marks: u64, rules: &[Rule]) -> bool {
    marks.checked_shr(rules.len() as u32).is_some_and(|rest| rest != 0)
}

// Whether a symbol of a thread is not below its symbol count: the first, the top, or one of a rule.
fn uncounted(t: &Thread) -> bool {
    let highest = t.rules.iter().map(|rule| match rule.right {
        Right::Remove => rule.symbol,
        Right::Swap(a) => rule.symbol.max(a),
        Right::Push(a, b) => rule.symbol.max(a).max(b),
    });
    highest.chain(t.top).chain([t.first]).any(|symbol| t.symbols <= symbol)
}

// A rule's place in the order of rules: its before state and symbol, its after state, how many new symbols it has, and these.
pub fn key(rule: &Rule) -> usize {
    let right = match rule.right {
        Right::Remove => 0,
        Right::Swap(a) => 256 + a * 16,
        Right::Push(a, b) => 512 + a * 16 + b,
    };
    ((rule.before * 16 + rule.symbol) * 16 + rule.after) * 4096 + right
}

impl Reader<'_> {
    fn byte(&mut self) -> Result<u8, u64> {
        let byte = *self.bytes.get(self.at).ok_or(1u64)?;
        self.at += 1;
        Ok(byte)
    }

    fn ranged(&mut self, refusal: u64, low: u8, limit: u8) -> Result<u8, u64> {
        let byte = self.byte()?;
        if byte < low || limit <= byte {
            return Err(refusal);
        }
        Ok(byte)
    }

    // A field with a bit in the map; 5 where it says what its absence would.
    fn field(&mut self, present: bool, refusal: u64, low: u8, limit: u8, absent: u8) -> Result<u8, u64> {
        if !present {
            return Ok(absent);
        }
        match self.ranged(refusal, low, limit)? {
            byte if byte == absent => Err(5),
            byte => Ok(byte),
        }
    }

    fn top(&mut self, present: bool) -> Result<Option<usize>, u64> {
        if !present {
            return Ok(None);
        }
        self.ranged(3, 0, 16).map(|top| Some(top as usize))
    }

    // The marks of a thread's held rules, rule 0 in the lowest bit: eight bytes, of which some is not 0.
    fn marks(&mut self, present: bool) -> Result<u64, u64> {
        if !present {
            return Ok(0);
        }
        let bytes = self.bytes[self.at..].first_chunk().ok_or(1u64)?;
        self.at += bytes.len();
        match u64::from_le_bytes(*bytes) {
            0 => Err(5),
            marks => Ok(marks),
        }
    }

    // Each rule is above the one before it.
    fn rules(&mut self, present: bool, g: u8, marks: u64) -> Result<Vec<Rule>, u64> {
        let count = self.field(present, 4, 0, 65, 0)?;
        let mut least = 0;
        let rule = |r| {
            let rule = self.rule(g, marks >> r & 1 == 1)?;
            let key = key(&rule);
            if key < least {
                return Err(13);
            }
            least = key + 1;
            Ok(rule)
        };
        (0..count).map(rule).collect()
    }

    fn rule(&mut self, g: u8, held: bool) -> Result<Rule, u64> {
        let map = self.byte()?;
        if map > 7 || map & 6 == 4 {
            return Err(4);
        }
        let pair = self.byte()?;
        let before = pair / 16;
        if g <= before {
            return Err(4);
        }
        let after = self.field(map & 1 == 1, 4, 0, g, before)?;
        let right = match map / 2 {
            0 => Right::Remove,
            1 => Right::Swap(self.symbol()?),
            _ => Right::Push(self.symbol()?, self.symbol()?),
        };
        Ok(Rule { before: before as usize, symbol: (pair % 16) as usize, after: after as usize, held, right })
    }

    fn symbol(&mut self) -> Result<usize, u64> {
        self.ranged(4, 0, 16).map(usize::from)
    }
}
