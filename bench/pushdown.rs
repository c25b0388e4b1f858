// A checker of single-threaded rule tables: a pushdown system with one stack, as its rules are printed, and saturation (the backward one of
// Bouajjani, Esparza and Maler) for which tops it can reach. It knows nothing of threads.
use std::collections::BTreeMap;

// A state is the number that its digits say.
pub type State = u32;
pub type Symbol = usize;

// In a state and with a symbol on top, the next state and the new symbols in place of the top, the first on top. Rules are compared in this
// order, which is that of a text.
#[derive(PartialEq, Eq, PartialOrd, Ord)]
pub struct Rule {
    state: State,
    top: Symbol,
    next: State,
    count: usize,
    new: Vec<Symbol>,
}

// The rules of a text, one a line with one blank between all numbers. None where a line is no rule, or is not above the one before it.
pub fn rules(text: &str) -> Option<Vec<Rule>> {
    let rules = text.strip_suffix('\n')?.split('\n').map(rule).collect::<Option<Vec<Rule>>>()?;
    rules.is_sorted_by(|a, b| a < b).then_some(rules)
}

fn rule(line: &str) -> Option<Rule> {
    let numbers = line.split(' ').map(|word| word.parse().ok()).collect::<Option<Vec<usize>>>()?;
    let [state, top, next, new @ ..] = &numbers[..] else { return None };
    Some(Rule { state: *state as State, top: *top, next: *next as State, count: new.len(), new: new.to_vec() })
}

// Nodes of the automaton, a bit for each.
type Set = Vec<u64>;

// An automaton that reads stacks from the top. Its nodes are the states, and behind them an end for each goal, which reads on forever. From
// a state a stack leads to the end of a goal exactly if the system can come from there to the goal's state with its symbol on top.
pub struct Automaton {
    places: BTreeMap<State, usize>,
    goals: usize,
    symbols: usize,
    // where a node and a symbol lead, for each state and symbol
    edges: Vec<Set>,
}

impl Automaton {
    // The automaton for goals, each a state and the symbol on top.
    pub fn new(rules: &[Rule], goals: &[(State, Symbol)]) -> Automaton {
        let states = rules.iter().flat_map(|r| [r.state, r.next]).chain(goals.iter().map(|g| g.0));
        let mut places: BTreeMap<State, usize> = states.map(|s| (s, 0)).collect();
        places.values_mut().enumerate().for_each(|(i, place)| *place = i);
        let symbols = rules.iter().flat_map(|r| r.new.iter().chain([&r.top])).chain(goals.iter().map(|g| &g.1));
        let symbols = symbols.max().map_or(0, |most| most + 1);
        let words = (places.len() + goals.len()).div_ceil(64);
        let edges = vec![vec![0; words]; places.len() * symbols];
        let mut automaton = Automaton { places, goals: goals.len(), symbols, edges };
        for (i, &(state, symbol)) in goals.iter().enumerate() {
            let end = automaton.single(automaton.places.len() + i);
            automaton.add(state, symbol, &end);
        }
        automaton.saturate(rules);
        automaton
    }

    // A rule's top leads wherever its new symbols lead from the next state, until nothing is new.
    fn saturate(&mut self, rules: &[Rule]) {
        let mut grows = true;
        while grows {
            grows = false;
            for rule in rules.iter().rev() {
                let ends = self.read(rule.next, &rule.new);
                grows |= self.add(rule.state, rule.top, &ends);
            }
        }
    }

    // Adds edges, and says whether one is new.
    fn add(&mut self, state: State, symbol: Symbol, ends: &Set) -> bool {
        let edges = &mut self.edges[self.places[&state] * self.symbols + symbol];
        let grows = edges.iter().zip(ends).any(|(old, new)| new & !old != 0);
        edges.iter_mut().zip(ends).for_each(|(old, new)| *old |= new);
        grows
    }

    fn single(&self, node: usize) -> Set {
        let mut set = vec![0; (self.places.len() + self.goals).div_ceil(64)];
        set[node / 64] |= 1 << (node % 64);
        set
    }

    // The nodes to which symbols lead from a state.
    fn read(&self, state: State, symbols: &[Symbol]) -> Set {
        symbols.iter().fold(self.single(self.places[&state]), |nodes, &symbol| self.after(&nodes, symbol))
    }

    fn after(&self, nodes: &Set, symbol: Symbol) -> Set {
        let mut ends = vec![0; nodes.len()];
        for (word, mut bits) in nodes.iter().copied().enumerate() {
            while bits != 0 {
                let node = 64 * word + bits.trailing_zeros() as usize;
                bits &= bits - 1;
                match self.edges.get(node * self.symbols + symbol) {
                    Some(edges) => ends.iter_mut().zip(edges).for_each(|(end, more)| *end |= more),
                    None => ends[node / 64] |= 1 << (node % 64),
                }
            }
        }
        ends
    }

    // Which goals a state with a stack can come to.
    pub fn reached(&self, state: State, stack: &[Symbol]) -> Vec<bool> {
        let nodes = self.read(state, stack);
        let ends = self.places.len()..self.places.len() + self.goals;
        ends.map(|end| nodes[end / 64] >> (end % 64) & 1 != 0).collect()
    }
}
