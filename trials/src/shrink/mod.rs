mod automata;
mod calls;
mod trees;

use checker::Automaton;

use crate::damage::spans;
use crate::{Call, Case, layout};

/// A small case that `shows` what a case shows. Calls, rules, states, symbols,
/// records, nodes and bytes are left out until none can be.
pub fn shrink(case: &Case, shows: impl FnMut(&Case) -> bool) -> Case {
    let mut shrinker = Shrinker { case: case.clone(), shows };
    loop {
        let before = shrinker.case.clone();
        shrinker.pass();
        if shrinker.case == before {
            return before;
        }
    }
}

struct Shrinker<F> {
    case: Case,
    shows: F,
}

impl<F: FnMut(&Case) -> bool> Shrinker<F> {
    fn pass(&mut self) {
        let calls = self.case.calls.clone();
        self.fewer(calls, |case, calls| case.calls = calls.to_vec());
        self.change(|case| case.fill = 0);
        if Automaton::read(&self.case.table).is_ok() {
            self.shrink_automaton();
        } else {
            self.shrink_bytes();
        }
        for at in 0..self.case.calls.len() {
            self.shrink_tree(at);
            while self.plain_call(at) {}
        }
    }

    /// Makes a change to the case if it still shows the same.
    fn change(&mut self, change: impl FnOnce(&mut Case)) -> bool {
        let mut case = self.case.clone();
        change(&mut case);
        let shown = case != self.case && (self.shows)(&case);
        if shown {
            self.case = case;
        }
        shown
    }

    /// Leaves out runs of the items that `put` puts into the case, long ones
    /// first.
    fn fewer<T: Clone>(&mut self, mut items: Vec<T>, put: impl Fn(&mut Case, &[T])) {
        let mut run = items.len();
        while run > 0 {
            let mut at = 0;
            while at < items.len() {
                let mut left = items.clone();
                left.drain(at..items.len().min(at + run));
                if self.change(|case| put(case, &left)) {
                    items = left;
                } else {
                    at += run;
                }
            }
            run /= 2;
        }
    }

    fn plain_call(&mut self, at: usize) -> bool {
        let mut plainer = calls::plainer(&self.case.calls[at]).into_iter();
        plainer.any(|call| self.change(|case| case.calls[at] = call))
    }

    fn shrink_automaton(&mut self) {
        let rules = automata::read(&self.case).rules;
        self.fewer(rules, automata::put_rules);
        let finals = automata::read(&self.case).finals;
        self.fewer(finals, automata::put_finals);
        for state in (0..automata::read(&self.case).states as u16).rev() {
            let dropped = self.change(|case| automata::drop_state(case, state));
            if !dropped && state > 0 {
                self.change(|case| automata::join_states(case, state, 0));
            }
        }
        for symbol in (0..automata::read(&self.case).ranks.len() as u16).rev() {
            while self.change(|case| automata::drop_child(case, symbol)) {}
            self.change(|case| automata::drop_symbol(case, symbol));
        }
    }

    /// Of a table that is refused.
    fn shrink_bytes(&mut self) {
        let table = self.case.table.clone();
        let spans = spans(&table);
        if let Some((_, rules)) = spans.split_at_checked(3) {
            self.fewer(rules.to_vec(), |case, left| {
                let dropped = rules.len() - left.len();
                case.table = automata::with_records(&table, left, dropped);
            });
        }
        let bytes = self.case.table.clone();
        self.fewer(bytes, |case, bytes| case.table = bytes.to_vec());
    }

    fn shrink_tree(&mut self, at: usize) {
        let Call::Check { tree, .. } = &self.case.calls[at] else { return };
        if let Some(symbols) = layout::symbols(tree) {
            self.fewer(symbols, |case, symbols| trees::put(case, at, symbols));
            while self.hoist_subtree(at) {}
        } else {
            let bytes = tree.clone();
            self.fewer(bytes, |case, bytes| trees::put_bytes(case, at, bytes));
        }
    }

    fn hoist_subtree(&mut self, at: usize) -> bool {
        let mut children = trees::children(&self.case, at).into_iter();
        children.any(|(larger, child)| self.change(|case| trees::hoist(case, at, larger, child)))
    }
}
