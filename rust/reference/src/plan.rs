use crate::Sheet;
use crate::hash::Set;

/// What the search for a plan answers.
#[derive(Clone, Debug, PartialEq, Eq)]
pub enum Answer {
    /// There is a plan.
    Plan {
        /// The numbers of the actions of a shortest plan.
        actions: Vec<u8>,
        /// How many states were counted.
        rows: usize,
    },
    /// There is no plan.
    NoPlan {
        /// How many states were counted: all that can be reached.
        rows: usize,
    },
    /// 15: there are more states to count than rows, or 16: the plan is longer
    /// than there are places.
    Refused(u8),
}

/// A counted state and how it was first met.
struct Row {
    state: u64,
    /// The row of the state before; 0 in the first row, which is the start.
    before: usize,
    /// The action that led from there.
    action: u8,
}

impl Sheet<'_> {
    /// Searches for a shortest plan; counts at most `rows` states and gives a
    /// plan of at most `places` actions.
    #[must_use]
    pub fn plan(&self, rows: usize, places: usize) -> Answer {
        const TOO_MANY_ROWS: Answer = Answer::Refused(15);
        const TOO_FEW_PLACES: Answer = Answer::Refused(16);

        if rows == 0 {
            return TOO_MANY_ROWS;
        }
        let most = rows;
        let room = most.min(2_048);
        let mut seen = Set::with_capacity_and_hasher(room, Default::default());
        let mut rows = Vec::with_capacity(room);
        seen.insert(self.now());
        rows.push(Row {
            state: self.now(),
            before: 0,
            action: 0,
        });

        let mut end = self.is_wished(self.now()).then_some(0);
        let mut layer = 0..1;
        let mut length = 0;
        // A layer in which the wish comes true is still counted to its end, so
        // a layer is given up only when there are too many rows.
        while end.is_none() && !layer.is_empty() {
            for before in layer.clone() {
                let state = rows[before].state;
                for (number, action) in self.actions().iter().enumerate() {
                    let Some(next) = action.after(state) else {
                        continue;
                    };
                    if next == state || !seen.insert(next) {
                        continue;
                    }
                    if rows.len() == most {
                        return TOO_MANY_ROWS;
                    }
                    if end.is_none() && self.is_wished(next) {
                        end = Some(rows.len());
                    }
                    rows.push(Row {
                        state: next,
                        before,
                        // A sheet has at most 256 actions.
                        action: number as u8,
                    });
                }
            }
            layer = layer.end..rows.len();
            length += 1;
        }

        let Some(mut row) = end else {
            return Answer::NoPlan { rows: rows.len() };
        };
        if length > places {
            return TOO_FEW_PLACES;
        }
        let mut actions = Vec::with_capacity(length);
        while row != 0 {
            actions.push(rows[row].action);
            row = rows[row].before;
        }
        actions.reverse();
        Answer::Plan {
            actions,
            rows: rows.len(),
        }
    }

    /// Whether these action numbers are a plan, of any length.
    #[must_use]
    pub fn is_plan(&self, actions: &[u8]) -> bool {
        actions
            .iter()
            .try_fold(self.now(), |state, &number| {
                self.actions().get(usize::from(number))?.after(state)
            })
            .is_some_and(|state| self.is_wished(state))
    }

    fn is_wished(&self, state: u64) -> bool {
        self.wish() & !state == 0
    }
}

#[cfg(test)]
mod tests;
