//! Tip changes, walked part by part in an order, and the table of plans with theirs.

use crate::planning::{Along, Named, Plan, Plans};

/// The tip changes where parts on these tips are placed one after another: one wherever a part is on another tip than the one
/// before it, and one before the first part where a tip is mounted and it is on another.
pub fn changes(tips: impl IntoIterator<Item = u8>, mounted: Option<usize>) -> usize {
    let mut on_head = mounted;
    let mut changes = 0;
    for tip in tips.into_iter().map(usize::from) {
        changes += usize::from(on_head.is_some_and(|other| other != tip));
        on_head = Some(tip);
    }
    changes
}

/// Parts on these tips placed tip by tip, any part anywhere: at each position a part on the tip of the part before it, at the
/// first on the mounted one, comes before any other, and among those alike the first of the list.
pub fn tip_by_tip(tips: &[u8], mounted: Option<usize>) -> Vec<usize> {
    let mut left: Vec<usize> = (0..tips.len()).collect();
    let mut order = Vec::new();
    let mounted = left.iter().find(|&&part| Some(tips[part].into()) == mounted).copied();
    while let Some(first) = mounted.filter(|_| order.is_empty()).or(left.first().copied()) {
        let (on_tip, others): (Vec<usize>, _) = left.into_iter().partition(|&part| tips[part] == tips[first]);
        order.extend(on_tip);
        left = others;
    }
    order
}

impl Plan {
    /// The tip changes where the parts are placed in the order of the list.
    pub fn changes_in_list(&self, mounted: Option<usize>) -> usize {
        changes(self.tips.iter().copied(), mounted)
    }

    /// The tip changes where the parts are placed in this order.
    pub fn changes_in(&self, order: &[usize], mounted: Option<usize>) -> usize {
        changes(order.iter().map(|&part| self.tips[part]), mounted)
    }
}

impl Named {
    /// The parts in the order by these tips, or why there is none. Where any part may be placed anywhere, there is one for any
    /// number of parts.
    pub fn by_tips(&self, tips: &[u8], mounted: Option<usize>) -> Result<Vec<usize>, String> {
        match self.list.as_ref().filter(|list| !list.is_free()) {
            Some(list) => list.order_by_tips(tips, mounted),
            None => Ok(tip_by_tip(tips, mounted)),
        }
    }
}

/// The name of the order by tips.
const BY_TIPS: &str = "the order by tips";

impl Plans<'_> {
    /// The tip changes of a plan in each order, with the name of the order, or why there is no such order.
    pub fn changes_of(&self, plan: &Plan) -> Vec<(&'static str, Result<usize, String>)> {
        let mounted = self.mounted;
        let mut changes = vec![(Along::List.in_words(), Ok(plan.changes_in_list(mounted)))];
        let placed = self.placing_order.as_ref().map(|order| plan.changes_in(order, mounted));
        changes.extend(placed.map(|changes| (Along::PlacingOrder.in_words(), Ok(changes))));
        let by_tips = self.named.by_tips(&plan.tips, mounted).map(|order| plan.changes_in(&order, mounted));
        changes.push((BY_TIPS, by_tips));
        changes
    }

    /// A row for each plan: its pairs, the tips that it uses, and its tip changes in each order.
    pub(crate) fn table(&self) -> String {
        let of_quick = self.changes_of(&self.quick);
        let mut rows = vec![["plan", "pairs", "tips"].map(String::from).to_vec()];
        rows[0].extend(of_quick.iter().map(|(order, _)| format!("changes in {order}")));
        for (name, plan) in self.all() {
            let numbers = plan.map_or(vec!["-".into(); rows[0].len() - 1], |plan| {
                let counts = [plan.pairs.to_string(), plan.tips_used(self.job.rack).to_string()];
                let changes = self.changes_of(plan).into_iter().map(|(_, changes)| in_cell(changes));
                counts.into_iter().chain(changes).collect()
            });
            rows.push([vec![name.to_string()], numbers].concat());
        }
        let width = |column: usize| rows.iter().map(|row| row[column].len()).max().unwrap_or(0);
        let mut text = self.mounted.map_or(String::new(), |tip| format!("tip {tip} mounted\n"));
        for row in &rows {
            text += &format!("{:1$}", row[0], width(0));
            text += &(1..row.len()).map(|column| format!("  {:>1$}", row[column], width(column))).collect::<String>();
            text.push('\n');
        }
        // Whether there is an order does not depend on the tips.
        let missing = of_quick.into_iter().filter_map(|(order, changes)| Some((order, changes.err()?)));
        text + &missing.map(|(order, why)| format!("no changes in {order}: {why}\n")).collect::<String>()
    }
}

/// A number of changes, `-` where there is no such order.
pub fn in_cell(changes: Result<usize, String>) -> String {
    changes.map_or("-".into(), |changes| changes.to_string())
}

#[cfg(test)]
mod tests {
    use super::{changes, tip_by_tip};

    #[test]
    fn changes_are_walked() {
        assert_eq!(changes([], None), 0);
        assert_eq!(changes([], Some(3)), 0);
        assert_eq!(changes([2], None), 0);
        assert_eq!(changes([2], Some(2)), 0);
        assert_eq!(changes([2], Some(0)), 1);
        // Back on a tip that was left is a change again.
        assert_eq!(changes([1, 1, 2, 1], None), 2);
        assert_eq!(changes([1, 1, 2, 1], Some(2)), 3);
    }

    #[test]
    fn parts_are_placed_tip_by_tip() {
        let tips = [4, 2, 4, 0, 2];
        assert_eq!(tip_by_tip(&tips, None), [0, 2, 1, 4, 3]);
        assert_eq!(tip_by_tip(&tips, Some(2)), [1, 4, 0, 2, 3]);
        // A tip that no part is on.
        assert_eq!(tip_by_tip(&tips, Some(3)), [0, 2, 1, 4, 3]);
        assert_eq!(tip_by_tip(&[], Some(3)), [0; 0]);
    }
}
