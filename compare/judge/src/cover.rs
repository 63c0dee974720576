//! Which rows of the coverage report a log reaches, and a few logs that reach all that many do.

use generate::{coverage::Coverage, stage::Folder};

/// One place for each row of the report, true where it is reached.
pub type Reached = Vec<bool>;

pub fn reached(folder: Folder, name: &str, log: &[u8]) -> Reached {
    let mut coverage = Coverage::new();
    coverage.log(folder, name, log);
    coverage
        .rows()
        .map(|(_, domain, beyond)| domain + beyond > 0)
        .collect()
}

pub fn add(to: &mut Reached, more: &Reached) {
    to.resize(more.len(), false);
    to.iter_mut().zip(more).for_each(|(to, more)| *to |= more);
}

/// The names of the rows that are not reached.
pub fn missing(covered: &Reached) -> Vec<String> {
    let coverage = Coverage::new();
    let rows = coverage.rows().zip(covered);
    rows.filter(|(_, covered)| !**covered)
        .map(|((name, ..), _)| name.to_string())
        .collect()
}

/// How many rows the second reaches that the first does not.
fn gain(so_far: &Reached, more: &Reached) -> usize {
    let covered = so_far.iter().copied().chain(std::iter::repeat(false));
    more.iter()
        .zip(covered)
        .filter(|(more, covered)| **more && !covered)
        .count()
}

/// Takes the log that brings the most new rows for its bytes, until none brings one. Gives the
/// places of those taken.
pub fn few(so_far: &mut Reached, logs: &[(usize, Reached)]) -> Vec<usize> {
    let mut taken = Vec::new();
    loop {
        let gains = logs.iter().enumerate().map(|(at, (bytes, rows))| {
            // Thousandths, so that whole numbers can be compared.
            (gain(so_far, rows) * 1_000_000 / (bytes + 1), at)
        });
        // Of equals the first, so that the choice does not hang on an order of comparing.
        match gains.max_by_key(|(gain, at)| (*gain, std::cmp::Reverse(*at))) {
            Some((1.., at)) => {
                add(so_far, &logs[at].1);
                taken.push(at);
            }
            _ => return taken,
        }
    }
}

#[cfg(test)]
mod tests {
    use super::*;

    #[test]
    fn few_logs_reach_what_all_do() {
        let rows = |text: &str| text.chars().map(|c| c == '1').collect::<Reached>();
        let logs = [
            (10, rows("1100")),
            (10, rows("0110")),
            (40, rows("1110")),
            (10, rows("1000")),
        ];
        let mut so_far = rows("0000");
        assert_eq!(few(&mut so_far, &logs), [0, 1]);
        assert_eq!(so_far, rows("1110"));
        assert_eq!(few(&mut rows("1110"), &logs), [0; 0]);
    }
}
