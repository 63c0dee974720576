//! The smallest log on which two programs still part: events are left out, in ever smaller
//! runs of them, as long as the difference stays.

use std::{fs, io, path::Path};

use crate::fields;

/// How many logs may be tried before the smallest so far is taken.
const TRIES: usize = 3000;

/// `parts` tells whether the log in the file still shows the difference.
pub fn shrink(
    log: &[u8],
    file: &Path,
    parts: &mut dyn FnMut(&Path) -> io::Result<bool>,
) -> io::Result<Vec<u8>> {
    // A log that is no row of fields cannot be made smaller by whole ones.
    let Some(mut kept) = fields::split(log) else {
        fs::write(file, log)?;
        return Ok(log.to_vec());
    };
    let mut tries = 0;
    let mut run = kept.len() / 2;
    while run > 0 && tries < TRIES {
        let mut at = 1;
        let mut smaller = false;
        while at < kept.len() && tries < TRIES {
            let mut fewer = kept.clone();
            fewer.drain(at..kept.len().min(at + run));
            tries += 1;
            fs::write(file, fewer.concat())?;
            if parts(file)? {
                kept = fewer;
                smaller = true;
            } else {
                at += run;
            }
        }
        run = if smaller && run == 1 { 1 } else { run / 2 };
    }
    let smallest = kept.concat();
    fs::write(file, &smallest)?;
    Ok(smallest)
}

#[cfg(test)]
mod tests {
    use super::*;

    /// Two events out of ten show the difference together: they and the first field stay.
    #[test]
    fn only_what_is_needed_stays() {
        let log: Vec<u8> = (0..11).flat_map(|n| [n, 0, 1, n]).collect();
        let file = std::env::temp_dir().join(format!("shrink-{}.log", std::process::id()));
        let smallest = shrink(&log, &file, &mut |file| {
            let bytes = fs::read(file)?;
            Ok([3, 8]
                .iter()
                .all(|n| bytes.chunks(4).any(|field| field[0] == *n)))
        });
        fs::remove_file(&file).unwrap();
        assert_eq!(smallest.unwrap(), [0, 0, 1, 0, 3, 0, 1, 3, 8, 0, 1, 8]);
    }
}
