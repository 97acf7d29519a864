//! The list of the requests that have landed.

/// Requests of document 02 in the order in which they landed.
#[derive(Debug, PartialEq, Eq)]
pub struct Landed(pub Vec<u32>);

impl Landed {
    /// Reads the list: a number a line; blank lines and what stands behind `#` say nothing.
    pub fn read(list: &str) -> Result<Landed, String> {
        let mut landed = Vec::new();
        for (at, line) in list.lines().enumerate() {
            let word = line.split('#').next().unwrap_or_default().trim();
            if word.is_empty() {
                continue;
            }
            let number = word.parse().map_err(|_| format!("line {}: '{word}' is no number", at + 1))?;
            if landed.contains(&number) {
                return Err(format!("line {}: request {number} can't land twice", at + 1));
            }
            landed.push(number);
        }
        Ok(Landed(landed))
    }

    /// Whether a request has landed.
    pub fn has(&self, request: u32) -> bool {
        self.0.contains(&request)
    }
}

#[cfg(test)]
mod tests {
    use super::*;

    #[test]
    fn the_order_of_the_list_is_kept() {
        let landed = Landed::read("# why\n\n4\n13 # later\n 2\n").unwrap();
        assert_eq!(landed, Landed(vec![4, 13, 2]));
        assert!(landed.has(13) && !landed.has(3) && !landed.has(1));
    }

    #[test]
    fn a_list_that_is_none_is_refused() {
        assert!(Landed::read("4\nfive\n").unwrap_err().starts_with("line 2:"));
        assert!(Landed::read("4\n5\n4\n").unwrap_err().starts_with("line 3:"));
    }

    #[test]
    fn the_repositorys_own_list_is_read() {
        let landed = Landed::read(include_str!("../../../tools/landed")).unwrap();
        assert!(landed.0.starts_with(&[2, 4, 13, 5, 3]));
    }
}
