//! The rules that stand behind a certificate: their numbers in docs/RULES.md, and where
//! each is proved.

/// A rule, by its number there.
pub struct Rule {
    pub number: &'static str,
    pub says: &'static str,
    /// The crate and the theorem in it that says what the rule means, as certificates
    /// write its name: with hyphens, where the crate has underscores.
    pub proved_in: &'static str,
    pub theorem: &'static str,
}

const fn rule(
    number: &'static str,
    says: &'static str,
    proved_in: &'static str,
    theorem: &'static str,
) -> Rule {
    Rule {
        number,
        says,
        proved_in,
        theorem,
    }
}

/// Those that a certificate rests on.
#[rustfmt::skip]
pub const RULES: [Rule; 19] = [
    rule("R1", "of which kind a page is", "page", "one-kind"),
    rule("F6", "which layout is found", "page", "found-is"),
    rule("S1", "which record is newer", "chunk", "order-by-sequence"),
    rule("S2", "which header is the newest", "chunk", "newest-found"),
    rule("S3", "that a deletion cuts all that is older", "chunk", "gone-header-cuts-at-0"),
    rule("S4", "which headers of a file cut, and where", "chunk", "file-header-cuts-at-size"),
    rule("S5", "which headers cut nothing", "chunk", "plain-header-cuts-nowhere"),
    rule("S6", "how long a file is", "chunk", "size-at-least"),
    rule("S7", "which page is the copy of a part of a file", "chunk", "newest-found"),
    rule("S8", "which copies a cut hides", "chunk", "lowest-cut-hides"),
    rule("S9", "which part of a file is a hole", "chunk", "copy-in-sight"),
    rule("I13", "what stood before a record", "index", "older-taken"),
    rule("T5", "which path an object has", "tree", "path-names"),
    rule("Y1", "why a byte is what it is", "why", "reason-means"),
    rule("Y2", "which page sets the size", "why", "setter-newest"),
    rule("Y9", "that the runs leave no byte out", "why", "spans-from"),
    rule("H1", "how each record stands", "records", "stands-means"),
    rule("H6", "which bytes a record holds", "records", "lookup-holds"),
    rule("H8", "what the file was before", "records", "history-last"),
];

#[cfg(test)]
mod tests {
    use super::*;

    /// A certificate names no rule that docs/RULES.md lacks, and no theorem that is not
    /// named under it there; that those are in the crates `tests/documents.rs` sees.
    #[test]
    fn every_rule_and_theorem_is_in_the_rules() {
        let text = include_str!("../../docs/RULES.md");
        for rule in RULES {
            let number = format!("\n- **{}.** ", rule.number);
            let (_, behind) = text.split_once(&number).expect(rule.number);
            let its = behind.split("\n- **").next().unwrap();
            let place = format!("`crates/{}/proofs/", rule.proved_in);
            let theorem = format!("`{}`", rule.theorem.replace('-', "_"));
            let is_there = its.contains(&place) && its.contains(&theorem);
            assert!(is_there, "{} {}", rule.number, rule.theorem);
        }
    }
}
