//! The fifth part: the rules, and where they are proved.

use std::io;

use super::document::Document;
use super::gathered::Gathered;
use crate::rules::RULES;

impl Gathered<'_> {
    pub fn behind(&self, to: &mut Document<'_>) -> io::Result<()> {
        to.part("behind", "What stands behind this?")?;
        to.list("rules")?;
        for rule in RULES {
            let fields = vec![
                ("rule", rule.number.into()),
                ("crate", rule.proved_in.into()),
                ("theorem", rule.theorem.into()),
                ("says", rule.says.into()),
            ];
            to.row(fields, None)?;
        }
        to.note(
            "docs/RULES.md has the rules in words by these numbers; that the library answers by \
             them, whatever the dump, is proved, under the names that theorem= gives; the choice of \
             a block= that was found, the sums and the wording of this text are the command's own, \
             which is tested and not proved"
                .to_string(),
        )
    }
}
