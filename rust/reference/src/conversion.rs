//! "Conversion from 1 to 2 and back, with the old bytes returned exactly."

use crate::answer::{Answer, Refusal, Thing};
use crate::net_sheet::whole_net_of;
use crate::output::written;
use crate::rule::Rule;
use crate::version::Version;

/// Writes the sheet of version 2 of a net in version 1: its rule is 0.
pub fn to_version_2(net: &[u8], output: &mut [u8]) -> Result<usize, Answer> {
    converted(net, Version::One, Version::Two, output)
}

/// Writes the sheet of version 1 of a net in version 2.
pub fn to_version_1(net: &[u8], output: &mut [u8]) -> Result<usize, Answer> {
    converted(net, Version::Two, Version::One, output)
}

/// "A conversion answers 2 to a sheet of its target version and 10 to a short output": any version byte but its
/// source's is 2.
fn converted(net: &[u8], from: Version, to: Version, output: &mut [u8]) -> Result<usize, Answer> {
    let net = whole_net_of(net, &[from])?;
    // "Converting a rule-1 sheet to version 1 is always refused by 23, before 10."
    if net.rule() == Rule::Weak {
        return Err(Answer::refused(Refusal::WeakRule, Thing::Net, 0));
    }
    written(&net.plain().sheet_in(to), output)
}
