//! Whether each address of a header is of a kind that may stand where it stands.

use peer::frame::{self, Fields};
use peer::random::Random;

use crate::compare::call::Value;
use crate::compare::cases::Case;
use crate::compare::frames::{any_fields, edge_fields};
use crate::rattle;

/// The call `calls_addresses_fit`, which returns a bool.
pub struct AddressesFit;

impl Value for AddressesFit {
    type Input = Fields;
    type Told = bool;

    const NAME: &'static str = "addresses fit";

    fn any(random: &mut Random) -> Fields {
        any_fields(random)
    }

    fn edges() -> impl Iterator<Item = Fields> {
        edge_fields()
    }

    fn cases() -> Vec<Case<Fields>> {
        vec![Case::named("any", Self::any)]
    }

    fn rattle(of: &Fields) -> bool {
        rattle::addresses_fit(of.source, of.destination, of.has_proxy, of.proxy)
    }

    fn peer(of: &Fields) -> bool {
        frame::addresses_fit(of.source, of.destination, of.has_proxy, of.proxy)
    }
}
