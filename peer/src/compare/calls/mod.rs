//! The calls that are compared and measured, a module each.
//!
//! To add a call: declare it in `rattle.rs`, with a pointer and a length for each slice, and wrap it there; write its module here,
//! an `impl Call` like the others, or an `impl Value` where it returns a value and no refusal; add its line to `CALLS`.

mod addresses_fit;
mod broadcast;
mod cell;
mod check;
mod check_place;
mod codes_part;
mod complement;
mod distances;
mod distances_origin;
mod driver_route;
mod end_line;
mod first_link;
mod first_unknown;
mod fits;
mod fitted_servers;
mod hall_line;
mod header_place;
mod is_fitted;
mod is_known;
mod is_up;
mod journey;
mod journey_counts;
mod journey_line;
mod link;
mod n_fits;
mod neighbour;
mod next_hop;
mod next_identification;
mod next_prefix;
mod opening_line;
mod packet_fields;
mod packet_line;
mod part;
mod payload;
mod program;
mod put;
mod racks;
mod read_header;
mod refused_line;
mod route;
mod route_links;
mod servers;
mod sheet;
mod sheet_codes;
mod sheet_packet;
mod sheet_packet_place;
mod sheet_place;
mod size_of;
mod sizes;
mod step;
mod step_table;
mod trace;
mod trace_piece;
mod tuple;
mod uid;
mod word_at;
mod write_header;

pub use journey::Journey;
pub use step::Step;

use super::bench;
use super::call::Call;
use super::events::Event;
use super::ratios::Measure;
use super::tally::{self, Effort, Tally};

/// A call with its types hidden, to stand in one list with the others.
pub struct Listed {
    pub name: &'static str,
    pub numbers: &'static [u32],
    pub events: &'static [Event],
    pub compare: fn(seed: u64, effort: Effort) -> Tally,
    pub measure: fn(seed: u64) -> Vec<Measure>,
}

/// Every call, in the order of the rules.
pub const CALLS: &[Listed] = &[
    listed::<sizes::Sizes>(),
    listed::<uid::Uid>(),
    listed::<tuple::Tuple>(),
    listed::<cell::Cell>(),
    listed::<neighbour::Neighbour>(),
    listed::<link::Link>(),
    listed::<n_fits::NFits>(),
    listed::<fits::Fits<false>>(),
    listed::<fits::Fits<true>>(),
    listed::<servers::Servers>(),
    listed::<size_of::SizeOf>(),
    listed::<racks::Racks>(),
    listed::<next_prefix::NextPrefix>(),
    listed::<is_fitted::IsFitted>(),
    listed::<fitted_servers::FittedServers>(),
    listed::<route::Route>(),
    listed::<route_links::RouteLinks>(),
    listed::<driver_route::DriverRoute>(),
    listed::<first_link::FirstLink>(),
    listed::<check::Check>(),
    listed::<check_place::CheckPlace>(),
    listed::<part::Part>(),
    listed::<step_table::StepTable>(),
    listed::<is_up::IsUp>(),
    listed::<is_known::IsKnown>(),
    listed::<first_unknown::FirstUnknown>(),
    listed::<distances::Distances>(),
    listed::<distances_origin::DistancesOrigin>(),
    listed::<next_hop::NextHop>(),
    listed::<step::Step>(),
    listed::<journey::Journey>(),
    listed::<journey_counts::JourneyCounts>(),
    listed::<broadcast::Broadcast>(),
    listed::<read_header::ReadHeader>(),
    listed::<header_place::HeaderPlace>(),
    listed::<payload::Payload>(),
    listed::<write_header::WriteHeader>(),
    listed::<next_identification::NextIdentification>(),
    listed::<addresses_fit::AddressesFit>(),
    listed::<complement::Complement>(),
    listed::<sheet::Sheet>(),
    listed::<sheet_place::SheetPlace>(),
    listed::<sheet_codes::SheetCodes>(),
    listed::<codes_part::CodesPart>(),
    listed::<sheet_packet::SheetPacket>(),
    listed::<sheet_packet_place::SheetPacketPlace>(),
    listed::<packet_fields::PacketFields>(),
    listed::<word_at::WordAt>(),
    listed::<put::Put<u32>>(),
    listed::<put::Put<u8>>(),
    listed::<opening_line::OpeningLine>(),
    listed::<journey_line::JourneyLine>(),
    listed::<end_line::EndLine>(),
    listed::<hall_line::HallLine>(),
    listed::<refused_line::RefusedLine>(),
    listed::<packet_line::PacketLine>(),
    listed::<trace_piece::TracePiece>(),
    listed::<trace::Trace<0>>(),
    listed::<trace::Trace<1>>(),
    listed::<trace::Trace<2>>(),
    listed::<trace::Trace<3>>(),
    listed::<trace::Trace<4>>(),
    listed::<trace::Trace<5>>(),
    listed::<program::Program>(),
];

/// The longest room that hall's calls are lent, longer than any of their answers.
const HALL_ROOM: usize = 6;

/// A call as it stands in the list.
const fn listed<C: Call>() -> Listed {
    Listed {
        name: C::NAME,
        numbers: C::NUMBERS,
        events: C::EVENTS,
        compare: tally::compare::<C>,
        measure: bench::measure::<C>,
    }
}

#[cfg(test)]
mod tests {
    use super::*;

    #[test]
    fn no_two_calls_have_one_name() {
        for (place, call) in CALLS.iter().enumerate() {
            let before = &CALLS[..place];
            assert!(before.iter().all(|other| other.name != call.name));
        }
    }
}
