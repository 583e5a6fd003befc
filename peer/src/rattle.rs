//! The proved calls, as the static libraries of the crates `calls_hall_c`, `calls_plan_c`, `calls_packets_c`, `driver_c`,
//! `calls_parts_c`, `calls_sheets_c` and `calls_lines_c` export them, behind safe functions.
//!
//! Nothing checks these declarations against the Rattle source: whoever changes a signature there changes it here. A slice is two
//! arguments to Rattle, a pointer and a length, and is declared as two. A Rust slice would be one: where a single register is left
//! for it, it goes to the stack whole, and Rattle would look for its pointer in that register.

use peer::forward::Packet;
use peer::frame::Fields;
use peer::hall::{Hall, LEVELS};

mod foreign {
    #[link(name = "calls_hall", kind = "static")]
    unsafe extern "C" {
        pub fn calls_sizes(
            n: u32,
            k: u32,
            b: u32,
            count: u32,
            room: *mut u32,
            length: usize,
        ) -> u32;
        pub fn calls_size_of(n: u32, k: u32, b: u32, count: u32, level: u32) -> u32;
        pub fn calls_uid(
            n: u32,
            k: u32,
            b: u32,
            count: u32,
            a0: u32,
            a1: u32,
            a2: u32,
            a3: u32,
            room: *mut u32,
            length: usize,
        ) -> u32;
        pub fn calls_tuple(
            n: u32,
            k: u32,
            b: u32,
            count: u32,
            uid: u32,
            room: *mut u32,
            length: usize,
        ) -> u32;
        pub fn calls_cell(
            n: u32,
            k: u32,
            b: u32,
            count: u32,
            uid: u32,
            level: u32,
            room: *mut u32,
            length: usize,
        ) -> u32;
        pub fn calls_neighbour(
            n: u32,
            k: u32,
            b: u32,
            count: u32,
            uid: u32,
            level: u32,
            room: *mut u32,
            length: usize,
        ) -> u32;
        pub fn calls_link(
            n: u32,
            k: u32,
            b: u32,
            count: u32,
            uid: u32,
            level: u32,
            p: u32,
            q: u32,
            room: *mut u32,
            length: usize,
        ) -> u32;
        pub fn calls_check(
            n: u32,
            k: u32,
            b: u32,
            count: u32,
            table: *const u8,
            codes: usize,
        ) -> u32;
        pub fn calls_part(
            n: u32,
            k: u32,
            b: u32,
            count: u32,
            table: *const u8,
            codes: usize,
            uid: u32,
            room: *mut u8,
            length: usize,
        ) -> u32;
        pub fn calls_route(
            n: u32,
            k: u32,
            b: u32,
            count: u32,
            x: u32,
            y: u32,
            room: *mut u32,
            length: usize,
        ) -> u32;
    }

    #[link(name = "calls_plan", kind = "static")]
    unsafe extern "C" {
        pub fn calls_racks(n: u32, k: u32) -> u32;
        pub fn calls_next_prefix(
            n: u32,
            k: u32,
            b: u32,
            count: u32,
            room: *mut u32,
            length: usize,
        ) -> u32;
        pub fn calls_is_fitted(n: u32, k: u32, b: u32, count: u32, uid: u32) -> bool;
        pub fn calls_fitted_servers(n: u32, k: u32, b: u32, count: u32, uid: u32) -> u32;
    }

    #[link(name = "calls_packets", kind = "static")]
    unsafe extern "C" {
        pub fn calls_journey(
            n: u32,
            k: u32,
            b: u32,
            count: u32,
            source: u32,
            dst: u32,
            has_proxy: u32,
            proxy: u32,
            retry: u8,
            ttl: u8,
            table: *const u8,
            codes: usize,
            room: *mut u32,
            length: usize,
        ) -> u32;
        pub fn calls_journey_counts(
            n: u32,
            k: u32,
            b: u32,
            count: u32,
            source: u32,
            dst: u32,
            has_proxy: u32,
            proxy: u32,
            retry: u8,
            ttl: u8,
            table: *const u8,
            codes: usize,
            room: *mut u32,
            length: usize,
        ) -> u32;
        pub fn calls_distances(
            n: u32,
            k: u32,
            b: u32,
            count: u32,
            uid: u32,
            table: *const u8,
            codes: usize,
            room: *mut u8,
            length: usize,
        ) -> u32;
        pub fn calls_distances_origin(
            n: u32,
            k: u32,
            b: u32,
            count: u32,
            uid: u32,
            table: *const u8,
            codes: usize,
            room: *mut u32,
            length: usize,
        ) -> u32;
        pub fn calls_next_hop(
            n: u32,
            k: u32,
            b: u32,
            count: u32,
            uid: u32,
            target: u32,
            table: *const u8,
            codes: usize,
            room: *mut u32,
            length: usize,
        ) -> u32;
        pub fn calls_payload(frame: *const u8, bytes: usize, room: *mut u8, length: usize) -> u32;
        pub fn calls_next_identification(identification: u32) -> u32;
        pub fn calls_broadcast(
            n: u32,
            k: u32,
            b: u32,
            count: u32,
            table: *const u8,
            codes: usize,
            source: u32,
            scope: u32,
            rounds: *mut u16,
            servers: usize,
            room: *mut u32,
            length: usize,
        ) -> u32;
    }

    #[link(name = "driver", kind = "static")]
    unsafe extern "C" {
        pub fn tbexlum_route(
            n: u32,
            k: u32,
            b: u32,
            count: u32,
            x: u32,
            y: u32,
            room: *mut u8,
            length: usize,
        ) -> u32;
        pub fn tbexlum_step_table(
            n: u32,
            k: u32,
            b: u32,
            count: u32,
            table: *const u8,
            codes: usize,
            uid: u32,
            room: *mut u8,
            length: usize,
        ) -> u32;
        pub fn tbexlum_step(
            n: u32,
            k: u32,
            b: u32,
            count: u32,
            uid: u32,
            dst: u32,
            has_proxy: u32,
            proxy: u32,
            retry: u8,
            ttl: u8,
            table: *const u8,
            codes: usize,
            room: *mut u8,
            length: usize,
        ) -> u32;
        pub fn tbexlum_read_header(
            frame: *const u8,
            bytes: usize,
            room: *mut u8,
            length: usize,
        ) -> u32;
        pub fn tbexlum_header_place(frame: *const u8, bytes: usize) -> u32;
        pub fn tbexlum_write_header(
            protocol: u8,
            payload_length: u16,
            identification: u32,
            retry: u8,
            ttl: u8,
            source: u32,
            destination: u32,
            has_proxy: u32,
            proxy: u32,
            room: *mut u8,
            length: usize,
        ) -> u32;
    }

    #[link(name = "calls_parts", kind = "static")]
    unsafe extern "C" {
        pub fn calls_n_fits(n: u32) -> bool;
        pub fn calls_k_fits(n: u32, k: u32) -> bool;
        pub fn calls_b_fits(k: u32, b: u32) -> bool;
        pub fn calls_servers(n: u32, k: u32, b: u32, count: u32) -> u32;
        pub fn calls_first_link(
            n: u32,
            k: u32,
            b: u32,
            count: u32,
            x: u32,
            y: u32,
            room: *mut u32,
            length: usize,
        ) -> u32;
        pub fn calls_is_up(
            n: u32,
            k: u32,
            b: u32,
            count: u32,
            table: *const u8,
            codes: usize,
            server: u32,
            port: u32,
        ) -> bool;
        pub fn calls_is_known(code: u8) -> bool;
        pub fn calls_first_unknown(table: *const u8, codes: usize) -> usize;
        pub fn calls_addresses_fit(
            source: u32,
            destination: u32,
            has_proxy: bool,
            proxy: u32,
        ) -> bool;
        pub fn calls_complement(sum: u64) -> u32;
        pub fn calls_word_at(sheet: *const u8, bytes: usize, at: usize) -> u32;
        pub fn calls_put_words(
            room: *mut u8,
            length: usize,
            at: usize,
            words: *const u32,
            count: usize,
        );
        pub fn calls_put_bytes(
            room: *mut u8,
            length: usize,
            at: usize,
            bytes: *const u8,
            count: usize,
        );
        pub fn calls_check_place(
            n: u32,
            k: u32,
            b: u32,
            count: u32,
            table: *const u8,
            codes: usize,
        ) -> u32;
        pub fn calls_route_links(n: u32, k: u32, b: u32, count: u32, x: u32, y: u32) -> u32;
    }

    #[link(name = "calls_sheets", kind = "static")]
    unsafe extern "C" {
        pub fn calls_sheet(sheet: *const u8, bytes: usize, room: *mut u32, length: usize) -> u32;
        pub fn calls_sheet_place(sheet: *const u8, bytes: usize) -> u32;
        pub fn calls_sheet_codes(
            sheet: *const u8,
            bytes: usize,
            room: *mut u8,
            length: usize,
        ) -> u32;
        pub fn calls_codes_part(
            sheet: *const u8,
            bytes: usize,
            room: *mut u8,
            length: usize,
        ) -> u32;
        pub fn calls_sheet_packet(
            sheet: *const u8,
            bytes: usize,
            i: u32,
            room: *mut u32,
            length: usize,
        ) -> u32;
        pub fn calls_sheet_packet_place(sheet: *const u8, bytes: usize, i: u32) -> u32;
        pub fn calls_packet_fields(
            sheet: *const u8,
            bytes: usize,
            i: u32,
            room: *mut u32,
            length: usize,
        ) -> u32;
    }

    #[link(name = "calls_lines", kind = "static")]
    unsafe extern "C" {
        pub fn calls_opening_line(
            sheet: *const u8,
            bytes: usize,
            at: usize,
            room: *mut u8,
            length: usize,
            end: *mut usize,
        ) -> u32;
        pub fn calls_journey_line(
            sheet: *const u8,
            bytes: usize,
            i: u32,
            at: usize,
            room: *mut u8,
            length: usize,
            end: *mut usize,
        ) -> u32;
        pub fn calls_end_line(
            packets: u32,
            at: usize,
            room: *mut u8,
            length: usize,
            end: *mut usize,
        ) -> u32;
        pub fn calls_hall_line(
            n: u32,
            k: u32,
            b: u32,
            count: u32,
            at: usize,
            room: *mut u8,
            length: usize,
            end: *mut usize,
        ) -> u32;
        pub fn calls_refused_line(
            number: u32,
            place: u32,
            at: usize,
            room: *mut u8,
            length: usize,
            end: *mut usize,
        ) -> u32;
        pub fn calls_packet_line(
            source: u32,
            dst: u32,
            ending: u32,
            links: u32,
            reroutes: u32,
            uids: *const u32,
            count: usize,
            at: usize,
            room: *mut u8,
            length: usize,
            end: *mut usize,
        ) -> u32;
        pub fn calls_trace_piece(
            sheet: *const u8,
            bytes: usize,
            from: u32,
            room: *mut u8,
            length: usize,
            next: *mut u32,
            end: *mut usize,
        ) -> u32;
    }
}

// SAFETY, of every call below: the exported functions have no `requires`, and read and write nothing but the slices and numbers lent to
// them; pointer and length are those of a slice, and a pointer alone that of a number, that is borrowed, for writing alone where it is
// written to, until the call returns.

/// The sizes of a hall.
#[inline]
pub fn sizes(h: Hall, room: &mut [u32]) -> u32 {
    unsafe { foreign::calls_sizes(h.n, h.k, h.b, h.count, room.as_mut_ptr(), room.len()) }
}

/// The uid of a tuple.
#[inline]
pub fn uid(h: Hall, tuple: [u32; LEVELS], room: &mut [u32]) -> u32 {
    let [a0, a1, a2, a3] = tuple;
    let (start, length) = (room.as_mut_ptr(), room.len());
    unsafe { foreign::calls_uid(h.n, h.k, h.b, h.count, a0, a1, a2, a3, start, length) }
}

/// The tuple of a uid.
#[inline]
pub fn tuple(h: Hall, uid: u32, room: &mut [u32]) -> u32 {
    unsafe { foreign::calls_tuple(h.n, h.k, h.b, h.count, uid, room.as_mut_ptr(), room.len()) }
}

/// The DCell of a level around a server.
#[inline]
pub fn cell(h: Hall, uid: u32, level: u32, room: &mut [u32]) -> u32 {
    let (start, length) = (room.as_mut_ptr(), room.len());
    unsafe { foreign::calls_cell(h.n, h.k, h.b, h.count, uid, level, start, length) }
}

/// The neighbour of a server at a level.
#[inline]
pub fn neighbour(h: Hall, uid: u32, level: u32, room: &mut [u32]) -> u32 {
    let (start, length) = (room.as_mut_ptr(), room.len());
    unsafe { foreign::calls_neighbour(h.n, h.k, h.b, h.count, uid, level, start, length) }
}

/// The link between two sub-cells of the DCell of a level around a server.
#[inline]
pub fn link(h: Hall, uid: u32, level: u32, p: u32, q: u32, room: &mut [u32]) -> u32 {
    let (start, length) = (room.as_mut_ptr(), room.len());
    unsafe { foreign::calls_link(h.n, h.k, h.b, h.count, uid, level, p, q, start, length) }
}

/// Whether n is in its range.
#[inline]
pub fn n_fits(n: u32) -> bool {
    unsafe { foreign::calls_n_fits(n) }
}

/// Whether k is in its range, in a hall of n servers to a switch.
#[inline]
pub fn k_fits(n: u32, k: u32) -> bool {
    unsafe { foreign::calls_k_fits(n, k) }
}

/// Whether b is in its range, in a hall of top level k.
#[inline]
pub fn b_fits(k: u32, b: u32) -> bool {
    unsafe { foreign::calls_b_fits(k, b) }
}

/// The servers of a hall; 0 where there is no such hall.
#[inline]
pub fn servers(h: Hall) -> u32 {
    unsafe { foreign::calls_servers(h.n, h.k, h.b, h.count) }
}

/// The servers of a DCell of a level; 0 where there is no such hall or level.
#[inline]
pub fn size_of(h: Hall, level: u32) -> u32 {
    unsafe { foreign::calls_size_of(h.n, h.k, h.b, h.count, level) }
}

/// The DCell(1)s that a hall can have; 0 where n or k is outside its range.
#[inline]
pub fn racks(n: u32, k: u32) -> u32 {
    unsafe { foreign::calls_racks(n, k) }
}

/// The prefix of the DCell(1) to be fitted next, as the tuple of its first server.
#[inline]
pub fn next_prefix(h: Hall, room: &mut [u32]) -> u32 {
    let (start, length) = (room.as_mut_ptr(), room.len());
    unsafe { foreign::calls_next_prefix(h.n, h.k, h.b, h.count, start, length) }
}

/// Whether a server is fitted; none is where there is no such hall or server.
#[inline]
pub fn is_fitted(h: Hall, uid: u32) -> bool {
    unsafe { foreign::calls_is_fitted(h.n, h.k, h.b, h.count, uid) }
}

/// The fitted servers of the DCell(2) around a server; 0 where there is no such hall, server or DCell.
#[inline]
pub fn fitted_servers(h: Hall, uid: u32) -> u32 {
    unsafe { foreign::calls_fitted_servers(h.n, h.k, h.b, h.count, uid) }
}

/// The check of a hall table: its refusal.
#[inline]
pub fn check(h: Hall, table: &[u8]) -> u32 {
    unsafe { foreign::calls_check(h.n, h.k, h.b, h.count, table.as_ptr(), table.len()) }
}

/// The check of a hall table: the place of its first unknown code, else 0.
#[inline]
pub fn check_place(h: Hall, table: &[u8]) -> u32 {
    unsafe { foreign::calls_check_place(h.n, h.k, h.b, h.count, table.as_ptr(), table.len()) }
}

/// The part of a hall table that holds the DCell(b) of a server.
#[inline]
pub fn part(h: Hall, table: &[u8], uid: u32, room: &mut [u8]) -> u32 {
    let (codes, count) = (table.as_ptr(), table.len());
    let (start, length) = (room.as_mut_ptr(), room.len());
    unsafe { foreign::calls_part(h.n, h.k, h.b, h.count, codes, count, uid, start, length) }
}

/// The table lent to a step of a server: that part, and the codes of the far ports behind it.
#[inline]
pub fn step_table(h: Hall, table: &[u8], uid: u32, room: &mut [u8]) -> u32 {
    let (codes, count) = (table.as_ptr(), table.len());
    let (start, length) = (room.as_mut_ptr(), room.len());
    unsafe { foreign::tbexlum_step_table(h.n, h.k, h.b, h.count, codes, count, uid, start, length) }
}

/// Whether a port of a server is up.
#[inline]
pub fn is_up(h: Hall, table: &[u8], server: u32, port: u32) -> bool {
    let (codes, count) = (table.as_ptr(), table.len());
    unsafe { foreign::calls_is_up(h.n, h.k, h.b, h.count, codes, count, server, port) }
}

/// Whether a code is known.
#[inline]
pub fn is_known(code: u8) -> bool {
    unsafe { foreign::calls_is_known(code) }
}

/// Where the first unknown code of a table stands; its length where there is none.
#[inline]
pub fn first_unknown(table: &[u8]) -> usize {
    unsafe { foreign::calls_first_unknown(table.as_ptr(), table.len()) }
}

/// Whether each address is of a kind that may stand where it stands.
pub fn addresses_fit(source: u32, destination: u32, has_proxy: bool, proxy: u32) -> bool {
    unsafe { foreign::calls_addresses_fit(source, destination, has_proxy, proxy) }
}

/// The ones' complement of a plain sum with its carries brought in.
pub fn complement(sum: u64) -> u32 {
    unsafe { foreign::calls_complement(sum) }
}

/// The number in four bytes of a sheet, 0 where they are not there.
pub fn word_at(sheet: &[u8], at: usize) -> u32 {
    unsafe { foreign::calls_word_at(sheet.as_ptr(), sheet.len(), at) }
}

/// Words put from a place of the room on, where they all fit.
pub fn put_words(room: &mut [u8], at: usize, words: &[u32]) {
    let (given, count) = (words.as_ptr(), words.len());
    unsafe { foreign::calls_put_words(room.as_mut_ptr(), room.len(), at, given, count) }
}

/// Bytes put from a place of the room on, where they all fit.
pub fn put_bytes(room: &mut [u8], at: usize, bytes: &[u8]) {
    let (given, count) = (bytes.as_ptr(), bytes.len());
    unsafe { foreign::calls_put_bytes(room.as_mut_ptr(), room.len(), at, given, count) }
}

/// The uids of the route from x to y, zeros behind them.
#[inline]
pub fn route(h: Hall, x: u32, y: u32, room: &mut [u32]) -> u32 {
    unsafe { foreign::calls_route(h.n, h.k, h.b, h.count, x, y, room.as_mut_ptr(), room.len()) }
}

/// The links of the route from x to y; 0 where it is refused.
#[inline]
pub fn route_links(h: Hall, x: u32, y: u32) -> u32 {
    unsafe { foreign::calls_route_links(h.n, h.k, h.b, h.count, x, y) }
}

/// The route from x to y in the driver's form.
#[inline]
pub fn driver_route(h: Hall, x: u32, y: u32, room: &mut [u8]) -> u32 {
    unsafe { foreign::tbexlum_route(h.n, h.k, h.b, h.count, x, y, room.as_mut_ptr(), room.len()) }
}

/// The level and the ends of the first link above b of the route from x to y; zeros where there is none.
#[inline]
pub fn first_link(h: Hall, x: u32, y: u32, room: &mut [u32]) -> u32 {
    unsafe {
        foreign::calls_first_link(h.n, h.k, h.b, h.count, x, y, room.as_mut_ptr(), room.len())
    }
}

/// The distances from a server to all of its DCell(b).
#[inline]
pub fn distances(h: Hall, uid: u32, table: &[u8], room: &mut [u8]) -> u32 {
    let (codes, count) = (table.as_ptr(), table.len());
    let (start, length) = (room.as_mut_ptr(), room.len());
    unsafe { foreign::calls_distances(h.n, h.k, h.b, h.count, uid, codes, count, start, length) }
}

/// The origin of these distances and their count.
#[inline]
pub fn distances_origin(h: Hall, uid: u32, table: &[u8], room: &mut [u32]) -> u32 {
    let (codes, count) = (table.as_ptr(), table.len());
    let (start, length) = (room.as_mut_ptr(), room.len());
    unsafe {
        foreign::calls_distances_origin(h.n, h.k, h.b, h.count, uid, codes, count, start, length)
    }
}

/// The local next hop from a server towards a target.
#[inline]
pub fn next_hop(h: Hall, uid: u32, target: u32, table: &[u8], room: &mut [u32]) -> u32 {
    let (codes, count) = (table.as_ptr(), table.len());
    let (start, length) = (room.as_mut_ptr(), room.len());
    unsafe {
        foreign::calls_next_hop(
            h.n, h.k, h.b, h.count, uid, target, codes, count, start, length,
        )
    }
}

/// The header of a frame in the driver's form.
#[inline]
pub fn read_header(frame: &[u8], room: &mut [u8]) -> u32 {
    let (start, length) = (room.as_mut_ptr(), room.len());
    unsafe { foreign::tbexlum_read_header(frame.as_ptr(), frame.len(), start, length) }
}

/// The place of the refusal that the reading of a frame gives, else 0.
#[inline]
pub fn header_place(frame: &[u8]) -> u32 {
    unsafe { foreign::tbexlum_header_place(frame.as_ptr(), frame.len()) }
}

/// The header of these fields; the number that tells of a proxy stands beside them.
#[inline]
pub fn write_header(fields: &Fields, has_proxy: u32, room: &mut [u8]) -> u32 {
    unsafe {
        foreign::tbexlum_write_header(
            fields.protocol,
            fields.payload_length,
            fields.identification,
            fields.retry,
            fields.ttl,
            fields.source,
            fields.destination,
            has_proxy,
            fields.proxy,
            room.as_mut_ptr(),
            room.len(),
        )
    }
}

/// The payload of a frame.
#[inline]
pub fn payload(frame: &[u8], room: &mut [u8]) -> u32 {
    let (start, length) = (room.as_mut_ptr(), room.len());
    unsafe { foreign::calls_payload(frame.as_ptr(), frame.len(), start, length) }
}

/// The identification after one.
#[inline]
pub fn next_identification(identification: u32) -> u32 {
    unsafe { foreign::calls_next_identification(identification) }
}

/// The rounds of a broadcast, and the servers reached and the last round.
#[inline]
pub fn broadcast(
    h: Hall,
    table: &[u8],
    source: u32,
    scope: u32,
    rounds: &mut [u16],
    room: &mut [u32],
) -> u32 {
    let (codes, count) = (table.as_ptr(), table.len());
    let (first, servers) = (rounds.as_mut_ptr(), rounds.len());
    let (start, length) = (room.as_mut_ptr(), room.len());
    unsafe {
        foreign::calls_broadcast(
            h.n, h.k, h.b, h.count, codes, count, source, scope, first, servers, start, length,
        )
    }
}

/// One forwarding step in the driver's form; the number that tells of a proxy stands beside the packet.
#[inline]
pub fn step(h: Hall, uid: u32, p: Packet, flag: u32, table: &[u8], room: &mut [u8]) -> u32 {
    unsafe {
        foreign::tbexlum_step(
            h.n,
            h.k,
            h.b,
            h.count,
            uid,
            p.dst,
            flag,
            p.proxy,
            p.retry,
            p.ttl,
            table.as_ptr(),
            table.len(),
            room.as_mut_ptr(),
            room.len(),
        )
    }
}

/// The uids that a journey passes.
#[inline]
pub fn journey(h: Hall, source: u32, p: Packet, flag: u32, table: &[u8], room: &mut [u32]) -> u32 {
    unsafe {
        foreign::calls_journey(
            h.n,
            h.k,
            h.b,
            h.count,
            source,
            p.dst,
            flag,
            p.proxy,
            p.retry,
            p.ttl,
            table.as_ptr(),
            table.len(),
            room.as_mut_ptr(),
            room.len(),
        )
    }
}

/// The ending, the links and the reroutes of a journey.
#[inline]
pub fn journey_counts(
    h: Hall,
    source: u32,
    p: Packet,
    flag: u32,
    table: &[u8],
    room: &mut [u32],
) -> u32 {
    unsafe {
        foreign::calls_journey_counts(
            h.n,
            h.k,
            h.b,
            h.count,
            source,
            p.dst,
            flag,
            p.proxy,
            p.retry,
            p.ttl,
            table.as_ptr(),
            table.len(),
            room.as_mut_ptr(),
            room.len(),
        )
    }
}

/// The hall of a sheet and the number of its packets.
#[inline]
pub fn sheet(sheet: &[u8], room: &mut [u32]) -> u32 {
    let (start, length) = (room.as_mut_ptr(), room.len());
    unsafe { foreign::calls_sheet(sheet.as_ptr(), sheet.len(), start, length) }
}

/// The place of a sheet's first fault; 0 where there is none.
#[inline]
pub fn sheet_place(sheet: &[u8]) -> u32 {
    unsafe { foreign::calls_sheet_place(sheet.as_ptr(), sheet.len()) }
}

/// The hall table of a sheet.
#[inline]
pub fn sheet_codes(sheet: &[u8], room: &mut [u8]) -> u32 {
    let (start, length) = (room.as_mut_ptr(), room.len());
    unsafe { foreign::calls_sheet_codes(sheet.as_ptr(), sheet.len(), start, length) }
}

/// The part of a sheet behind its second count, as long as that says.
#[inline]
pub fn codes_part(sheet: &[u8], room: &mut [u8]) -> u32 {
    let (start, length) = (room.as_mut_ptr(), room.len());
    unsafe { foreign::calls_codes_part(sheet.as_ptr(), sheet.len(), start, length) }
}

/// A packet of a sheet.
#[inline]
pub fn sheet_packet(sheet: &[u8], i: u32, room: &mut [u32]) -> u32 {
    let (start, length) = (room.as_mut_ptr(), room.len());
    unsafe { foreign::calls_sheet_packet(sheet.as_ptr(), sheet.len(), i, start, length) }
}

/// The place that the refusal of a packet of a sheet is told at, else 0.
#[inline]
pub fn sheet_packet_place(sheet: &[u8], i: u32) -> u32 {
    unsafe { foreign::calls_sheet_packet_place(sheet.as_ptr(), sheet.len(), i) }
}

/// The fields of a packet of a sheet by their bytes, whatever the sheet is.
#[inline]
pub fn packet_fields(sheet: &[u8], i: u32, room: &mut [u32]) -> u32 {
    let (start, length) = (room.as_mut_ptr(), room.len());
    unsafe { foreign::calls_packet_fields(sheet.as_ptr(), sheet.len(), i, start, length) }
}

/// The first line of a sheet's trace, written at a place; the place behind it.
#[inline]
pub fn opening_line(sheet: &[u8], at: usize, room: &mut [u8], end: &mut usize) -> u32 {
    let (start, length) = (room.as_mut_ptr(), room.len());
    unsafe { foreign::calls_opening_line(sheet.as_ptr(), sheet.len(), at, start, length, end) }
}

/// The line of a packet's journey, written at a place; the place behind it.
#[inline]
pub fn journey_line(sheet: &[u8], i: u32, at: usize, room: &mut [u8], end: &mut usize) -> u32 {
    let (start, length) = (room.as_mut_ptr(), room.len());
    let (first, bytes) = (sheet.as_ptr(), sheet.len());
    unsafe { foreign::calls_journey_line(first, bytes, i, at, start, length, end) }
}

/// The last line of a trace, written at a place; the place behind it.
#[inline]
pub fn end_line(packets: u32, at: usize, room: &mut [u8], end: &mut usize) -> u32 {
    unsafe { foreign::calls_end_line(packets, at, room.as_mut_ptr(), room.len(), end) }
}

/// The line of a hall, written at a place; the place behind it.
#[inline]
pub fn hall_line(h: Hall, at: usize, room: &mut [u8], end: &mut usize) -> u32 {
    unsafe {
        foreign::calls_hall_line(
            h.n,
            h.k,
            h.b,
            h.count,
            at,
            room.as_mut_ptr(),
            room.len(),
            end,
        )
    }
}

/// The line of a refused sheet, written at a place; the place behind it.
#[inline]
pub fn refused_line(number: u32, place: u32, at: usize, room: &mut [u8], end: &mut usize) -> u32 {
    let (start, length) = (room.as_mut_ptr(), room.len());
    unsafe { foreign::calls_refused_line(number, place, at, start, length, end) }
}

/// The line of a packet, by its source, dst, ending, links, reroutes and uids, written at a place; the place behind it.
#[inline]
pub fn packet_line(
    told: [u32; 5],
    uids: &[u32],
    at: usize,
    room: &mut [u8],
    end: &mut usize,
) -> u32 {
    let [source, dst, ending, links, reroutes] = told;
    unsafe {
        foreign::calls_packet_line(
            source,
            dst,
            ending,
            links,
            reroutes,
            uids.as_ptr(),
            uids.len(),
            at,
            room.as_mut_ptr(),
            room.len(),
            end,
        )
    }
}

/// The lines of a sheet's trace from one on, as many as the room has place for; the first line behind them and the place behind the text.
#[inline]
pub fn trace_piece(
    sheet: &[u8],
    from: u32,
    room: &mut [u8],
    next: &mut u32,
    end: &mut usize,
) -> u32 {
    let (start, length) = (room.as_mut_ptr(), room.len());
    let (first, bytes) = (sheet.as_ptr(), sheet.len());
    unsafe { foreign::calls_trace_piece(first, bytes, from, start, length, next, end) }
}
