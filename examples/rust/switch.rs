//! A ground tool that turns one switch of a table on, and shows what pointers find in the new table. An overlay takes a member's
//! place whole: `{"switch":{"camera":true}}` over the table would drop every other switch. So the switches are looked up, overlaid
//! by themselves, and put back. Where all switches are at hand, their overlay can be budgeted before it is made.

use jsonb::Refusal;

/// `{"switch":{"camera":false,"radio":true},"zone1":{"heater":40}}`
const TABLE: &str = "40000002 10000006 10000005 5000001f 50000014 737769746368 7a6f6e6531 \
    40000002 10000006 10000005 30000000 40000000 63616d657261 726164696f \
    40000001 10000006 20000002 686561746572 5028";

/// A switch that the table has, one that it has not, and what is no pointer, since it lacks its first slash.
const POINTERS: [&str; 3] = ["/switch/camera", "/switch/beacon", "switch/camera"];

/// `{"camera":true}`
const CAMERA_ON: &str = "40000001 10000006 40000000 63616d657261";

/// `{"switch":{"camera":true,"radio":true}}`
const SWITCHES: &str = "40000001 10000006 5000001f 737769746368 \
    40000002 10000006 10000005 40000000 40000000 63616d657261 726164696f";

const EMPTY_ARRAY: &str = "80000000";

fn from_hex(text: &str) -> Vec<u8> {
    let digits: Vec<u8> = text.chars().filter_map(|c| c.to_digit(16)).map(|d| d as u8).collect();
    digits.chunks(2).map(|pair| pair[0] << 4 | pair[1]).collect()
}

fn to_hex(bytes: &[u8]) -> String {
    bytes.iter().map(|b| format!("{:02x}", b)).collect()
}

/// An array record of names: a path, or the names of an object that is built.
fn names(texts: &[&str]) -> Vec<u8> {
    let mut record = (0x8000_0000 | texts.len() as u32).to_be_bytes().to_vec();
    for text in texts {
        record.extend((0x1000_0000 | text.len() as u32).to_be_bytes());
    }
    for text in texts {
        record.extend(text.bytes());
    }
    record
}

/// The table with the member of a name overlaid; where the table has no such member, the overlay becomes it. A table that the board's
/// loader would not take is refused here, before it goes up.
fn overlay_member(table: &[u8], name: &str, overlay: &[u8]) -> Result<Vec<u8>, Refusal> {
    let mut room = [0; jsonb::ROOM];
    let member = match jsonb::get_by_keypath(table, &names(&[name]), &mut room)? {
        Some(found) => {
            let found = found.to_vec();
            jsonb::concat(&found, overlay, &mut room)?.to_vec()
        }
        None => overlay.to_vec(),
    };
    let values = jsonb::append(&from_hex(EMPTY_ARRAY), &member, &mut room)?.to_vec();
    let whole = jsonb::build_object(&names(&[name]), &values, &mut room)?.to_vec();
    let table = jsonb::concat(table, &whole, &mut room)?.to_vec();
    jsonb::flight::check(&table)?;
    Ok(table)
}

fn show(table: &[u8], pointer: &str) {
    match jsonb::get_by_pointer(table, pointer, &mut [0; jsonb::ROOM]) {
        Ok(Some(found)) => println!("{} {}", pointer, to_hex(found)),
        Ok(None) => println!("{} absent", pointer),
        Err(refusal) => println!("{} refused {}", pointer, refusal),
    }
}

/// How many bytes the overlaid table would have, for the uplink's budget.
fn show_budget(table: &[u8], overlay: &[u8]) {
    match jsonb::preview_concat(table, overlay) {
        Ok(length) => println!("{} bytes would go up", length),
        Err(refusal) => println!("refused {}", refusal),
    }
}

fn main() {
    let table = from_hex(TABLE);
    let camera_on = from_hex(CAMERA_ON);
    match overlay_member(&table, "switch", &camera_on) {
        Ok(table) => {
            println!("table {}", to_hex(&table));
            for pointer in POINTERS {
                show(&table, pointer);
            }
        }
        Err(refusal) => println!("refused {}", refusal),
    }
    // A table that lost its last byte is refused, and a buffer that is too short too.
    match overlay_member(&table[..table.len() - 1], "switch", &camera_on) {
        Ok(table) => println!("table {}", to_hex(&table)),
        Err(refusal) => println!("refused {}", refusal),
    }
    match jsonb::strip_nulls(&table, &mut [0; 16]) {
        Ok(table) => println!("table {}", to_hex(table)),
        Err(refusal) => println!("refused {}", refusal),
    }
    // A preview tells beforehand how many bytes serve, or why none would.
    let switches = from_hex(SWITCHES);
    show_budget(&table, &switches);
    show_budget(&table, &switches[..switches.len() - 1]);
}
