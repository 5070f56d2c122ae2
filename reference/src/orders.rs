//! Reading an order list.

use crate::cut::{rows, Fields};
use crate::lend::room;
use crate::refusal::*;
use crate::rules::{are_bands, is_name, CODES, CODE_BANDS, FILE_BYTES};

/// How much of each lent buffer was written.
#[derive(Clone, Copy, Debug, PartialEq, Eq)]
pub struct Read {
    /// Codes: so many lengths and so many name sizes were written.
    pub codes: usize,
    pub bands: usize,
    /// Bytes of all names together.
    pub names: usize,
}

struct Order {
    name: Vec<u8>,
    code: Vec<u8>,
}

/// Reads an order list into a run of bands with a length for each code and a
/// run of names with a size for each.
pub fn read_orders(
    file: &[u8],
    bands: &mut [u8],
    lengths: &mut [u16],
    names: &mut [u8],
    sizes: &mut [u16],
) -> Result<Read, Refusal> {
    let orders = orders_in(file)?;
    let codes: Vec<&[u8]> = orders.iter().map(|order| &order.code[..]).collect();
    let all_names: Vec<&[u8]> = orders.iter().map(|order| &order.name[..]).collect();
    let (band_run, name_run) = (codes.concat(), all_names.concat());
    let bands = room(bands, band_run.len())?;
    let lengths = room(lengths, codes.len())?;
    let names = room(names, name_run.len())?;
    let sizes = room(sizes, codes.len())?;
    bands.copy_from_slice(&band_run);
    lengths.copy_from_slice(&lengths_of(&codes));
    names.copy_from_slice(&name_run);
    sizes.copy_from_slice(&lengths_of(&all_names));
    Ok(Read {
        codes: codes.len(),
        bands: band_run.len(),
        names: name_run.len(),
    })
}

/// Codes and names that were read have at most 64 bytes.
fn lengths_of(fields: &[&[u8]]) -> Vec<u16> {
    fields.iter().map(|field| field.len() as u16).collect()
}

fn orders_in(file: &[u8]) -> Result<Vec<Order>, Refusal> {
    if file.len() > FILE_BYTES {
        return Err(Refusal::whole(LONG_FILE));
    }
    if file.is_empty() {
        return Err(Refusal::whole(WRONG_HEADING));
    }
    let mut orders = Vec::new();
    for (row, fields) in (1..).zip(rows(file)) {
        let order = two_fields(fields).map_err(|number| Refusal { number, row })?;
        let fault = match row {
            1 => heading_fault(&order),
            _ => order_fault(&order, &orders),
        };
        if let Some(number) = fault {
            return Err(Refusal { number, row });
        }
        if row > 1 {
            orders.push(order);
        }
    }
    if orders.is_empty() {
        return Err(Refusal::whole(EMPTY_LIST));
    }
    Ok(orders)
}

fn two_fields(fields: Option<Fields>) -> Result<Order, u8> {
    let fields = fields.ok_or(BROKEN_ROW)?;
    let [name, code] = <[Vec<u8>; 2]>::try_from(fields).map_err(|_| WRONG_WIDTH)?;
    Ok(Order { name, code })
}

fn heading_fault(heading: &Order) -> Option<u8> {
    let right = heading.name == b"name" && heading.code == b"code";
    (!right).then_some(WRONG_HEADING)
}

/// The lowest number that goes for a row after the heading.
fn order_fault(order: &Order, earlier: &[Order]) -> Option<u8> {
    let faults = [
        (BAD_NAME, !is_name(&order.name)),
        (NO_BANDS, order.code.is_empty()),
        (LONG_CODE, order.code.len() > CODE_BANDS),
        (UNKNOWN_COLOUR, !are_bands(&order.code)),
        (
            NAME_TAKEN,
            earlier.iter().any(|other| other.name == order.name),
        ),
        (LIST_FULL, earlier.len() == CODES),
    ];
    let given = faults.into_iter().find(|(_, given)| *given);
    given.map(|(number, _)| number)
}
