//! The calls that read files. They are not timed, since no other way stands beside them; the lists
//! that are laid out say what they have to give.

use crate::proved::ribbons::{read_orders, ribbon_of, Orders};
use crate::reference::order_list;
use crate::stack;
use crate::work::Case;

/// Reading the order list of a case gives the case back. So many bytes of stack it takes.
pub fn peak_of_orders(case: &Case) -> Result<usize, String> {
    let file = order_list(case);
    let mut bands = vec![0; case.bands.len()];
    let mut lengths = vec![0; case.lengths.len()];
    let mut names = vec![0; case.names.len()];
    let mut sizes = vec![0; case.sizes.len()];
    let mut orders = None;
    let peak = stack::peak(&mut || {
        let read = read_orders(&file, &mut bands, &mut lengths, &mut names, &mut sizes);
        orders = Some(read);
    });
    let expected = Orders {
        refused: 0,
        row: 0,
        codes: case.lengths.len() as u32,
        bands: case.bands.len() as u32,
        names: case.names.len() as u32,
    };
    let given = orders == Some(expected)
        && bands == case.bands
        && lengths == case.lengths
        && names == case.names
        && sizes == case.sizes;
    if given {
        Ok(peak)
    } else {
        Err(format!("{}: reading its list: {orders:?}", case.name))
    }
}

/// The ribbon of a file is what stands before the CR LF at its end.
pub fn peak_of_ribbon(case: &Case) -> Result<usize, String> {
    let file = [&case.bands[..], b"\r\n"].concat();
    let mut length = 0;
    let peak = stack::peak(&mut || length = ribbon_of(&file).len());
    if length == case.bands.len() {
        Ok(peak)
    } else {
        Err(format!("{}: the ribbon of a file: {length}", case.name))
    }
}
