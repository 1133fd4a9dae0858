//! Injections from meter registers, refusals 13 to 16.

use crate::definitions::form::LARGEST;

/// The four lists of readings, a place a bus.
pub struct Registers<'a> {
    pub import_start: &'a [u32],
    pub import_end: &'a [u32],
    pub export_start: &'a [u32],
    pub export_end: &'a [u32],
}

/// End less start, the count carried past the top (4,294,967,295, then 0) where it rolled over.
pub fn advance(start: u32, end: u32) -> i64 {
    let past_the_top = if end < start { 1i64 << 32 } else { 0 };
    end as i64 + past_the_top - start as i64
}

/// The injections, or the number of the first refusal that holds; `room` is the length of the output.
pub fn injections(registers: &Registers, supply: usize, room: usize) -> Result<Vec<i64>, u8> {
    let buses = registers.import_start.len();
    let lists = [registers.import_end, registers.export_start, registers.export_end];
    if lists.iter().any(|list| list.len() != buses) || !(1..=128).contains(&buses) || room < buses {
        return Err(13);
    }
    if supply >= buses {
        return Err(14);
    }
    let mut found = vec![0; buses];
    for bus in (0..buses).filter(|&bus| bus != supply) {
        let import = advance(registers.import_start[bus], registers.import_end[bus]);
        let export = advance(registers.export_start[bus], registers.export_end[bus]);
        if import > LARGEST || export > LARGEST {
            return Err(15);
        }
        found[bus] = export - import;
    }
    found[supply] = -found.iter().sum::<i64>();
    if found[supply].abs() > LARGEST {
        return Err(16);
    }
    Ok(found)
}
