//! What a caller lends to a call: the compiled list, the cost table, and the output of a sheet.

/// The lengths of list, table and output.
#[derive(Clone, Copy, Debug, PartialEq, Eq)]
pub struct Lengths {
    pub list: usize,
    pub table: usize,
    pub out: usize,
}

/// The parts that a call is handed.
pub struct Lent<'a> {
    pub list: &'a mut [u16],
    pub table: &'a mut [u64],
    pub out: &'a mut [u8],
}

/// What list, table and output hold, with what stands behind the parts that are handed in.
#[derive(Clone, PartialEq, Eq)]
pub struct Held {
    pub list: Vec<u16>,
    pub table: Vec<u64>,
    pub out: Vec<u8>,
}

impl Held {
    /// The fronts of these lengths, with so many numbers and bytes behind each.
    pub fn front(&self, Lengths { list, table, out }: Lengths, guards: usize) -> Held {
        Held {
            list: self.list[..list + guards].to_vec(),
            table: self.table[..table + guards].to_vec(),
            out: self.out[..out + guards].to_vec(),
        }
    }

    /// Lends the fronts of these lengths.
    pub fn lend(&mut self, Lengths { list, table, out }: Lengths) -> Lent<'_> {
        Lent { list: &mut self.list[..list], table: &mut self.table[..table], out: &mut self.out[..out] }
    }
}
