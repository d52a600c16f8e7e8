//! A list of accesses in one call.

use vbsys::{Access, Memories};

use crate::calls::lengths;
use crate::records::Machine;
use crate::refusal::Refusal;

/// A read of 1, 2 or 4 bytes.
pub fn read(address: u32, size: u32) -> Access {
    Access { address, size, ..Access::default() }
}

/// A write of 1, 2 or 4 bytes; `value` is the whole source register.
pub fn write(address: u32, size: u32, value: u32) -> Access {
    Access { address, size, write: 1, value, undefined: 0 }
}

impl Machine {
    /// Makes up to 256 accesses, in order: what single loads and stores would leave. A read's value and the mask of its
    /// undefined bytes go into its access.
    pub fn access_list(
        &mut self,
        memories: &mut Memories,
        list: &mut [Access],
    ) -> Result<(), Refusal> {
        let hardware = (&self.processor.hardware).into();
        let done = vbsys::access_list(memories, (&self.drawing).into(), hardware, list);
        match done.refusal {
            0 => {
                self.drawing = (&done.drawing).into();
                self.processor.hardware = (&done.hardware).into();
                Ok(())
            }
            11 => Err(refused(list)),
            number => Err(self.bus_refusal(lengths(memories), number)),
        }
    }
}

fn refused(list: &[Access]) -> Refusal {
    if list.len() > 256 {
        return Refusal::TooManyAccesses { given: list.len() };
    }
    let bad = list.iter().position(|access| ![1, 2, 4].contains(&access.size));
    let index = bad.expect("a list that is refused by 11");
    Refusal::AccessSize { index, given: list[index].size }
}
