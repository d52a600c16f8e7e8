//! Programs as text: the assembler, the disassembler and the mnemonics that both use.

pub mod assembler;
pub mod disassembly;
pub mod mnemonics;
