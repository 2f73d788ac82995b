//! The shortest use of the library from Rust; the README shows the lines between the marks.

// README begin
use juzvanec::{fault, Board, Refusal, FREE};

fn main() -> Result<(), Refusal> {
    // 4 colours, 8 frames, 2 domains; grants 0x3 and 0xC, both active; the quotas at first
    let board = Board::new(4, 8, &[0x3, 0xC]);
    let mut table = [FREE; 8];
    let faulted = fault(&board, &mut table, 1, 0)?;
    println!("page 0 of domain 1 has frame {}", faulted.frame());
    Ok(())
}
// README end
