//! The loop of the job `world N` of `vd_test_rows`, run by an interpreter as one would write it by hand: instructions in an enum, jumps by
//! index, registers in a vector, no hosts and no links. It prints the same line, with its own name.

use std::env;
use std::hint::black_box;

#[derive(Clone, Copy)]
enum Binary {
    Add,
    Mul,
    Xor,
}

#[derive(Clone, Copy)]
enum Instr {
    Const(usize, u32),
    Apply(Binary, usize, usize, usize),
    Shr(usize, usize, u32),
    /// A loop opens: register, turns, index of its end.
    For(usize, u32, usize),
    /// A loop ends.
    End,
    Print(usize),
}

/// A loop that is open: its register, the turn it is at, its turns, and where its body begins.
struct Open {
    register: usize,
    turn: u32,
    turns: u32,
    body: usize,
}

fn apply(binary: Binary, x: u32, y: u32) -> u32 {
    match binary {
        Binary::Add => x.wrapping_add(y),
        Binary::Mul => x.wrapping_mul(y),
        Binary::Xor => x ^ y,
    }
}

/// Runs the code to its end. Answers how many steps it took, and what it printed.
fn run(code: &[Instr], registers: &mut [u32]) -> (u64, Vec<u32>) {
    let mut open: Vec<Open> = Vec::new();
    let mut printed = Vec::new();
    let mut steps = 0;
    let mut at = 0;
    while at < code.len() {
        steps += 1;
        match code[at] {
            Instr::Const(to, word) => registers[to] = word,
            Instr::Apply(binary, to, x, y) => {
                registers[to] = apply(binary, registers[x], registers[y]);
            }
            Instr::Shr(to, x, by) => registers[to] = registers[x] >> by,
            Instr::For(register, turns, end) => {
                if turns == 0 {
                    at = end + 1;
                    continue;
                }
                registers[register] = 0;
                open.push(Open { register, turn: 0, turns, body: at + 1 });
            }
            Instr::End => {
                let innermost = open.last_mut().expect("a loop is open");
                innermost.turn += 1;
                if innermost.turn < innermost.turns {
                    registers[innermost.register] = innermost.turn;
                    at = innermost.body;
                    continue;
                }
                open.pop();
            }
            Instr::Print(x) => printed.push(registers[x]),
        }
        at += 1;
    }
    (steps, printed)
}

fn main() {
    let turns: u32 = env::args().nth(1).and_then(|word| word.parse().ok()).expect("a number of turns");
    let code = [
        Instr::Const(2, 1664525),
        Instr::For(0, turns, 6),
        Instr::Apply(Binary::Mul, 1, 1, 2),
        Instr::Apply(Binary::Add, 1, 1, 0),
        Instr::Shr(3, 1, 13),
        Instr::Apply(Binary::Xor, 1, 1, 3),
        Instr::End,
        Instr::Print(1),
    ];
    let mut registers = vec![0; 4];
    let (steps, printed) = run(black_box(&code), &mut registers);
    println!("interpreter {turns} {steps} {}", printed[0]);
}
