//! Document 02, point 4: "nothing in planning may divide, or take a remainder, by anything but a fixed
//! number". A division by a fixed number is compiled to a multiplication or a shift, so that the archive has
//! no instruction that divides whole numbers. Without the archive there are no tests here; the gate builds
//! it first.
#![cfg(have_archive)]

use std::process::Command;

use ours::linking::root;

/// The instructions that divide whole numbers, without and with the letter for their size.
const DIVISIONS: [&str; 10] = [
    "div", "divb", "divw", "divl", "divq", "idiv", "idivb", "idivw", "idivl", "idivq",
];

/// The instruction of a line of `objdump -d`, behind its address and its bytes, and nothing where the line
/// has none.
fn instruction(line: &str) -> Option<&str> {
    let mut fields = line.split('\t');
    fields.next()?.strip_suffix(':')?;
    fields.nth(1).map(str::trim)
}

/// Whether an instruction, which prefixes may precede, divides whole numbers.
fn divides(instruction: &str) -> bool {
    let mut words = instruction.split_whitespace();
    words.any(|word| DIVISIONS.contains(&word))
}

/// The function that begins with a line of `objdump -d`, and nothing where none does.
fn function(line: &str) -> Option<&str> {
    line.strip_suffix(">:")?
        .split_once('<')
        .map(|(_, name)| name)
}

/// The instructions of a disassembly that divide whole numbers, each behind its function.
fn divisions(disassembly: &str) -> Vec<String> {
    let mut found = Vec::new();
    let mut name = "";
    for line in disassembly.lines() {
        name = function(line).unwrap_or(name);
        if let Some(instruction) = instruction(line).filter(|i| divides(i)) {
            found.push(format!("{name}: {instruction}"));
        }
    }
    found
}

/// Lines as `objdump -d` prints them, four of which divide whole numbers.
const LINES: &str = "\
c_interface.o:     file format elf64-x86-64

Disassembly of section .text.first:

0000000000000000 <first>:
       0:\t41 56                \tpush   %r14
       2:\t41 f7 f1             \tdiv    %r9d
       5:\t48 f7 7c 24 08       \tidivq  0x8(%rsp)
       a:\te8 00 00 00 00       \tcall   f <div>
       f:\t0f 5e c1             \tdivps  %xmm1,%xmm0
      12:\tf2 0f 5e c1          \tdivsd  %xmm1,%xmm0
      16:\tde f9                \tfdivrp %st,%st(1)
      18:\t49 0f ac d8 05       \tshrd   $0x5,%rbx,%r8
      1d:\t48 b8 00 00 00 00 00 \tmovabs $0x0,%rax
      24:\t00 00 00

0000000000000027 <second>:
      27:\t66 f7 f1             \tdata16 div %cx
      2a:\tf7 f9                \tidiv   ecx
      2c:\t48 0f af c1          \timul   %rcx,%rax
";

#[test]
fn divisions_are_found() {
    let found = [
        "first: div    %r9d",
        "first: idivq  0x8(%rsp)",
        "second: data16 div %cx",
        "second: idiv   ecx",
    ];
    assert_eq!(divisions(LINES), found);
    for name in DIVISIONS {
        let line = format!("  40:\tf7 f1                \t{name}   %ecx");
        assert_eq!(divisions(&line), [format!(": {name}   %ecx")]);
    }
    assert_eq!(LINES.lines().filter_map(instruction).count(), 12);
}

/// The instructions of the archive. One of them multiplies: other arithmetic is there.
#[test]
#[cfg_attr(not(have_objdump), ignore = "objdump is not on the PATH")]
fn the_archive_has_no_division() {
    let output = Command::new("objdump")
        .arg("-d")
        .arg(root().join("target/staticlib/libc_interface.a"))
        .output()
        .expect("objdump");
    let said = String::from_utf8_lossy(&output.stderr);
    assert!(output.status.success(), "objdump: {said}");
    let disassembly = String::from_utf8_lossy(&output.stdout);
    assert!(disassembly.contains("<riscadru_plan_table>:"));
    let instructions = disassembly.lines().filter_map(instruction);
    let multiplications = instructions.filter(|i| i.contains("mul"));
    assert!(multiplications.count() > 0);
    let found = divisions(&disassembly);
    assert!(
        found.is_empty(),
        "instructions that divide:\n{}",
        found.join("\n")
    );
}
