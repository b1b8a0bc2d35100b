//! The archive's instructions: none computes with floats, whose results would hang on the processor's mode.

use std::fs;
use std::path::Path;
use std::process::Command;

/// What may name a vector register: no mode has a part in it. Each may also begin with v, as those of AVX do.
const ALLOWED: [&str; 4] = [MOVES, SHUFFLES, BITWISE, WHOLE_NUMBERS];
const MOVES: &str =
    "movaps movapd movups movupd movdqa movdqu movd movq movss movsd movlps movhps movlpd movhpd \
    movlhps movhlps movmskps movmskpd pmovmskb pextrw pinsrw";
const SHUFFLES: &str = "shufps shufpd unpcklps unpckhps unpcklpd unpckhpd pshufd pshuflw pshufhw punpcklbw \
    punpckhbw punpcklwd punpckhwd punpckldq punpckhdq punpcklqdq punpckhqdq packsswb packssdw packuswb";
const BITWISE: &str = "xorps xorpd orps orpd andps andpd andnps andnpd pxor por pand pandn";
const WHOLE_NUMBERS: &str = "paddb paddw paddd paddq psubb psubw psubd psubq pmullw pmuludq pmaddwd psadbw \
    pcmpeqb pcmpeqw pcmpeqd pcmpgtb pcmpgtw pcmpgtd pmaxub pminub pmaxsw pminsw \
    psllw pslld psllq pslldq psrlw psrld psrlq psrldq psraw psrad";

const VECTORS: [&str; 5] = ["%xmm", "%ymm", "%zmm", "%tmm", "%k"];
/// Registers of x87 and MMX, which are the same ones.
const X87: [&str; 2] = ["%st", "%mm"];
/// A conversion from memory to a general register names no vector register: all of them are refused by their name.
const CONVERSIONS: &str = "cvt";
/// What reads or sets the mode, beside instructions of x87, which all begin with f; none else does.
const MODE: [&str; 7] = ["ldmxcsr", "stmxcsr", "vldmxcsr", "vstmxcsr", "emms", "xsave", "xrstor"];
const PREFIXES: [&str; 13] =
    ["data16", "addr32", "cs", "ds", "es", "ss", "lock", "rep", "repz", "repnz", "notrack", "bnd", "rex"];

#[derive(Debug, Default)]
struct Seen {
    functions: Vec<String>,
    instructions: usize,
    refused: Vec<String>,
}

fn is_prefix(word: &str) -> bool {
    PREFIXES.iter().any(|prefix| word == *prefix || word.starts_with(&format!("{prefix}.")))
}

/// An instruction as objdump writes it hangs on no mode and changes none.
fn is_allowed(instruction: &str) -> bool {
    let code = instruction.split(['#', '<']).next().unwrap_or("");
    let mut words = code.split_whitespace().skip_while(|word| is_prefix(word));
    let Some(name) = words.next() else {
        return code.split_whitespace().next().is_some();
    };
    let operands: String = words.collect();
    let names = |registers: &[&str]| registers.iter().any(|register| operands.contains(register));
    if names(&VECTORS) {
        let plain = name.strip_prefix('v').unwrap_or(name);
        return ALLOWED.iter().any(|list| list.split(' ').any(|allowed| allowed == plain));
    }
    let plain = name.strip_prefix('v').unwrap_or(name);
    let hangs = plain.starts_with(CONVERSIONS) || name.starts_with(['f', '(', '.']);
    !hangs && !names(&X87) && !MODE.iter().any(|mode| name.starts_with(mode))
}

/// Looks at all that objdump disassembles.
fn look(disassembly: &str) -> Seen {
    let mut seen = Seen::default();
    for line in disassembly.lines() {
        if let Some(function) = line.split_once('<').and_then(|(_, name)| name.strip_suffix(">:")) {
            seen.functions.push(function.to_string());
        }
        let Some((_, instruction)) = line.split_once(":\t") else { continue };
        seen.instructions += 1;
        if !is_allowed(instruction) {
            let function = seen.functions.last().map_or("", String::as_str);
            seen.refused.push(format!("{function}: {}", instruction.trim()));
        }
    }
    seen
}

/// What a tool prints, where it succeeds.
fn printed(command: &mut Command) -> Result<String, String> {
    let output = command.output().map_err(|fault| format!("{command:?}: {fault}"))?;
    match output.status.success() {
        true => Ok(String::from_utf8_lossy(&output.stdout).into_owned()),
        false => Err(format!("{command:?}: {}", String::from_utf8_lossy(&output.stderr))),
    }
}

fn disassembled(path: &Path) -> Result<String, String> {
    printed(Command::new("objdump").args(["--disassemble", "--no-show-raw-insn", "--wide"]).arg(path))
}

/// What is seen of these lines of assembly.
fn assembled(name: &str, lines: &[&str]) -> Seen {
    let folder = std::env::temp_dir().join(format!("instructions-{name}-{}", std::process::id()));
    let (source, object) = (folder.join("lines.s"), folder.join("lines.o"));
    let text = format!(".globl lines\nlines:\n{}\n", lines.join("\n"));
    let disassembly = fs::create_dir_all(&folder)
        .and_then(|()| fs::write(&source, text))
        .map_err(|fault| fault.to_string())
        .and_then(|()| printed(Command::new("as").arg("-o").args([&object, &source])))
        .and_then(|_| disassembled(&object));
    assert!(fs::remove_dir_all(&folder).is_ok());
    let seen = look(&disassembly.unwrap_or_else(|fault| panic!("{fault}")));
    assert_eq!((seen.functions.len(), seen.instructions), (1, lines.len()), "{seen:?}");
    seen
}

#[test]
fn the_archive_computes_with_no_floats() {
    let disassembly = disassembled(Path::new(env!("REPLICA_ARCHIVE")));
    let seen = look(&disassembly.unwrap_or_else(|fault| panic!("{fault}")));
    for function in ["layout", "fresh", "take", "begin", "operation", "branch", "can_meet"] {
        let name = format!("replica_{function}");
        assert!(seen.functions.contains(&name), "{name} is not in the archive: {:?}", seen.functions);
    }
    assert!(seen.instructions > 3_000, "{} instructions", seen.instructions);
    assert!(seen.refused.is_empty(), "{}", seen.refused.join("\n"));
}

#[test]
fn what_hangs_on_a_mode_is_refused() {
    let lines = [
        "addss %xmm1, %xmm0",
        "addss (%rax), %xmm0",
        "vaddps %ymm1, %ymm2, %ymm0",
        "vaddps %zmm1, %zmm2, %zmm0{%k1}{z}",
        "subss %xmm9, %xmm15",
        "subsd %xmm1, %xmm0",
        "mulps %xmm1, %xmm0",
        "divsd 8(%rsp), %xmm0",
        "sqrtss %xmm1, %xmm0",
        "rcpss %xmm1, %xmm0",
        "rsqrtps %xmm1, %xmm0",
        "minss %xmm1, %xmm0",
        "maxpd %xmm1, %xmm0",
        "haddps %xmm1, %xmm0",
        "addsubps %xmm1, %xmm0",
        "dpps $1, %xmm1, %xmm0",
        "roundss $0, %xmm1, %xmm0",
        "vfmadd213ss %xmm1, %xmm2, %xmm0",
        "ucomiss %xmm1, %xmm0",
        "comisd %xmm1, %xmm0",
        "cmpltss %xmm1, %xmm0",
        "cmpneqps %xmm1, %xmm0",
        "vcmpps $1, %ymm1, %ymm2, %ymm0",
        "cvtsi2ss %eax, %xmm0",
        "cvtsi2ssq (%rax), %xmm0",
        "cvttss2si %xmm0, %rax",
        "cvtss2sd %xmm1, %xmm0",
        "cvtpi2ps (%rax), %xmm0",
        "cvttss2si (%rax), %eax",
        "cvtss2si (%rax), %rax",
        "cvtsd2si 8(%rsp), %ecx",
        "cs cvtss2si (%rax), %eax",
        "vcvtss2si (%rax), %eax",
        "vcvttsd2si (%rax), %rax",
        "vcvtss2usi (%rax), %eax",
        "vcvttsd2usi (%rax), %rax",
        "vcvtdq2ps %ymm1, %ymm0",
    ];
    assert_eq!(assembled("mode", &lines).refused.len(), lines.len());
}

#[test]
fn x87_and_the_mode_itself_are_refused() {
    let lines = [
        "fadd %st(1), %st",
        "fadds (%rax)",
        "faddp",
        "flds (%rax)",
        "fildl (%rax)",
        "fistpl (%rax)",
        "fcomi %st(1), %st",
        "fldcw (%rax)",
        "fninit",
        ".byte 0x48, 0xd8, 0x00",
        "movq %mm0, %rax",
        "movq2dq %mm0, %xmm0",
        "emms",
        "ldmxcsr (%rax)",
        "stmxcsr (%rax)",
        "vldmxcsr (%rax)",
        "fxrstor (%rax)",
        "fxsave (%rax)",
        "xrstor (%rax)",
        "xsaveopt (%rax)",
        ".byte 0x06",
    ];
    let refused = assembled("x87", &lines).refused;
    assert_eq!(refused.len(), lines.len(), "{refused:?}");
    assert!(refused.contains(&"lines: (bad)".to_string()));
}

#[test]
fn moves_and_whole_numbers_are_allowed() {
    let lines = [
        "movups (%rsi), %xmm0",
        "movaps %xmm0, 16(%rsp)",
        "movdqa %xmm1, %xmm0",
        "movss (%rax), %xmm0",
        "movd %eax, %xmm0",
        "movq %xmm0, %rax",
        "vmovdqu %ymm0, (%rdi)",
        "pxor %xmm0, %xmm0",
        "xorps %xmm1, %xmm0",
        "pcmpeqb %xmm1, %xmm0",
        "pmovmskb %xmm0, %eax",
        "pshufd $0, %xmm1, %xmm0",
        "punpcklbw %xmm1, %xmm0",
        "paddd %xmm1, %xmm0",
        "add %rax, %rbx",
        "imul $3, %rcx, %rdx",
        "rep movsb",
        "lock xadd %eax, (%rbx)",
        ".byte 0x66, 0x66, 0x2e, 0x0f, 0x1f, 0x84, 0, 0, 0, 0, 0",
        "call addss",
        "jmp fadd",
        "ret",
    ];
    let refused = assembled("moves", &lines).refused;
    assert!(refused.is_empty(), "{refused:?}");
}

/// A tool that wrote nothing, or something else.
#[test]
fn what_is_no_disassembly_has_no_instructions() {
    for text in ["", "objdump: no such file\n", "replica.o:     file format elf64-x86-64\n"] {
        let seen = look(text);
        assert_eq!((seen.functions.len(), seen.instructions), (0, 0), "{text}");
    }
}
