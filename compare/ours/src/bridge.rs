//! Calls of the static library on a processor that it is not for: an emulated program makes them, `bridge.c`.
use std::io::{Read, Write};
use std::process::{Child, ChildStdin, ChildStdout, Command, Stdio};
use std::sync::{LazyLock, Mutex};

/// An argument: a number, or so many things of a size that a pointer stands before.
#[derive(Clone, Copy)]
pub enum Word {
    Number(u64),
    Pointer { place: *mut u8, size: usize, lent: bool },
}

macro_rules! numbers {
    ($($kind:ty),*) => {$(
        impl From<$kind> for Word {
            fn from(number: $kind) -> Self {
                Word::Number(number as u64)
            }
        }
    )*};
}
numbers!(u8, u16, u32, u64, usize);

impl<T> From<*const T> for Word {
    fn from(place: *const T) -> Self {
        Word::Pointer { place: place as *mut u8, size: size_of::<T>(), lent: false }
    }
}

impl<T> From<*mut T> for Word {
    fn from(place: *mut T) -> Self {
        Word::Pointer { place: place as *mut u8, size: size_of::<T>(), lent: true }
    }
}

/// What a function answers. C leaves the bits above a small number open.
pub trait Answer {
    fn of(word: u64) -> Self;
}

impl Answer for u8 {
    fn of(word: u64) -> Self {
        word as u8
    }
}

impl Answer for u16 {
    fn of(word: u64) -> Self {
        word as u16
    }
}

impl Answer for () {
    fn of(_: u64) {}
}

struct Bridge {
    _program: Child,
    calls: ChildStdin,
    answers: ChildStdout,
}

static BRIDGE: LazyLock<Mutex<Bridge>> = LazyLock::new(|| {
    let mut program = Command::new("qemu-x86_64")
        .arg(env!("BRIDGE"))
        .stdin(Stdio::piped())
        .stdout(Stdio::piped())
        .spawn()
        .expect("an emulator for x86-64");
    let (calls, answers) = (program.stdin.take().unwrap(), program.stdout.take().unwrap());
    Mutex::new(Bridge { _program: program, calls, answers })
});

const NUMBER: u64 = u64::MAX;

/// Calls a function by its place in the list. A pointer with a length after it, which is named after it, stands before
/// so many things, another before one.
///
/// # Safety
/// The pointers stand before as much memory as the function is told.
pub unsafe fn call<A: Answer>(function: usize, arguments: &[(&str, Word)]) -> A {
    let sized = |at: usize| match arguments[at].1 {
        Word::Number(_) => None,
        Word::Pointer { place, size, lent } => {
            let things = match arguments.get(at + 1) {
                Some((name, Word::Number(count))) if *name == format!("{}_len", arguments[at].0) => *count as usize,
                _ => 1,
            };
            Some((place, size * things, lent))
        }
    };
    let memory: Vec<_> = (0..arguments.len()).filter_map(sized).collect();
    let mut words = vec![0, function as u64, arguments.len() as u64];
    for (at, (_, word)) in arguments.iter().enumerate() {
        words.extend(match (word, sized(at)) {
            (Word::Number(number), _) => [*number, NUMBER],
            (_, Some((_, size, _))) => [0, size as u64],
            _ => unreachable!(),
        });
    }
    words[0] = 8 * words.len() as u64 + memory.iter().map(|(_, size, _)| *size as u64).sum::<u64>();
    let mut message: Vec<u8> = words.iter().flat_map(|word| word.to_le_bytes()).collect();
    for &(place, size, _) in &memory {
        message.extend(std::slice::from_raw_parts(place, size));
    }
    let mut answer = vec![0; 16 + memory.iter().map(|(_, size, _)| size.next_multiple_of(16)).sum::<usize>()];
    let mut bridge = BRIDGE.lock().unwrap();
    bridge.calls.write_all(&message).expect("the emulated library takes calls");
    bridge.answers.read_exact(&mut answer).expect("the emulated library answers");
    let mut from = 16;
    for (place, size, lent) in memory {
        let after = &answer[from..from + size];
        if lent {
            std::slice::from_raw_parts_mut(place, size).copy_from_slice(after);
        } else {
            assert_eq!(after, std::slice::from_raw_parts(place, size), "memory lent for reading was written");
        }
        from += size.next_multiple_of(16);
    }
    A::of(u64::from_le_bytes(answer[..8].try_into().unwrap()))
}
