//! Answers cases of operation 27 by the static library: reads them from standard input and writes a line for each, which also
//! says if the call changed what it is lent to read, or answered where it refused. It runs on the stack that any program has.

use std::io::{self, Read, Write};

use reference::case::{Case, Host, Reader};

extern "C" {
    /// As in host/lang_ty.h.
    fn lang_ty_fits(
        table: *const u8,
        table_len: usize,
        words: *const u32,
        words_len: usize,
        starts: *const u32,
        starts_len: usize,
        nodes: usize,
        used: usize,
        root: u32,
        fix: *const u32,
        fix_len: usize,
        answer: *mut u32,
    ) -> u32;
}

/// What a call is lent to read; the root beside it.
type Lent = (Host, Vec<u32>);

fn call((host, fix): &mut Lent, root: u32, answer: &mut u32) -> u32 {
    let memory = &mut host.memory;
    // SAFETY: every pointer is to memory of that length that lives through the call.
    unsafe {
        lang_ty_fits(
            host.table.as_mut_ptr(),
            host.table.len(),
            memory.words.as_mut_ptr(),
            memory.words.len(),
            memory.starts.as_mut_ptr(),
            memory.starts.len(),
            memory.nodes as usize,
            memory.used as usize,
            root,
            fix.as_mut_ptr(),
            fix.len(),
            answer,
        )
    }
}

/// What stands where the answer goes: neither yes nor no.
const BEFORE: u32 = 7;

fn line(given: &Lent, root: u32, call: impl Fn(&mut Lent, u32, &mut u32) -> u32) -> String {
    let mut lent = given.clone();
    let mut answer = BEFORE;
    let number = call(&mut lent, root, &mut answer);
    let mut line = match (number, answer) {
        (0, 0) => String::from("no"),
        (0, 1) => String::from("yes"),
        (0, _) => format!("answered {answer}"),
        (_, BEFORE) => format!("refused {number}"),
        _ => format!("refused {number} and answered {answer}"),
    };
    if lent != *given {
        line += " and changed what it was lent";
    }
    line
}

fn main() -> io::Result<()> {
    let mut cases = Vec::new();
    io::stdin().read_to_end(&mut cases)?;
    let mut out = io::stdout().lock();
    for case in Reader(&cases) {
        let Case::Fits(host, root, fix) = case else {
            panic!("no case of operation 27");
        };
        writeln!(out, "{}", line(&(host, fix), root, call))?;
    }
    Ok(())
}

#[cfg(test)]
mod tests {
    use super::*;

    /// The line of a call that says this number, after it did this to what it was lent and to the answer.
    fn told(number: u32, call: impl Fn(&mut Lent, &mut u32)) -> String {
        let given = (Host::default(), vec![0]);
        line(&given, 0, |lent, _, answer| {
            call(lent, answer);
            number
        })
    }

    #[test]
    fn answers() {
        let told = |number, written| told(number, |_, answer| *answer = written);
        assert_eq!(told(0, 1), "yes");
        assert_eq!(told(0, 0), "no");
        assert_eq!(told(0, 2), "answered 2");
        assert_eq!(told(0, BEFORE), "answered 7");
        assert_eq!(told(13, BEFORE), "refused 13");
        assert_eq!(told(13, 0), "refused 13 and answered 0");
    }

    #[test]
    fn changes() {
        let changes: [fn(&mut Lent); 4] = [
            |(host, _)| host.table.push(0),
            |(host, _)| host.memory.words.push(0),
            |(host, _)| host.memory.starts.push(0),
            |(_, fix)| fix[0] = 1,
        ];
        for change in changes {
            let told = told(14, |lent, _| change(lent));
            assert_eq!(told, "refused 14 and changed what it was lent");
        }
    }
}
