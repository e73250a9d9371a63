//! The command line `oracle`: the Rust's stages over raw bytes. `oracle help` says how.

mod arguments;
mod commands;

use std::io::Write;
use std::process::ExitCode;

use arguments::Arguments;
use commands::{Answer, COMMANDS, Failure};

fn help() -> String {
    let mut text = String::from(
        "oracle COMMAND [ARGUMENT]...: the Rust's answer for one stage.

Numbers are decimal; KEY, SALT, NONCE, TEXT, RECORD and BITS are hex, - for none. Samples, f32 and f64
on standard input and output are raw, floats little-endian. What the scope refuses is printed as
`refused NUMBER GIVEN`. Exit status: 0 answered, 1 refused, 2 not understood.
",
    );
    for command in COMMANDS {
        text += &format!("\n  {} {}\n      {}\n", command.name, command.arguments, command.meaning);
    }
    text
}

fn answer(words: Vec<String>) -> Result<Answer, Failure> {
    let Some((name, rest)) = words.split_first() else {
        return Err(Failure::Usage("no command; try: oracle help".to_owned()));
    };
    if name == "help" {
        return Ok(Answer::Bytes(help().into_bytes()));
    }
    let Some(command) = COMMANDS.iter().find(|command| command.name == name) else {
        return Err(Failure::Usage(format!("no command {name}; try: oracle help")));
    };
    (command.run)(&mut Arguments::new(rest)?)
}

fn print(bytes: &[u8]) {
    let mut output = std::io::stdout().lock();
    let written = output.write_all(bytes).and_then(|()| output.flush());
    written.expect("standard output takes what is printed");
}

fn main() -> ExitCode {
    match answer(std::env::args().skip(1).collect()) {
        Ok(Answer::Bytes(bytes)) => {
            print(&bytes);
            ExitCode::SUCCESS
        }
        Ok(Answer::Line(line)) => {
            print(format!("{line}\n").as_bytes());
            ExitCode::SUCCESS
        }
        Err(Failure::Refused(refused)) => {
            print(format!("{refused}\n").as_bytes());
            ExitCode::from(1)
        }
        Err(Failure::Usage(message)) => {
            eprintln!("oracle: {message}");
            ExitCode::from(2)
        }
    }
}
