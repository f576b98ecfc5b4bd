use second::sync::LONGEST_CAPTURE;
use second::{answers, cases, listing, maker, summary};
use std::io::{self, Read, Write};
use std::process::ExitCode;

const USAGE: &str = "second listing < capture
second summary < capture
second capture SEED > capture
second counts SEED...
second answers < script
second script SEED > script
second count-script SEED...
second count-script < script
second differ SCRIPT-FILE < answers
second case NUMBER < script > script";

fn main() -> ExitCode {
    let arguments: Vec<String> = std::env::args().skip(1).collect();
    match run(&arguments) {
        Ok(()) => ExitCode::SUCCESS,
        Err(message) => {
            eprintln!("{message}");
            ExitCode::FAILURE
        }
    }
}

fn run(arguments: &[String]) -> Result<(), String> {
    let Some((command, rest)) = arguments.split_first() else {
        return Err(USAGE.to_string());
    };
    match (command.as_str(), rest) {
        ("listing", []) => print(listing::listing(&input()?.0).as_bytes()),
        ("summary", []) => {
            let (bytes, longer) = input()?;
            print(summary::summary(&bytes, longer).as_bytes())
        }
        ("capture", [number]) => print(&cases::capture(seed(number)?)),
        ("counts", [_, ..]) => print(counts(rest)?.as_bytes()),
        ("answers", []) => print(answers::answers(&all_input()?).as_bytes()),
        ("script", [number]) => print(&maker::script(seed(number)?)),
        ("count-script", []) => print(count_input(&all_input()?).as_bytes()),
        ("count-script", [_, ..]) => print(count_script(rest)?.as_bytes()),
        ("differ", [file]) => differ(file),
        ("case", [number]) => print(&case(number)?),
        _ => Err(USAGE.to_string()),
    }
}

/// The bytes that are used, and whether there were more.
fn input() -> Result<(Vec<u8>, bool), String> {
    let mut bytes = Vec::new();
    let mut source = io::stdin().lock().take(LONGEST_CAPTURE as u64 + 1);
    source
        .read_to_end(&mut bytes)
        .map_err(|error| error.to_string())?;
    let longer = bytes.len() > LONGEST_CAPTURE;
    bytes.truncate(LONGEST_CAPTURE);
    Ok((bytes, longer))
}

fn all_input() -> Result<Vec<u8>, String> {
    let mut bytes = Vec::new();
    io::stdin()
        .lock()
        .read_to_end(&mut bytes)
        .map_err(|error| error.to_string())?;
    Ok(bytes)
}

fn print(bytes: &[u8]) -> Result<(), String> {
    let mut output = io::stdout().lock();
    output
        .write_all(bytes)
        .and_then(|()| output.flush())
        .map_err(|error| error.to_string())
}

fn seed(text: &str) -> Result<u64, String> {
    text.parse().map_err(|_| format!("not a seed: {text}"))
}

fn counts(seeds: &[String]) -> Result<String, String> {
    let [rows] = sums(seeds, |seed| [cases::two_by_ps(&cases::capture(seed))])?;
    let sums = sums(seeds, |seed| cases::counts(&cases::capture(seed)))?;
    let accepted = format!("accepted    {:>7}\n", sums[0]);
    Ok(accepted + &refused_lines(&sums[..16], 2) + &two_by_ps_line(rows))
}

fn count_script(seeds: &[String]) -> Result<String, String> {
    let [rows] = sums(seeds, |seed| [answers::two_by_ps(&maker::script(seed))])?;
    let sums = sums(seeds, |seed| answers::counts(&maker::script(seed)))?;
    Ok(refused_lines(&sums, 1) + &two_by_ps_line(rows))
}

fn count_input(script: &[u8]) -> String {
    let kinds =
        answers::kinds(script).map(|(kind, count)| format!("kind {kind}      {count:>7}\n"));
    let refused = refused_lines(&answers::counts(script), 1);
    kinds.concat() + &refused + &two_by_ps_line(answers::two_by_ps(script))
}

fn case(number: &str) -> Result<Vec<u8>, String> {
    let script = all_input()?;
    let alone = number.parse().ok().and_then(|n| answers::alone(&script, n));
    alone.ok_or_else(|| format!("the script has no case {number}"))
}

/// Fails, and names the case, where the answers on standard input are others.
fn differ(file: &str) -> Result<(), String> {
    let script = std::fs::read(file).map_err(|error| format!("{file}: {error}"))?;
    match answers::difference(&script, &all_input()?) {
        Some(case) => Err(format!("the answers differ at {case}")),
        None => Ok(()),
    }
}

fn sums<const N: usize>(
    seeds: &[String],
    counts: impl Fn(u64) -> [usize; N],
) -> Result<[usize; N], String> {
    let mut sums = [0; N];
    for text in seeds {
        sums.iter_mut()
            .zip(counts(seed(text)?))
            .for_each(|(sum, count)| *sum += count);
    }
    Ok(sums)
}

fn refused_lines(sums: &[usize], first: usize) -> String {
    let numbered = sums.iter().enumerate().skip(first);
    numbered
        .map(|(number, sum)| format!("refused {number:>2}  {sum:>7}\n"))
        .collect()
}

fn two_by_ps_line(rows: usize) -> String {
    format!("two by PS   {rows:>7}\n")
}
