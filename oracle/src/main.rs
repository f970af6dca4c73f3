//! The published Rust run over document 01's rules: a reference implementation that a port is
//! compared with bit for bit.

mod arith;
mod arm_calls;
mod arm_file;
mod arms;
mod bench;
mod beside;
mod block;
mod calls;
mod cases;
mod complex;
mod differ;
mod errors;
mod functions;
mod generate;
mod generate_arms;
mod generate_calls;
mod generate_track;
mod inputs;
mod inverse;
mod inverse_kinematics;
#[cfg(test)]
mod known_results;
mod lacking;
mod limited;
mod limits;
mod linalg;
mod missed;
mod nalgebra;
mod nearest;
mod odd;
mod recover;
mod rng;
mod run;
mod searches;
mod solutionset;
mod solve;
mod subproblems;
mod track;
mod track_miss;
mod tracks;

use arith::{Arith, Machine, Nalgebra, Rules};
use block::canonical_bits;
use functions::{Function, Group};
use inverse_kinematics::{
    auxiliary::{search_1d_bracketed, stand_in, Kinematics, Search},
    two_parallel_search,
};
use recover::By;
use std::f64::consts::PI;
use std::fs::File;
use std::io::{self, BufRead, BufReader, BufWriter, Read, Write};
use std::process::ExitCode;

const USAGE: &str = "\
usage: oracle COMMAND

  blocks [--room N]                      solve the 512-byte blocks on standard input
  pairs                                  the search's list for each block of family 6, with what
                                         added each pair
  stand-in N                             the same for an error that is easy to write down
  call NAME                              run one function on each line of hexadecimal arguments
  call --list                            the functions with their argument words
  calls                                  run the library's calls, one on each line
  calls --list                           how these lines and those of the results are written
  generate-calls SEED COUNT              such lines: good calls, and calls with every fault
  generate-track SEED COUNT              the same for the call of an arm on a track
  generate-one SEED COUNT                the same for the call that gives one answer
  arms [--bytes]                         run calls on files of arms, one on each line
  arms --list                            how these lines and those of the results are written
  generate-arms SEED COUNT [FIRST]       such lines: COUNT files, valid ones and ones with every
                                         fault, and calls on each, from place FIRST of the list
  generate KIND FAMILY SEED COUNT [N]    blocks; KIND is reachable, unreachable, bent, random,
                                         hostile, headers, degenerate or round; --limits puts
                                         limits blocks among them
  angles KIND FAMILY SEED COUNT [N]      the angles that made the poses of generate's blocks
  recover KIND FAMILY SEED COUNT [N]     how many poses, reachable, degenerate or round, have their own
                                         angles among their answers (n = 200 in family 6);
                                         --arms adds a line for each arm, --tilt for each range
                                         of the angle between axes 2 and 5, --distance for how
                                         near the nearest answer is
  track-miss SEED COUNT [N]              how far an arm on a track misses the wanted pose at its
                                         answers, over COUNT poses of all families (n = 200)
  lacking KIND FAMILY SEED COUNT [N]     how many lists lack an answer that a descent from random
                                         angles finds (n = 200 in family 6)
  missed KIND SEED COUNT [N]             family 6: the poses that have not, each with the reason
  explain Q1 Q2 Q3 Q4 Q5 Q6              family 6: whether the angles that made a block's pose are
                                         among its answers, and if not, the reason
  errors ANGLE..                         family 6: subproblem 6's answers and the search's error
                                         for each block at angles; k7 is grid point 7, and
                                         A:B:7 are 7 steps from A to B
  differ FAMILY SEED COUNT [N]           the largest difference between the answers under
                                         document 01's rules and under the machine's functions
  beside KIND FAMILY SEED COUNT N ONE TWO
                                         two programs' lines for generate's blocks, from the
                                         files ONE and TWO, beside each other
  cases GROUP SEED COUNT [ID..]          test records; GROUP is float, linear, complex, polynomial,
                                         subproblems, kinematics, families, track or sort
  searches KIND SEED COUNT [N]           searches of family 6 with all that they find, as records;
                                         without N, n goes from 1 to 400 and begins again
  layout                                 the layouts of the test records
  bench GROUP ID COUNT SEED [N]          run one function COUNT times over inputs made before;
                                         the group family is families

Option --machine takes the machine's sine, cosine, arctangent and roots instead of document 01's,
option --nalgebra these and nalgebra's QR.
";

/// The command line apart from its options.
struct CommandLine {
    words: Vec<String>,
    arithmetic: Arithmetic,
    list: bool,
    by: By,
    room: usize,
    limits: bool,
    shown: arm_calls::Shown,
}

enum Arithmetic {
    Rules,
    Machine,
    Nalgebra,
}

/// What went wrong, in words for the user.
type Failure = String;

fn main() -> ExitCode {
    match parse(std::env::args().skip(1)).and_then(|line| dispatch(&line)) {
        Ok(()) => ExitCode::SUCCESS,
        Err(message) => {
            eprintln!("oracle: {message}");
            ExitCode::from(2)
        }
    }
}

fn parse(arguments: impl Iterator<Item = String>) -> Result<CommandLine, Failure> {
    let mut line = CommandLine {
        words: Vec::new(),
        arithmetic: Arithmetic::Rules,
        list: false,
        by: By::Nothing,
        room: limited::ROOM,
        limits: false,
        shown: arm_calls::Shown::Hash,
    };
    let mut arguments = arguments;
    while let Some(argument) = arguments.next() {
        match argument.as_str() {
            "--machine" => line.arithmetic = Arithmetic::Machine,
            "--nalgebra" => line.arithmetic = Arithmetic::Nalgebra,
            "--list" => line.list = true,
            "--limits" => line.limits = true,
            "--bytes" => line.shown = arm_calls::Shown::Bytes,
            "--arms" => line.by = By::Arm,
            "--tilt" => line.by = By::Tilt,
            "--distance" => line.by = By::Distance,
            "--room" => {
                let room = arguments.next().ok_or("--room needs a number")?;
                line.room = number(&room)? as usize;
            }
            option if option.starts_with("--") => return Err(format!("unknown option {option}")),
            _ => line.words.push(argument),
        }
    }
    Ok(line)
}

fn dispatch(line: &CommandLine) -> Result<(), Failure> {
    let mut output = BufWriter::new(io::stdout().lock());
    let done = match line.arithmetic {
        Arithmetic::Rules => command::<Rules>(line, &mut output),
        Arithmetic::Machine => command::<Machine>(line, &mut output),
        Arithmetic::Nalgebra => command::<Nalgebra>(line, &mut output),
    };
    done.and_then(|()| told(output.flush()))
}

fn command<A: Arith>(line: &CommandLine, output: &mut impl Write) -> Result<(), Failure> {
    let words: Vec<&str> = line.words.iter().map(String::as_str).collect();
    match words[..] {
        ["blocks"] => told(block::solve_blocks::<A>(
            &mut io::stdin().lock(),
            output,
            line.room,
        )),
        ["pairs"] => told(print_pairs::<A>(&mut io::stdin().lock(), output)),
        ["stand-in", n] => {
            let n = n
                .parse()
                .map_err(|_| format!("no number of samples: {n}"))?;
            told(print_search(
                &search_1d_bracketed(stand_in, -PI, PI, n, 0.5),
                output,
            ))
        }
        ["call"] if line.list => told(list_functions(output)),
        ["generate-calls", seed, count] => {
            write_calls(output, generate_calls::call, number(seed)?, number(count)?)
        }
        ["generate-track", seed, count] => {
            write_calls(output, generate_track::call, number(seed)?, number(count)?)
        }
        ["generate-one", seed, count] => {
            let call = generate_calls::one_call;
            write_calls(output, call, number(seed)?, number(count)?)
        }
        ["generate-arms", seed, count, ref first @ ..] => {
            let (seed, count) = (number(seed)?, number(count)?);
            let places = optional_n(first)?.unwrap_or(0)..;
            let mut sequences = places
                .take(count as usize)
                .map(|place| generate_arms::sequence(seed, place));
            told(sequences.try_for_each(|sequence| write!(output, "{sequence}")))
        }
        ["arms"] if line.list => told(output.write_all(arm_calls::FORMAT.as_bytes())),
        ["arms"] => told(arm_calls::run_lines(
            &mut io::stdin().lock(),
            output,
            line.shown,
        )),
        ["calls"] if line.list => told(output.write_all(calls::FORMAT.as_bytes())),
        ["calls"] => told(calls::run_lines::<A>(&mut io::stdin().lock(), output)),
        ["call", name] => {
            let function = functions::by_name(name).ok_or(format!("no function {name}"))?;
            call::<A>(function, &mut io::stdin().lock(), output)
        }
        ["generate", kind, family, seed, count, ref n @ ..] => {
            let request = Generated::parse(kind, family, seed, count, n)?;
            told(request.write_blocks(output, line.limits))
        }
        ["angles", kind, family, seed, count, ref n @ ..] => {
            let request = Generated::parse(kind, family, seed, count, n)?;
            request.write_angles(output)
        }
        ["track-miss", seed, count, ref n @ ..] => {
            let (seed, count) = (number(seed)?, number(count)?);
            let n = optional_n(n)?.unwrap_or(200);
            let counts = track_miss::track_miss::<A>(seed, count, n);
            told(write_track_miss(output, &counts))
        }
        ["recover", kind @ ("reachable" | "degenerate" | "round"), family, seed, count, ref n @ ..] =>
        {
            let request = Generated::parse(kind, family, seed, count, n)?;
            told(request.write_recovered::<A>(output, line.by))
        }
        ["lacking", kind @ ("reachable" | "degenerate"), family, seed, count, ref n @ ..] => {
            let request = Generated::parse(kind, family, seed, count, n)?;
            told(request.write_lacking::<A>(output))
        }
        ["missed", kind @ ("reachable" | "degenerate" | "round"), seed, count, ref n @ ..] => {
            let request = Generated::parse(kind, "6", seed, count, n)?;
            told(request.write_missed::<A>(output))
        }
        ["explain", ref angles @ ..] => {
            let angles = angles
                .iter()
                .map(|word| word.parse().map_err(|_| format!("{word} is no angle")))
                .collect::<Result<Vec<f64>, Failure>>()?;
            let angles = angles.try_into().map_err(|_| "six angles are wanted")?;
            told(recover::print_reasons::<A>(
                &mut io::stdin().lock(),
                output,
                angles,
            ))
        }
        ["errors", ref angles @ ..] => {
            let angles = angles
                .iter()
                .map(|word| errors::parse(word))
                .collect::<Result<_, _>>()?;
            told(errors::print::<A>(&mut io::stdin().lock(), output, angles))
        }
        ["differ", family, seed, count, ref n @ ..] => {
            let request = Generated::parse("reachable", family, seed, count, n)?;
            told(request.write_differences(output))
        }
        ["beside", kind, family, seed, count, n, one, two] => {
            let request = Generated::parse(kind, family, seed, count, &[n])?;
            request.write_beside(output, one, two)
        }
        ["cases", group, seed, count, ref ids @ ..] => {
            let (group, seed, count) = (group_named(group)?, number(seed)?, number(count)?);
            let only = ids
                .iter()
                .map(|id| number(id))
                .collect::<Result<Vec<_>, _>>()?;
            told(cases::write_cases::<A>(output, group, seed, count, &only))
        }
        ["searches", kind, seed, count, ref n @ ..] => {
            let request = Generated::parse(kind, "6", seed, count, n)?;
            told(request.write_searches::<A>(output))
        }
        ["layout"] => told(output.write_all(cases::LAYOUT.as_bytes())),
        ["bench", group, id, count, seed, ref n @ ..] => {
            let (group, id) = (group_named(group)?, number(id)?);
            let function = functions::by_id(group, id).ok_or("no such function")?;
            let (count, seed) = (number(count)? as usize, number(seed)?);
            let folded = bench::bench::<A>(function, count, seed, optional_n(n)?);
            told(writeln!(output, "{} {count} {folded:016x}", function.name))
        }
        [] | ["help"] => told(output.write_all(USAGE.as_bytes())),
        _ => Err(format!("cannot read the command line\n\n{USAGE}")),
    }
}

/// A reader that closes the pipe early is no failure.
fn told(result: io::Result<()>) -> Result<(), Failure> {
    match result {
        Err(error) if error.kind() == io::ErrorKind::BrokenPipe => Ok(()),
        other => other.map_err(|error| error.to_string()),
    }
}

fn write_calls(
    output: &mut impl Write,
    call: fn(u64, u64) -> calls::Call,
    seed: u64,
    count: u64,
) -> Result<(), Failure> {
    let mut calls = (0..count).map(|place| call(seed, place));
    told(calls.try_for_each(|call| writeln!(output, "{call}")))
}

fn number(text: &str) -> Result<u64, Failure> {
    text.parse()
        .map_err(|_| format!("{text} is not a whole number"))
}

fn optional_n(words: &[&str]) -> Result<Option<u64>, Failure> {
    match words {
        [] => Ok(None),
        [n] => Ok(Some(number(n)?)),
        _ => Err("too many words".to_string()),
    }
}

fn group_named(name: &str) -> Result<Group, Failure> {
    let name = if name == "family" { "families" } else { name };
    functions::GROUPS
        .iter()
        .find(|(known, _)| *known == name)
        .map(|(_, group)| *group)
        .ok_or(format!("no group {name}"))
}

/// The arguments of generate, angles and recover.
struct Generated {
    kind: generate::Kind,
    family: u64,
    seed: u64,
    count: u64,
    n: Option<u64>,
}

impl Generated {
    fn parse(
        kind: &str,
        family: &str,
        seed: &str,
        count: &str,
        n: &[&str],
    ) -> Result<Self, Failure> {
        let family = number(family)?;
        if !solve::FAMILIES.contains(&family) {
            return Err(format!("family {family} is not 1 to 6"));
        }
        Ok(Generated {
            kind: generate::KINDS
                .iter()
                .find(|(name, _)| *name == kind)
                .map(|(_, kind)| *kind)
                .ok_or(format!("no kind {kind}"))?,
            family,
            seed: number(seed)?,
            count: number(count)?,
            n: optional_n(n)?,
        })
    }

    /// The blocks, with limits blocks among them if so told.
    fn write_blocks(&self, output: &mut impl Write, limits: bool) -> io::Result<()> {
        let bytes_at = if limits {
            generate::limited_bytes
        } else {
            generate::block_bytes
        };
        for place in 0..self.count {
            output.write_all(&bytes_at(
                self.kind,
                self.family,
                self.seed,
                place,
                self.count,
                self.n,
            ))?;
        }
        Ok(())
    }

    fn write_searches<A: Arith>(&self, output: &mut impl Write) -> io::Result<()> {
        for place in 0..self.count {
            let n = self.n.unwrap_or(1 + place % 400);
            let sample = generate::sample(self.kind, self.family, self.seed, place, Some(n));
            for word in searches::record::<A>(&sample) {
                output.write_all(&word.to_le_bytes())?;
            }
        }
        Ok(())
    }

    fn write_angles(&self, output: &mut impl Write) -> Result<(), Failure> {
        use generate::Kind::*;
        if !matches!(
            self.kind,
            Reachable | Unreachable | Bent | Degenerate | Round
        ) {
            return Err("poses of this kind are not made from angles".to_string());
        }
        for place in 0..self.count {
            let sample = generate::sample(self.kind, self.family, self.seed, place, self.n);
            let fields = sample.angles.map(|x| format!("{:016x}", x.to_bits()));
            told(writeln!(output, "{}", fields.join(" ")))?;
        }
        Ok(())
    }

    fn write_differences(&self, output: &mut impl Write) -> io::Result<()> {
        let n = self.n.unwrap_or(200);
        let d = differ::differ(self.family, self.seed, self.count, Some(n));
        let first = d
            .first_list
            .map_or("-".to_string(), |place| place.to_string());
        writeln!(
            output,
            "family {} poses {} lists-that-differ {} first {first}",
            self.family, d.poses, d.lists
        )?;
        for (name, class) in [
            ("regular", d.regular),
            ("singular", d.singular),
            ("flagged", d.flagged),
        ] {
            writeln!(
                output,
                "  {name} answers {} largest {:e} at pose {}",
                class.answers, class.difference, class.place
            )?;
        }
        Ok(())
    }

    fn write_beside(&self, output: &mut impl Write, one: &str, two: &str) -> Result<(), Failure> {
        let open = |path: &str| {
            let file = File::open(path).map_err(|error| format!("{path}: {error}"))?;
            Ok::<_, Failure>(beside::Lists::new(BufReader::new(file)))
        };
        let (mut one, mut two) = (open(one)?, open(two)?);
        let mut found = beside::Beside::default();
        for place in 0..self.count {
            let sample = generate::sample(self.kind, self.family, self.seed, place, self.n);
            found.look(place, &sample, one.next(place)?, two.next(place)?);
        }
        told(write_comparison(output, &found))
    }

    fn write_recovered<A: Arith>(&self, output: &mut impl Write, by: By) -> io::Result<()> {
        let counts = recover::recover::<A>(self, by, |_, _, _| ());
        write_counts(output, &format!("family {}", self.family), &counts.all)?;
        for (name, r) in &counts.groups {
            write_counts(output, name, r)?;
        }
        Ok(())
    }

    fn write_lacking<A: Arith>(&self, output: &mut impl Write) -> io::Result<()> {
        let l = lacking::lacking::<A>(self);
        let first = l.first.map_or("-".to_string(), |place| place.to_string());
        writeln!(
            output,
            "family {} poses {} answers {} lacking {} lists-that-lack-one {} first {first} \
             unfound-by-the-descent {}",
            self.family, l.poses, l.answers, l.lacking, l.lists, l.unfound
        )
    }

    /// A line for each missed pose with its class, then the classes' counts.
    fn write_missed<A: Arith>(&self, output: &mut impl Write) -> io::Result<()> {
        let mut missed = Vec::new();
        recover::recover::<A>(self, By::Nothing, |place, sample, why| {
            missed.push((place, sample.arm_name, sample.angles[0], why))
        });
        for (place, arm, q1, why) in &missed {
            writeln!(output, "pose {place} {arm} q1 {q1:?} {why}")?;
        }
        for (class, name) in missed::CLASSES {
            let count = missed.iter().filter(|m| m.3.class == class).count();
            writeln!(output, "class {name} {count}")?;
        }
        Ok(())
    }
}

fn write_counts(output: &mut impl Write, name: &str, r: &recover::Recovered) -> io::Result<()> {
    writeln!(
        output,
        "{name} poses {} unflagged {} flagged {} missed {} answers {} of-them-flagged {} \
         evals {} untrue {} flagged-but-true {}",
        r.poses,
        r.unflagged,
        r.flagged,
        r.missed(),
        r.answers,
        r.flagged_answers,
        r.evaluations,
        r.untrue,
        r.flagged_true
    )
}

fn write_track_miss(output: &mut impl Write, families: &[track_miss::Counts; 6]) -> io::Result<()> {
    for (c, family) in families.iter().zip(1..) {
        writeln!(
            output,
            "family {family} poses {} own-angles {} answers {} flagged {} untrue {}",
            c.poses, c.own, c.answers, c.flagged, c.untrue
        )?;
        for (name, classes) in [("regular", c.regular), ("singular", c.singular)] {
            for (axes, class) in ["seven", "six"].into_iter().zip(classes) {
                writeln!(
                    output,
                    "  {name} {axes}-axes answers {} place {:e} at {} rotation {:e} at {}",
                    class.answers,
                    class.place.difference,
                    class.place.place,
                    class.rotation.difference,
                    class.rotation.place
                )?;
            }
        }
    }
    Ok(())
}

fn write_comparison(output: &mut impl Write, found: &beside::Beside) -> io::Result<()> {
    writeln!(
        output,
        "poses {} panics {} {} other-length {} other-flags {} \
         same-by-place {} same-as-sets {} same-unflagged {}",
        found.poses,
        found.panics[0],
        found.panics[1],
        found.other_length,
        found.other_flags,
        found.same_by_place,
        found.same_as_sets,
        found.same_unflagged
    )?;
    for (way, classes) in [("by-place", &found.by_place), ("as-sets", &found.as_sets)] {
        for (class, name) in classes.iter().zip(beside::CLASSES) {
            writeln!(
                output,
                "{way} {name} answers {} largest {:e} at {}",
                class.answers, class.difference, class.place
            )?;
        }
    }
    for (side, classes) in ["first", "second"].into_iter().zip(&found.alone) {
        for (class, name) in classes.iter().zip(beside::CLASSES) {
            let at = class
                .first
                .map_or("-".to_string(), |place| place.to_string());
            writeln!(
                output,
                "alone {side} {name} answers {} making-the-pose {} at {at}",
                class.answers, class.makes
            )?;
        }
    }
    for (side, own) in ["first", "second"].into_iter().zip(&found.own) {
        let (unflagged, flagged) = (own.unflagged, own.flagged);
        let missing = own.missing;
        writeln!(
            output,
            "own {side} unflagged {unflagged} flagged {flagged} missing {missing}"
        )?;
    }
    writeln!(output, "own both missing {}", found.own_missing_in_both)
}

/// One line for each block: its place, the pairs and the evaluations; then one for each pair: q1,
/// the component, and what added it. Blocks that are refused or not of family 6 have no pairs.
fn print_pairs<A: Arith>(input: &mut impl Read, output: &mut impl Write) -> io::Result<()> {
    block::for_each_block(input, |block| {
        let place = block.place;
        let Some(request) = errors::two_parallel_request(block.request) else {
            return writeln!(output, "block {place} pairs 0 evals 0");
        };
        let (r, p) = solve::pose_parts(&request.pose);
        let kin = Kinematics::from_arm(&request.arm);
        let search = two_parallel_search::<A>(&r, &p, &kin, request.n as usize);
        write!(output, "block {place} ")?;
        print_search(&search, output)
    })
}

fn print_search(search: &Search, output: &mut impl Write) -> io::Result<()> {
    let (pairs, evaluations) = (search.zeros.len(), search.evaluations);
    writeln!(output, "pairs {pairs} evals {evaluations}")?;
    for found in &search.zeros {
        let bits = canonical_bits(found.x);
        writeln!(output, "{bits:016x} {} {}", found.component, found.origin)?;
    }
    Ok(())
}

fn list_functions(output: &mut impl Write) -> io::Result<()> {
    for function in functions::FUNCTIONS {
        let shape: Vec<String> = function.shape.iter().map(|k| format!("{k:?}")).collect();
        let more = if function.shape == [functions::Kind::Triples] {
            "+"
        } else {
            ""
        };
        writeln!(
            output,
            "{} {}{more} {}",
            function.name,
            function.arity(),
            shape.join(" ").to_lowercase()
        )?;
    }
    Ok(())
}

/// Runs the function on each line of argument words and prints a line of results.
fn call<A: Arith>(
    function: &Function,
    input: &mut impl BufRead,
    output: &mut impl Write,
) -> Result<(), Failure> {
    for (place, line) in input.lines().enumerate() {
        let line = line.map_err(|error| error.to_string())?;
        let words = line
            .split_whitespace()
            .map(|word| u64::from_str_radix(word, 16))
            .collect::<Result<Vec<u64>, _>>()
            .map_err(|_| format!("line {}: not hexadecimal words", place + 1))?;
        let arity = function.arity_of(&words);
        if words.len() != arity {
            let found = words.len();
            return Err(format!("line {}: {found} words, not {arity}", place + 1));
        }
        if function.group == Group::Track && words[functions::JOINT_WORD] > 6 {
            return Err(format!("line {}: the joint is not 0 to 6", place + 1));
        }
        let mut fields = run::Fields::default();
        run::run::<A>(function, &words, &mut fields);
        told(writeln!(output, "{}", fields.0.join(" ")))?;
    }
    Ok(())
}

#[cfg(test)]
mod tests {
    use super::*;
    use generate::{block_bytes, Kind};

    /// Limits that nothing is inside of leave the search's list as it is, and its places.
    #[test]
    fn pairs_are_those_before_filtering() {
        let limits = block::make_limits(&[9.0; 12]);
        let (mut poses, mut limited) = (Vec::new(), Vec::new());
        for place in 0..5 {
            let pose = block_bytes(Kind::Reachable, 6, 8, place, 5, Some(25));
            limited.extend([&limits[..], &pose].concat());
            poses.extend(pose);
        }
        let printed = |input: &[u8]| {
            let mut output = Vec::new();
            print_pairs::<Rules>(&mut &input[..], &mut output).unwrap();
            output
        };
        let answers = |input: &[u8]| {
            let mut output = Vec::new();
            block::solve_blocks::<Rules>(&mut &input[..], &mut output, 1024).unwrap();
            String::from_utf8(output).unwrap().lines().count()
        };
        assert_eq!(printed(&poses), printed(&limited));
        assert!(answers(&poses) > 5 && answers(&limited) == 5);
    }
}
