//! `bench OURS WORK`: times our program (a command, split at spaces) against
//! the two modes of `work` on drawn networks, and prints the tables.

use bench::work::{input, BUILDS, DRAINS};
use second::cases::cabling::{complete, Cabling};
use second::cases::growing::{random_connected, random_regular};
use second::cases::pack::list;
use second::cases::random::Random;
use std::io::{Read, Write};
use std::process::{Command, Stdio};

const SIZES: [usize; 4] = [8, 16, 32, 64];
/// A timed run takes at least so many nanoseconds more than one repeat.
const ENOUGH: u64 = 100_000_000;
const ROUNDS: usize = 5;

/// One network with the work that is done on it.
struct Task {
    dense: bool,
    work: u8,
    nodes: usize,
    links: usize,
    image: Vec<u8>,
    list: Vec<u8>,
}

fn main() {
    let arguments: Vec<String> = std::env::args().skip(1).collect();
    let [ours, work] = arguments.as_slice() else {
        panic!("usage: bench OURS WORK");
    };
    let programs = [
        ours.clone(),
        format!("{work} second"),
        format!("{work} lean"),
    ];
    println!(
        "| work | links | N | M | ours µs | second µs | lean µs | ours / second | ours / lean |"
    );
    println!("|---|---|---|---|---|---|---|---|---|");
    let mut growth = Vec::new();
    for (work, dense) in [
        (BUILDS, false),
        (BUILDS, true),
        (DRAINS, false),
        (DRAINS, true),
    ] {
        let costs: Vec<[f64; 3]> = SIZES
            .iter()
            .map(|&nodes| costs_of(&programs, &Task::new(nodes, dense, work)))
            .collect();
        growth.push((work, dense, costs));
    }
    println!("\n| work | links | ours | second | lean |\n|---|---|---|---|---|");
    for (work, dense, costs) in growth {
        let [ours, second, lean] = [0, 1, 2].map(|p| doubling(costs[0][p], costs[3][p]));
        let (work, links) = (word(work), kind(dense));
        println!("| {work} | {links} | {ours:.1} | {second:.1} | {lean:.1} |");
    }
}

/// The factor for twice the nodes, as a mean over three doublings.
fn doubling(first: f64, last: f64) -> f64 {
    (last / first).cbrt()
}

fn word(work: u8) -> &'static str {
    if work == BUILDS {
        "build"
    } else {
        "drain"
    }
}

fn kind(dense: bool) -> &'static str {
    if dense {
        "dense"
    } else {
        "sparse"
    }
}

impl Task {
    fn new(nodes: usize, dense: bool, work: u8) -> Task {
        let random = &mut Random::at(7, nodes as u64);
        let cabling = network(nodes, dense, random);
        let ends = |random: &mut Random| (random.below(nodes), random.below(nodes));
        let messages: Vec<_> = (0..4 * nodes).map(|_| ends(random)).collect();
        let (image, list) = match work {
            BUILDS => (cabling.links_image(), Vec::new()),
            _ => (cabling.full_image(), list(&messages)),
        };
        let links = cabling.pairs.len();
        Task {
            dense,
            work,
            nodes,
            links,
            image,
            list,
        }
    }
}

/// One and a half links a node, or as many as the limits allow.
fn network(nodes: usize, dense: bool, random: &mut Random) -> Cabling {
    match dense {
        false => random_connected(nodes, nodes * 3 / 2, random),
        true if nodes <= 17 => complete(nodes),
        true => random_regular(nodes, random),
    }
}

/// Times the programs on a task, prints its line, answers the microseconds.
fn costs_of(programs: &[String; 3], task: &Task) -> [f64; 3] {
    let measured = programs.each_ref().map(|program| measure(program, task));
    let answers = measured.map(|(answer, _)| answer);
    assert!(
        answers[0] != 0 && answers.iter().all(|&a| a == answers[0]),
        "{answers:?}"
    );
    let costs = measured.map(|(_, cost)| cost);
    let [ours, second, lean] = costs;
    println!(
        "| {} | {} | {} | {} | {ours:.1} | {second:.1} | {lean:.1} | {:.2} | {:.2} |",
        word(task.work),
        kind(task.dense),
        task.nodes,
        task.links,
        ours / second,
        ours / lean
    );
    costs
}

/// The answer to one repeat, and the microseconds of a further one: the least
/// of some differences between a run with many and a run with one.
fn measure(program: &str, task: &Task) -> (usize, f64) {
    let run = |repeats: u32| run(program, &input(task.work, repeats, &task.image, &task.list));
    let (answer, once) = run(1);
    let mut repeats = 2;
    while run(repeats).1 < once + ENOUGH {
        repeats *= 2;
    }
    let difference = |_| run(repeats).1.saturating_sub(run(1).1);
    let least = (0..ROUNDS).map(difference).min().unwrap_or(0);
    (answer, least as f64 / 1_000.0 / f64::from(repeats - 1))
}

/// Runs a program; answers the number it prints and its nanoseconds on a
/// processor, which can be read until the ended process is waited for.
fn run(program: &str, input: &[u8]) -> (usize, u64) {
    let mut words = program.split(' ');
    let mut child = Command::new(words.next().expect("a program"))
        .args(words)
        .stdin(Stdio::piped())
        .stdout(Stdio::piped())
        .spawn()
        .expect("the program starts");
    child
        .stdin
        .take()
        .expect("its input")
        .write_all(input)
        .expect("it reads");
    let mut text = String::new();
    let output = child.stdout.as_mut().expect("its output");
    output.read_to_string(&mut text).expect("it prints");
    let spent = spent(child.id());
    assert!(child.wait().expect("it ends").success());
    (text.trim().parse().expect("a number"), spent)
}

/// Once the process has ended its account is whole.
fn spent(process: u32) -> u64 {
    let read = |name: &str| std::fs::read_to_string(format!("/proc/{process}/{name}"));
    while !read("stat").expect("the kernel's account").contains(") Z ") {
        std::thread::sleep(std::time::Duration::from_millis(1));
    }
    let text = read("schedstat").expect("the kernel's account");
    let first = text.split(' ').next().and_then(|field| field.parse().ok());
    first.expect("a number of nanoseconds")
}
