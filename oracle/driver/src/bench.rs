//! Times of ours and of the Rust on the same blocks in the same run, and their ratio.
use std::cell::RefCell;
use std::hint::black_box;
use std::time::Instant;

use qcdsp::codegen::compile_with;
use qcdsp::kernels::KernelTables;
use qcdsp::tables::Tables;
use qcdsp::{Block, Processor};

use crate::bench_files;
use crate::blocks::{Case, Question};
use crate::checks::Checked;
use crate::compiles::{self, Lent, rust_says};
use crate::generate::{plain_block, tanh_block};
use crate::ours::{Call, Ours};
use crate::playing::{Play, start, uniform};
use crate::random::Random;
use crate::runs::{self, compiled, expanded, graph_call, processor};

const ROUNDS: usize = 7;
const ROUND_NANOSECONDS: u64 = 100_000_000;

/// The best of several rounds, taken in turns, so that both sides meet the machine in the same state. `ready` is done before each round of the
/// Rust: our calls start each round from the words that are sent. Gives the microseconds of ours and of the Rust.
pub fn compare<'a>(ours: &mut Ours, name: &str, call: impl Fn() -> Call<'a>, ready: impl Fn(), rust: impl Fn()) -> [f64; 2] {
    let repeats = |once: u64| (ROUND_NANOSECONDS / once.max(1)).clamp(1, 1_000_000) as u32;
    let rust_repeats = repeats(time(1, &rust));
    let ours_repeats = repeats(ours.time(call(), 1));
    let mut best = [f64::INFINITY; 2];
    for _ in 0..ROUNDS {
        ready();
        let took = [
            ours.time(call(), ours_repeats) as f64 / f64::from(ours_repeats),
            time(rust_repeats, &rust) as f64 / f64::from(rust_repeats),
        ];
        best = [best[0].min(took[0]), best[1].min(took[1])];
    }
    let [ours, rust] = best.map(|nanoseconds| nanoseconds / 1_000.0);
    println!("{name:<48} ours {ours:>9.1} us   Rust {rust:>9.1} us   ours/Rust {:.2}", ours / rust);
    [ours, rust]
}

fn time(repeats: u32, run: impl Fn()) -> u64 {
    let start = Instant::now();
    (0..repeats).for_each(|_| run());
    start.elapsed().as_nanos() as u64
}

pub fn run(ours: &mut Ours) {
    let rust = |tables: &Tables| tables.block(&[]).expect("a block that the Rust can hold");
    let validate = |ours: &mut Ours, name, tables: Tables| {
        let block: Block = rust(&tables);
        let case = Case::new(Question::Validate, tables);
        compare(ours, name, || case.call(), || (), || {
            black_box(&block).validate().unwrap();
        });
    };
    let expand = |ours: &mut Ours, name, tables: Tables| {
        let block: Block = rust(&tables);
        let case = Case::new(Question::Expand { spare: 0 }, tables);
        compare(ours, name, || case.call(), || (), || {
            block.validate().unwrap();
            black_box(black_box(&block).expanded());
        });
    };
    let plain = plain_block(&mut Random::new(1), 65_536);
    validate(ours, "validate, 65,536 plain nodes", plain.clone());
    validate(ours, "validate, 1,820 tanh", tanh_block(1820, 16));
    expand(ours, "validate and expand, 1,820 tanh", tanh_block(1820, 16));
    expand(ours, "validate and expand, 65,500 plain and a tanh", {
        let mut block = plain_block(&mut Random::new(1), 65_500);
        block.nodes.extend([15, 65_499, 0]);
        block.version = 2;
        block
    });
    for sections in [2, 20, 1_000] {
        engines(ours, filters(sections));
    }
    run_checks(ours);
    bench_files::run(ours);
    run_compiles(ours);
}

/// Compile against the Rust's, which must give the same list.
pub fn run_compiles(ours: &mut Ours) {
    for (name, block) in [
        ("100 nodes", plain_chain(100)),
        ("100 nodes, 10 states", state_chain(100, 10)),
        ("1,000 nodes", plain_chain(1_000)),
        ("1,000 nodes, 100 states", state_chain(1_000, 100)),
        ("8,000 nodes, 1,000 states", state_chain(8_000, 1_000)),
        ("65,536 nodes", plain_chain(65_536)),
        ("1,820 tanh", tanh_block(1_820, 16)),
    ] {
        let rust = block.block(&[]).expect("a block that the Rust can hold");
        let case = compiles::Case { block, mask: 0xffff, lent: Lent::EXACT };
        let question = case.question(&rust_says(&case.block, case.mask));
        let difference = question.difference(&ours.call(question.call()));
        assert!(question.number == 0 && difference.is_none(), "compile, {name}: {difference:?}");
        let steps = question.left[4].1[..2].iter().sum::<u32>();
        compare(ours, &format!("compile, {name}, {steps} steps"), || question.call(), || (), || {
            black_box(compile_with(black_box(&rust), u16::MAX).is_ok());
        });
    }
}

pub fn run_checks(ours: &mut Ours) {
    checks(ours, "plain", plain_chain);
    checks(ours, "constants that collide", colliding_constants);
    checks(ours, "operands that collide", colliding_operands);
    checks(ours, "tanh", |count| tanh_block(count / 36, 16));
}

/// Every node but the first two reads the one before it and any other.
fn plain_chain(count: usize) -> Tables {
    let random = &mut Random::new(1);
    let mut nodes = vec![0, 0, 0, 1, 0x3f00_0000, 0];
    for index in 2..count {
        nodes.extend([7 + random.below(3) as u32, index as u32 - 1, random.below(index) as u32]);
    }
    Tables { version: 1, category: 10, output: count as u32 - 1, nodes, ..Tables::default() }
}

/// Such a chain with a state read in each of its parts, which takes any node.
fn state_chain(count: usize, states: usize) -> Tables {
    let random = &mut Random::new(1);
    let mut nodes = vec![0; 3];
    let part = (count / states) as u32;
    for index in 1..count as u32 {
        let node = match (index - 1) % part {
            0 => [3, (index - 1) / part, 0],
            1 => [5, index - 1, index - 2],
            _ => [7 + random.below(3) as u32, index - 1, random.below(index as usize) as u32],
        };
        nodes.extend(node);
    }
    let states = (0..states).flat_map(|_| [0, random.below(count) as u32 + 1]).collect();
    Tables { version: 1, category: 10, output: count as u32 - 1, states, nodes, ..Tables::default() }
}

/// Sums of constants that all have one start cell in the checker's index (crates/classes/specs/Start.antt) and share their lowest bits, by which the walk
/// from there goes: the worst found.
fn colliding_constants(count: usize) -> Tables {
    let pairs = (count as u32 - 1) / 2;
    let buckets = (2 * pairs + 1) / 16 + 1;
    let inverse = (0..5).fold(1u32, |found, _| found.wrapping_mul(2u32.wrapping_sub(found.wrapping_mul(2_654_435_769))));
    let words = (0u32..).map(|i| (((i / 4_096 * buckets) << 16) + ((i % 4_096) << 4)).wrapping_mul(inverse));
    let constants = words.filter(|&word| word / 16 >= buckets && f32::from_bits(word).is_finite()).take(pairs as usize);
    let mut nodes = vec![0, 0, 0];
    for (constant, index) in constants.zip((1u32..).step_by(2)) {
        nodes.extend([1, constant, 0, 5, index - 1, index]);
    }
    let output = (nodes.len() / 3 - 1) as u32;
    Tables { version: 1, category: 10, output, nodes, ..Tables::default() }
}

/// A chain, and the products of its last node with every one before: the later operand, which names the start cell, is the same for all.
fn colliding_operands(count: usize) -> Tables {
    let chain = count as u32 / 3;
    let mut nodes = vec![0, 0, 0];
    (1..chain).for_each(|index| nodes.extend([5, index - 1, index - 1]));
    let mut last = chain - 1;
    for (earlier, product) in (0..chain - 1).zip((chain..).step_by(2)) {
        nodes.extend([7, chain - 1, earlier, 5, product, last]);
        last = product + 1;
    }
    Tables { version: 1, category: 10, output: last, nodes, ..Tables::default() }
}

const SAMPLES_CHECKED_AGAINST: usize = 1_000;

/// The checker on a compiled block and on one of an eighth of its nodes, and our graph run of 1,000 samples of it.
fn checks(ours: &mut Ours, name: &str, block: impl Fn(usize) -> Tables) {
    let took = [8_192, 65_536].map(|count| {
        let block = block(count);
        let memories = start(&block);
        let input = vec![0x3f00_0000; SAMPLES_CHECKED_AGAINST];
        let play = Play { block, settings: vec![], memories, input, network: vec![], spare: 0, extra: 0 };
        let kernel = KernelTables::of(&compiled(&play, u16::MAX).expect("a kernel that runs"));
        let expanded = expanded(&play).expect("a block that runs");
        let graph = graph_call(&play, &expanded);
        let check = Checked { play, expanded, mask: 0xffff, kernel }.question();
        assert!(check.number == 0, "a kernel of the Rust passes");
        [&check, &graph].map(|asked| (0..ROUNDS).map(|_| ours.time(asked.call(), 1)).min().unwrap() as f64)
    });
    let [[eighth, _], [whole, graph]] = took.map(|times| times.map(|nanoseconds| nanoseconds / 1_000.0));
    println!(
        "check, 65,536 nodes, {name:<28} ours {whole:>9.1} us   for 8 times the nodes {:.1} times as long   {:.2} of our graph run of 1,000 samples",
        whole / eighth,
        whole / graph
    );
}

const SAMPLES: usize = 4_800;

/// One-pole filters one after the other, each a state and five nodes; behind each tenth a delay line of 480 samples. No
/// value leaves -1..1.
fn filters(sections: usize) -> Tables {
    let mut block = Tables { version: 1, category: 10, ..Tables::default() };
    block.nodes.extend([0, 0, 0, 1, 0x3f00_0000, 0]);
    let [half, mut last] = [1, 0];
    let mut push = |node: [u32; 3]| {
        block.nodes.extend(node);
        (block.nodes.len() / 3 - 1) as u32
    };
    for section in 0..sections as u32 {
        let held = push([3, section, 0]);
        let kept = push([7, held, half]);
        let taken = push([7, last, half]);
        last = push([5, kept, taken]);
        block.states.extend([0, last + 1]);
        if section % 10 == 9 {
            let heard = push([4, section / 10, 0]);
            let both = push([5, last, heard]);
            block.delays.extend([480, last + 1]);
            last = push([7, both, half]);
        }
    }
    block.output = last;
    block
}

/// Both engines on a block, against the Rust's processor, which runs the control steps once for each sample. Both sides start each round from
/// fresh memories: a long block's first samples have subnormal values, which take a processor many times as long.
fn engines(ours: &mut Ours, block: Tables) {
    let random = &mut Random::new(1);
    let input: Vec<u32> = (0..SAMPLES).map(|_| uniform(random, -1.0, 1.0).to_bits()).collect();
    let nodes = block.nodes.len() / 3;
    let memories = start(&block);
    let play = Play { block, settings: vec![], memories, input, network: vec![], spare: 0, extra: 0 };
    let heard: Vec<f32> = play.input.iter().map(|&word| f32::from_bits(word)).collect();
    let run = |ours: &mut Ours, name: &str, question: &runs::Question, processor: Processor| {
        let both = RefCell::new((processor, vec![0.0f32; SAMPLES]));
        let ready = || both.borrow_mut().0.reset();
        compare(ours, &format!("{name}, {nodes} nodes, {SAMPLES} samples"), || question.call(), ready, || {
            let (processor, output) = &mut *both.borrow_mut();
            processor.process(black_box(&heard), black_box(output)).unwrap();
        });
    };
    let question = runs::Case::Graph.question(&play).expect("a block that runs");
    run(ours, "graph run", &question, processor(&play, None).expect("a block that runs"));
    let question = runs::Case::Steps(u16::MAX).question(&play).expect("a kernel that runs");
    let kernel = compiled(&play, u16::MAX).expect("a kernel that runs");
    run(ours, "step run", &question, processor(&play, Some(kernel)).expect("a kernel that runs"));
}
