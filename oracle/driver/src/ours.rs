//! Calls of Lichenstitch's C functions, by way of the small program ours/ours.c that is linked with the static
//! library: that is for x86-64 alone, and runs in an emulator where this program is of another machine.
use std::io::{BufReader, Read, Write};
use std::process::{Child, ChildStdin, ChildStdout, Command, Stdio};

/// In the order of the switch in ours.c.
#[derive(Debug, Clone, Copy, PartialEq, Eq)]
pub enum Function {
    Add,
    Sub,
    Mul,
    Min,
    Max,
    Neg,
    Abs,
    IntegerSub,
    IsFinite,
    SpanIsValid,
    InRange,
    Validate,
    Expand,
    Set,
    Reset,
    GraphRun,
    StepRun,
    Check,
    ReadBlock,
    ReadRendering,
    WriteBlock,
    WriteGraph,
    WriteSteps,
    WriteTooMany,
    BlockBytes,
    RenderingBytes,
    Compile,
}

/// Set in a function's word where ours.c is to time the call.
const TIMED: u32 = 0x8000_0000;

#[derive(Debug, Clone)]
pub struct Call<'a> {
    pub function: Function,
    pub scalars: Vec<u32>,
    pub slices: Vec<&'a [u32]>,
    /// How many slices, the last ones, are lent to be written.
    pub written: usize,
}

impl Call<'_> {
    fn written(&self) -> &[&[u32]] {
        &self.slices[self.slices.len() - self.written..]
    }
}

#[derive(Debug, Clone, PartialEq, Eq)]
pub struct Answer {
    pub result: u32,
    /// The slices lent to be written, as the call left them.
    pub slices: Vec<Vec<u32>>,
}

pub struct Ours {
    child: Child,
    input: Option<ChildStdin>,
    output: BufReader<ChildStdout>,
}

impl Ours {
    pub fn start(program: &str) -> Self {
        let mut child = Command::new(program)
            .stdin(Stdio::piped())
            .stdout(Stdio::piped())
            .spawn()
            .unwrap_or_else(|error| panic!("{program}: {error}"));
        let output = BufReader::with_capacity(1 << 20, child.stdout.take().unwrap());
        Self { input: child.stdin.take(), child, output }
    }

    /// Makes all the calls, one after the other. They are written while the answers are read, so neither side waits
    /// for the other's pipe.
    pub fn calls(&mut self, calls: &[Call]) -> Vec<Answer> {
        self.ask(calls, 0)
    }

    fn ask(&mut self, calls: &[Call], timed: u32) -> Vec<Answer> {
        let mut bytes = Vec::new();
        let mut put = |word: u32| bytes.extend_from_slice(&word.to_le_bytes());
        for call in calls {
            put(call.function as u32 | timed);
            put(call.scalars.len() as u32);
            call.scalars.iter().for_each(|&word| put(word));
            put(call.slices.len() as u32);
            put(call.written as u32);
            for slice in &call.slices {
                put(slice.len() as u32);
                slice.iter().for_each(|&word| put(word));
            }
        }
        let input = self.input.as_mut().unwrap();
        let output = &mut self.output;
        std::thread::scope(|scope| {
            scope.spawn(move || {
                let _ = input.write_all(&bytes);
                let _ = input.flush();
            });
            calls
                .iter()
                .map(|call| Answer {
                    result: words(output, 1)[0],
                    slices: call.written().iter().map(|slice| words(output, slice.len())).collect(),
                })
                .collect()
        })
    }

    pub fn call(&mut self, call: Call) -> Answer {
        self.calls(&[call]).remove(0)
    }

    /// The nanoseconds that the call takes when it is made `repeats` times; at most 4 seconds.
    pub fn time(&mut self, mut call: Call, repeats: u32) -> u64 {
        call.scalars.push(repeats);
        self.ask(&[call], TIMED).remove(0).result.into()
    }

    /// `function` over whole slices: its operands' words, one slice each.
    pub fn words(&mut self, function: Function, operands: &[&[u32]]) -> Vec<u32> {
        let results = vec![0; operands[0].len()];
        let mut slices = operands.to_vec();
        slices.push(&results);
        self.call(Call { function, scalars: vec![], slices, written: 1 }).slices.pop().unwrap()
    }
}

impl Drop for Ours {
    fn drop(&mut self) {
        self.input = None;
        let _ = self.child.wait();
    }
}

fn words(from: &mut impl Read, count: usize) -> Vec<u32> {
    let mut bytes = vec![0; count * 4];
    from.read_exact(&mut bytes).expect("our functions stopped in the middle of a call");
    bytes.chunks_exact(4).map(|word| u32::from_le_bytes(word.try_into().unwrap())).collect()
}
