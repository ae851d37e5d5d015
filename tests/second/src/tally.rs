//! Counts of verdicts and answers over many cases, read off what is printed.

use std::fmt;

use crate::text;

#[derive(Default)]
pub struct Tally {
    pub cases: u64,
    /// By the number on the check's line.
    pub verdicts: [u64; 14],
    /// By answer, over the choices of all runs.
    pub answers: [u64; 21],
    /// Runs whose list of choices was refused, with 2 and with 3.
    pub lists_refused: [u64; 2],
}

/// The answers that a run can give.
const ANSWERS: [usize; 7] = [0, 15, 16, 17, 18, 19, 20];

impl Tally {
    /// Adds the listing of one case's `run`.
    pub fn add(&mut self, run: &[u8]) {
        self.cases += 1;
        let mut lines = run.split(|&byte| byte == b'\n');
        let verdict = lines.next().map_or(0, |line| fields(line)[0]);
        self.verdicts[verdict] += 1;
        for line in lines {
            match fields(line)[..] {
                [number, _line] => self.lists_refused[number - 2] += 1,
                [_choice, answer, _thread, _cells, _accesses] => self.answers[answer] += 1,
                _ => {}
            }
        }
    }

    /// Did every verdict 0 to 13 and every answer 0, 15 to 20 occur?
    pub fn is_complete(&self) -> bool {
        self.verdicts.iter().all(|&count| count > 0)
            && ANSWERS.iter().all(|&answer| self.answers[answer] > 0)
    }
}

/// Drawn files by the writer's refusal, 0 where the lines were written.
#[derive(Default)]
pub struct Arranged(pub [u64; 22]);

impl Arranged {
    /// Adds what `arrange` prints; a refusal alone has a blank.
    pub fn add(&mut self, printed: &[u8]) {
        let number = match printed.get(2) {
            Some(b' ') => hexadecimal(&printed[..2]),
            _ => 0,
        };
        self.0[number] += 1;
    }
}

impl fmt::Display for Arranged {
    fn fmt(&self, f: &mut fmt::Formatter) -> fmt::Result {
        write!(f, "arranged")?;
        let occurred = self.0.iter().enumerate().filter(|(_, &count)| count > 0);
        for (number, count) in occurred {
            write!(f, " {number}:{count}")?;
        }
        Ok(())
    }
}

/// The numbers of a listing's line.
fn fields(line: &[u8]) -> Vec<usize> {
    line.split(|&byte| byte == b' ').map(hexadecimal).collect()
}

fn hexadecimal(digits: &[u8]) -> usize {
    digits
        .iter()
        .map(|byte| text::DIGIT_BYTES.iter().position(|digit| digit == byte))
        .fold(0, |number, digit| number * 16 + digit.unwrap_or(0))
}

impl fmt::Display for Tally {
    fn fmt(&self, f: &mut fmt::Formatter) -> fmt::Result {
        writeln!(f, "cases {}", self.cases)?;
        write!(f, "verdicts")?;
        for (number, count) in self.verdicts.iter().enumerate() {
            write!(f, " {number}:{count}")?;
        }
        write!(f, "\nanswers")?;
        for answer in ANSWERS {
            write!(f, " {answer}:{}", self.answers[answer])?;
        }
        let [long, malformed] = self.lists_refused;
        writeln!(f, "\nchoice lists refused 2:{long} 3:{malformed}")?;
        let share = 100.0 * self.verdicts[0] as f64 / self.cases.max(1) as f64;
        write!(f, "accepted {share:.1} % of the files")
    }
}
