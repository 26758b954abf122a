//! A file of the pack while it is being written.

use crate::answer::{line, Answer};
use crate::call::Call;
use crate::end::{run, Reference};

/// The lines so far. The answers are the reference's; that they are what the line is there for is asserted.
pub struct Sheet {
    text: String,
}

/// A cause of a refusal: its number, and what it does to inputs that would be accepted.
pub type Cause<T> = (u64, fn(&mut T));

impl Sheet {
    pub fn new(title: &str) -> Sheet {
        Sheet {
            text: format!("# {title}\n# The form of a line is told in README.md.\n"),
        }
    }

    pub fn text(self) -> String {
        self.text
    }

    /// Starts a group of lines and says what it is there for.
    pub fn group(&mut self, about: &str) {
        self.text += &format!("\n# {about}\n");
    }

    /// Says what the next line is there for.
    pub fn remark(&mut self, about: &str) {
        self.text += &format!("# {about}\n");
    }

    /// A call that is answered with this refusal, 0 for none.
    pub fn answers(&mut self, refusal: u64, call: Call) -> Answer {
        let answer = run(&Reference, &call);
        let line = line(&call, &answer);
        assert_eq!(
            answer.refusal(&call),
            refusal,
            "the line is there for another answer: {line}"
        );
        self.text += &line;
        self.text += "\n";
        answer
    }

    pub fn accepts(&mut self, call: Call) -> Answer {
        self.answers(0, call)
    }

    /// An example of the document: the answer is also held against the document's own numbers.
    pub fn example(&mut self, call: Call, expected: &str) {
        let text = self.accepts(call.clone()).text(&call);
        assert_eq!(
            text, expected,
            "an example of the document is answered otherwise: {call}"
        );
    }

    /// Each cause alone, then each two together, of which the earlier in the document's order decides.
    pub fn order<T: Clone>(&mut self, accepted: &T, causes: &[Cause<T>], call: impl Fn(T) -> Call) {
        let spoilt = |spoilers: &[fn(&mut T)]| {
            let mut inputs = accepted.clone();
            spoilers.iter().for_each(|spoil| spoil(&mut inputs));
            call(inputs)
        };
        self.group("Each cause of a refusal alone.");
        for &(number, spoil) in causes {
            self.answers(number, spoilt(&[spoil]));
        }
        self.group("Each two causes together: the one that comes first in the order decides.");
        for (at, &(number, first)) in causes.iter().enumerate() {
            for &(_, second) in &causes[at + 1..] {
                // The later cause is laid first, so that it cannot undo the earlier one.
                self.answers(number, spoilt(&[second, first]));
            }
        }
    }
}
