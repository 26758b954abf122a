//! The plan: what the library answers, with the failed members marked.

use crate::asked::Asked;
use crate::mistake::Mistake;
use havdorlek::{first_pair, resend_pair, Pair};

/// One resend.
pub struct Step {
    /// The resend number.
    pub number: u32,
    pub sender: u32,
    pub receiver: u32,
    /// Its run.
    pub run: u64,
    /// The runs of the resends before it.
    pub before: u64,
    pub sender_failed: bool,
    pub receiver_failed: bool,
}

impl Step {
    /// Whether both ends are unfailed.
    pub fn is_good(&self) -> bool {
        !self.sender_failed && !self.receiver_failed
    }
}

/// The first copy, and the resends up to the number in demand 3.
pub struct Plan {
    pub first: Pair,
    pub resends: Vec<Step>,
}

impl Plan {
    /// Asks the library for every pair.
    pub fn of(asked: &Asked) -> Result<Plan, Mistake> {
        let (sending, receiving) = (asked.sending.cluster(), asked.receiving.cluster());
        let (q, k) = (asked.quantum, asked.message);
        let first = first_pair(sending, receiving, q, k).map_err(|refusal| asked.refused(refusal))?;
        asked.sending.check_failed()?;
        asked.receiving.check_failed()?;
        let mut before = 0;
        let mut resends = Vec::new();
        for number in 1..(sending.shares.len() + receiving.shares.len()) as u32 {
            let resend = resend_pair(sending, receiving, q, k, number).map_err(|refusal| asked.refused(refusal))?;
            resends.push(Step {
                number,
                sender: resend.sender,
                receiver: resend.receiver,
                run: resend.run,
                before,
                sender_failed: asked.sending.has_failed(resend.sender),
                receiver_failed: asked.receiving.has_failed(resend.receiver),
            });
            before += resend.run;
        }
        Ok(Plan { first, resends })
    }

    /// The first resend that has both ends unfailed.
    pub fn first_good(&self) -> Option<&Step> {
        self.resends.iter().find(|step| step.is_good())
    }
}
