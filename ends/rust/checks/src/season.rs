//! A season: a window lives through sends and reports of receiving members that are honest, late, lying or silent, over
//! a link that loses messages; its state is damaged now and then, and the season goes on from the undamaged one.

use crate::answer::Answer;
use crate::call::{Call, Link};
use crate::draw::clusters::any_link;
use crate::draw::windows::{beginning, damage, grown_report, noise};
use crate::end::{run, Reference};
use crate::layout::*;
use crate::random::Random;
use crate::states::{collected, LAST_MESSAGE, REPORT_BYTES};

/// Where the calls of a season go: to both ends, and their answer comes back.
pub type Ask<'a> = &'a mut dyn FnMut(Call) -> Answer;

/// How things go in a season; the first four are times in a hundred.
struct Habits {
    sends: u64,
    losses: u64,
    lies: u64,
    late: u64,
    /// Every so many messages one is lost however often it is sent, as long as its resend count is below a limit.
    hole_every: u64,
    hole_until: u64,
    /// How many members ever report; the others are silent.
    speaking: usize,
}

struct Season<'a> {
    random: &'a Random,
    ask: Ask<'a>,
    habits: Habits,
    window: Box<Words>,
    /// What each receiving member holds.
    holdings: Vec<[u64; 2]>,
    /// Reports that were made, to be made again too late.
    made: Vec<(usize, u64, u64)>,
}

/// Lives through a season with random clusters.
pub fn season(random: &Random, ask: Ask) {
    let link = any_link(random, 3);
    let opened = ask(Call::Open { link: link.clone() });
    if opened.returned != 0 {
        let window = opened.window();
        ask(Call::Judge { window: window.clone() });
        ask(Call::Send { window, k: 1 });
        return;
    }
    let begin = beginning(random);
    let window = if begin == 0 {
        opened.window()
    } else {
        collected(&link, begin)
    };
    let habits = habits(random, &link);
    let holdings = vec![[begin, 0]; link.receiving.shares.len()];
    let steps = random.pick(&[50, 150, 400, 900]);
    let mut season = Season {
        random,
        ask,
        habits,
        window,
        holdings,
        made: Vec::new(),
    };
    for _ in 0..steps {
        season.step();
    }
}

fn habits(random: &Random, link: &Link) -> Habits {
    let members = link.receiving.shares.len();
    Habits {
        sends: random.pick(&[5, 20, 40, 70]),
        losses: random.pick(&[0, 10, 40, 90]),
        lies: random.pick(&[0, 5, 50]),
        late: random.pick(&[0, 10]),
        hole_every: random.pick(&[0, 1, 2, 5, 30]),
        hole_until: random.pick(&[1, 3, 255, 256]),
        speaking: random.pick(&[members, members.min(3), random.place(members) + 1]),
    }
}

impl Season<'_> {
    fn step(&mut self) {
        if self.random.chance(self.habits.sends) {
            self.send();
        } else if self.random.chance(8) {
            self.damaged();
        } else {
            self.report();
        }
    }

    /// Sends the next message, or now and then some other one.
    fn send(&mut self) {
        let next = self.window[SENT] + 1;
        let k = match self.random.between(0, 19) {
            0 => self.random.wild(),
            1 => next + self.random.between(1, 70),
            2 => next - self.random.between(0, next.min(3)),
            _ => next,
        };
        self.go_on(Call::Send {
            window: self.window.clone(),
            k,
        });
    }

    /// Makes a call and goes on from the window that it leaves.
    fn go_on(&mut self, call: Call) {
        self.window = (self.ask)(call).window();
    }

    fn report(&mut self) {
        let member = self.random.place(self.habits.speaking);
        self.receive(member);
        let (member, number, mask) = if self.random.chance(self.habits.lies) {
            self.lie(member)
        } else if self.random.chance(self.habits.late) && !self.made.is_empty() {
            let at = self.random.place(self.made.len());
            self.made[at]
        } else {
            let holdings = self.holdings[member];
            let answer = self.ask_sometimes(Call::ReceiverReport { holdings });
            (member, answer.numbers[0], answer.numbers[1])
        };
        self.made.push((member, number, mask));
        let report = self.perhaps_spoilt(member, number, mask);
        self.go_on(report);
    }

    /// A lie that passes for a report, or anything at all.
    fn lie(&mut self, member: usize) -> (usize, u64, u64) {
        if self.random.chance(80) {
            let (number, mask) = grown_report(self.random, &self.window, member);
            (member, number, mask)
        } else {
            (member, self.random.wild(), self.random.bits())
        }
    }

    /// A report call, with something wrong in it now and then, or in several places.
    fn perhaps_spoilt(&mut self, member: usize, number: u64, mask: u64) -> Call {
        let (mut member, mut number, mut mask, mut room) = (member as u32, number, mask, REPORT_BYTES);
        let sent = self.window[SENT];
        if self.random.chance(8) {
            let members = self.window[RECEIVING_MEMBERS] as u32;
            for _ in 0..self.random.between(1, 3) {
                match self.random.between(0, 5) {
                    0 => member = self.random.pick(&[members, 64, self.random.wild_32()]),
                    1 => {
                        number = self
                            .random
                            .pick(&[sent + 1, self.random.wild(), number.wrapping_sub(1)])
                    }
                    2 => mask |= 1,
                    3 => mask |= 1 << self.random.between(0, 63),
                    4 => mask &= self.random.word(),
                    _ => room = self.random.pick(&[0, 16, 1_023, 1_025, 1_500]),
                }
            }
        }
        Call::Report {
            window: self.window.clone(),
            member,
            number,
            mask,
            room,
        }
    }

    /// The messages that the member lacks arrive, save those that are lost.
    fn receive(&mut self, member: usize) {
        let [number, _] = self.holdings[member];
        let last = self.window[SENT].min(number + 64);
        for k in number + 1..=last {
            if !self.random.chance(self.habits.losses) && !self.hole(k) {
                let holdings = self.holdings[member];
                self.holdings[member] = self.ask_sometimes(Call::Arrive { holdings, k }).holdings();
            }
        }
        if self.random.chance(5) {
            let k = self
                .random
                .pick(&[0, number + 64, number + 65, LAST_MESSAGE + 1, self.random.wild()]);
            (self.ask)(Call::Arrive {
                holdings: self.holdings[member],
                k,
            });
        }
    }

    fn hole(&self, k: u64) -> bool {
        let resent = self.window[RESEND_COUNTS + ((k - 1) % 64) as usize];
        self.habits.hole_every > 0 && k.is_multiple_of(self.habits.hole_every) && resent < self.habits.hole_until
    }

    /// The members' own calls are many and cheap: most of them the reference answers alone.
    fn ask_sometimes(&mut self, call: Call) -> Answer {
        if self.random.chance(12) {
            (self.ask)(call)
        } else {
            run(&Reference, &call)
        }
    }

    /// A call with a damaged state; the season goes on from the undamaged one.
    fn damaged(&mut self) {
        let mut window = self.window.clone();
        for _ in 0..self.random.pick(&[1, 1, 1, 2]) {
            damage(self.random, &mut window);
        }
        if self.random.chance(5) {
            window = noise(self.random);
        }
        let member = self.random.place(self.habits.speaking);
        let [number, mask] = self.holdings[member];
        let call = match self.random.between(0, 2) {
            0 => Call::Judge { window },
            1 => Call::Send {
                window,
                k: self.window[SENT] + 1,
            },
            _ => Call::Report {
                window,
                member: member as u32,
                number,
                mask,
                room: REPORT_BYTES,
            },
        };
        (self.ask)(call);
    }
}
