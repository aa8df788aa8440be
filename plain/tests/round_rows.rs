//! The rows of the rounds: what happens in a hall before, and the calls that a worker is to make then.
use crate::beside::{Act, Asked};
use dllp_core::Class;
use fabric_core::LaneName;
use flow_control::LaneCredits;
use hall_core::{Part, WorkEvent};
use lane_core::{DllpKind, Fate};
use workers::Job;

pub const UP: LaneName = LaneName::Up(1);

pub const UP_TWO: LaneName = LaneName::Up(2);

pub const IN: LaneName = LaneName::Inward;

pub const OUT: LaneName = LaneName::Outward;

pub const ANSWER: DllpKind = DllpKind::Answer;

/// A call of a worker.
#[derive(Clone, Copy)]
pub enum Call {
    /// The event, whether or not it is refused.
    Event(WorkEvent),
    /// It finds a part taken.
    Busy,
}

/// The first calls of a worker, in a hall of two requesters, over links that lose one of 2 and corrupt one of 3. By that
/// plan what is counted as 1 is good, as are 9 and 14; 2, 4, 5, 7 and 10 are lost, 3, 6 and 8 fail.
pub struct Row {
    /// What the second requester does before, and what the first does then: lists of acts, one after the other.
    pub second: &'static [&'static [Act]],
    pub first: &'static [&'static [Act]],
    /// The part that another seat has during all the calls.
    pub held: Option<Part>,
    pub job: Job,
    pub calls: &'static [Call],
}

/// Credits with which one read is on its way in a lane, and many writes are.
pub const CREDITS: LaneCredits = LaneCredits {
    nph: 1,
    npd: 2,
    cplh: 1,
    cpld: 8,
    ..LaneCredits::DEFAULT
};

const READ: Act = Act::Submit(Asked::Read);

const WRITE: Act = Act::Submit(Asked::Write);

/// The first requester's next packet is sent to the switch.
const TRANSMIT: Act = Act::Work(WorkEvent::Transmit(UP));

/// The oldest of its packets on the way arrives.
const DELIVER: Act = Act::Work(WorkEvent::Deliver(UP, Fate::Good));

/// The first requester's write arrives at the switch, and the Ack of it is on its way back.
const ACKNOWLEDGED: &[Act] = &[
    WRITE,
    TRANSMIT,
    DELIVER,
    Act::Work(WorkEvent::SendDllp(UP, ANSWER)),
];

/// The first requester's packet is sent, and then the replay timer expires.
const TIMED_OUT: &[Act] = &[TRANSMIT, Act::Work(WorkEvent::Timer(UP))];

/// Two packets of the first requester arrive at the switch.
const BOTH_UP: &[Act] = &[TRANSMIT, TRANSMIT, DELIVER, DELIVER];

/// These two go on to the memory.
const BOTH_IN: &[Act] = &[
    Act::Work(WorkEvent::Forward(UP, 0)),
    Act::Work(WorkEvent::Forward(UP, 0)),
    Act::Work(WorkEvent::Transmit(IN)),
    Act::Work(WorkEvent::Transmit(IN)),
    Act::Work(WorkEvent::Deliver(IN, Fate::Good)),
    Act::Work(WorkEvent::Deliver(IN, Fate::Good)),
];

/// The second requester's read arrives at the memory, and is served.
const SERVED: &[Act] = &[
    READ,
    Act::Work(WorkEvent::Transmit(UP_TWO)),
    Act::Work(WorkEvent::Deliver(UP_TWO, Fate::Good)),
    Act::Work(WorkEvent::Forward(UP_TWO, 0)),
    Act::Work(WorkEvent::Transmit(IN)),
    Act::Work(WorkEvent::Deliver(IN, Fate::Good)),
    Act::Work(WorkEvent::Serve(0)),
];

/// The completion of that read arrives at the switch.
const COMPLETION_OUT: &[Act] = &[
    Act::Work(WorkEvent::Transmit(OUT)),
    Act::Work(WorkEvent::Deliver(OUT, Fate::Good)),
];

/// The switch gets the credit of that read back, so that another read may go to the memory.
const READ_CREDIT_BACK: &[Act] = &[
    Act::Work(WorkEvent::SendDllp(IN, DllpKind::Update(Class::NonPosted))),
    Act::Work(WorkEvent::DeliverDllp(IN, Fate::Good)),
];

/// The second requester's write arrives at the switch.
const SECOND_WRITES: &[Act] = &[
    WRITE,
    Act::Work(WorkEvent::Transmit(UP_TWO)),
    Act::Work(WorkEvent::Deliver(UP_TWO, Fate::Good)),
];

pub static ROWS: [Row; 10] = [
    // Two packets are to be sent, and four Acks have come in.
    Row {
        second: &[],
        first: &[
            ACKNOWLEDGED,
            ACKNOWLEDGED,
            ACKNOWLEDGED,
            ACKNOWLEDGED,
            &[WRITE, WRITE],
        ],
        held: None,
        job: Job::Sender(UP),
        calls: &[
            Call::Event(WorkEvent::Transmit(UP)),
            Call::Event(WorkEvent::DeliverDllp(UP, Fate::Good)),
            Call::Event(WorkEvent::Transmit(UP)),
            Call::Event(WorkEvent::DeliverDllp(UP, Fate::Lost)),
            Call::Event(WorkEvent::Transmit(UP)),
            Call::Event(WorkEvent::DeliverDllp(UP, Fate::Failed)),
            Call::Event(WorkEvent::Retrained(UP)),
            Call::Event(WorkEvent::Transmit(UP)),
            Call::Event(WorkEvent::DeliverDllp(UP, Fate::Lost)),
            Call::Event(WorkEvent::Retrained(UP)),
            Call::Event(WorkEvent::Transmit(UP)),
            Call::Event(WorkEvent::DeliverDllp(UP, Fate::Good)),
            Call::Event(WorkEvent::Retrained(UP)),
        ],
    },
    // A packet was sent four times, and the link is to be retrained.
    Row {
        second: &[],
        first: &[&[WRITE], TIMED_OUT, TIMED_OUT, TIMED_OUT, TIMED_OUT],
        held: None,
        job: Job::Sender(UP),
        calls: &[
            Call::Event(WorkEvent::Transmit(UP)),
            Call::Event(WorkEvent::DeliverDllp(UP, Fate::Good)),
            Call::Event(WorkEvent::Retrained(UP)),
            Call::Event(WorkEvent::Transmit(UP)),
            Call::Event(WorkEvent::DeliverDllp(UP, Fate::Good)),
            Call::Event(WorkEvent::Transmit(UP)),
            Call::Event(WorkEvent::DeliverDllp(UP, Fate::Good)),
            Call::Event(WorkEvent::Retrained(UP)),
        ],
    },
    // Another seat has the wire.
    Row {
        second: &[],
        first: &[
            ACKNOWLEDGED,
            ACKNOWLEDGED,
            ACKNOWLEDGED,
            ACKNOWLEDGED,
            &[WRITE],
        ],
        held: Some(Part::ForwardWire(UP)),
        job: Job::Sender(UP),
        calls: &[
            Call::Busy,
            Call::Event(WorkEvent::DeliverDllp(UP, Fate::Good)),
            Call::Busy,
            Call::Event(WorkEvent::DeliverDllp(UP, Fate::Lost)),
            Call::Busy,
            Call::Event(WorkEvent::DeliverDllp(UP, Fate::Failed)),
            Call::Busy,
            Call::Event(WorkEvent::DeliverDllp(UP, Fate::Lost)),
        ],
    },
    // Four packets were sent. The fourth is lost as the second was, the third fails.
    Row {
        second: &[],
        first: &[
            &[WRITE, WRITE, WRITE, WRITE],
            &[TRANSMIT, TRANSMIT, TRANSMIT, TRANSMIT],
        ],
        held: None,
        job: Job::Receiver(UP),
        calls: &[
            Call::Event(WorkEvent::Deliver(UP, Fate::Good)),
            Call::Event(WorkEvent::SendDllp(UP, ANSWER)),
            Call::Event(WorkEvent::DeliverDllp(UP, Fate::Good)),
            Call::Event(WorkEvent::SendDllp(UP, DllpKind::Update(Class::Posted))),
            Call::Event(WorkEvent::DeliverDllp(UP, Fate::Lost)),
            Call::Event(WorkEvent::Deliver(UP, Fate::Lost)),
            Call::Event(WorkEvent::SendDllp(UP, ANSWER)),
            Call::Event(WorkEvent::DeliverDllp(UP, Fate::Failed)),
            Call::Event(WorkEvent::SendDllp(UP, DllpKind::Update(Class::NonPosted))),
            Call::Event(WorkEvent::DeliverDllp(UP, Fate::Lost)),
            Call::Event(WorkEvent::Deliver(UP, Fate::Failed)),
            Call::Event(WorkEvent::SendDllp(UP, ANSWER)),
            Call::Event(WorkEvent::DeliverDllp(UP, Fate::Lost)),
            Call::Event(WorkEvent::SendDllp(UP, DllpKind::Update(Class::Completion))),
            Call::Event(WorkEvent::DeliverDllp(UP, Fate::Failed)),
            Call::Event(WorkEvent::Deliver(UP, Fate::Lost)),
            Call::Event(WorkEvent::SendDllp(UP, ANSWER)),
            Call::Event(WorkEvent::DeliverDllp(UP, Fate::Lost)),
            Call::Event(WorkEvent::SendDllp(UP, DllpKind::Update(Class::Posted))),
            Call::Event(WorkEvent::DeliverDllp(UP, Fate::Failed)),
            Call::Event(WorkEvent::Deliver(UP, Fate::Lost)),
            Call::Event(WorkEvent::SendDllp(UP, ANSWER)),
            Call::Event(WorkEvent::DeliverDllp(UP, Fate::Good)),
            Call::Event(WorkEvent::SendDllp(UP, DllpKind::Update(Class::NonPosted))),
            Call::Event(WorkEvent::DeliverDllp(UP, Fate::Lost)),
            Call::Event(WorkEvent::Timer(UP)),
            Call::Event(WorkEvent::Deliver(UP, Fate::Lost)),
            Call::Event(WorkEvent::SendDllp(UP, ANSWER)),
            Call::Event(WorkEvent::DeliverDllp(UP, Fate::Failed)),
            Call::Event(WorkEvent::SendDllp(UP, DllpKind::Update(Class::Completion))),
            Call::Event(WorkEvent::DeliverDllp(UP, Fate::Lost)),
            Call::Event(WorkEvent::Timer(UP)),
        ],
    },
    // Another seat has the sender, which is to get the DLLPs.
    Row {
        second: &[],
        first: &[&[WRITE, WRITE, WRITE], &[TRANSMIT, TRANSMIT, TRANSMIT]],
        held: Some(Part::SenderEnd(UP)),
        job: Job::Receiver(UP),
        calls: &[
            Call::Event(WorkEvent::Deliver(UP, Fate::Good)),
            Call::Event(WorkEvent::SendDllp(UP, ANSWER)),
            Call::Busy,
            Call::Busy,
            Call::Event(WorkEvent::Deliver(UP, Fate::Lost)),
            Call::Busy,
            Call::Busy,
            Call::Event(WorkEvent::Deliver(UP, Fate::Failed)),
            Call::Busy,
            Call::Busy,
            Call::Event(WorkEvent::Deliver(UP, Fate::Lost)),
            Call::Busy,
            Call::Busy,
            Call::Busy,
        ],
    },
    // Another seat has the receiver.
    Row {
        second: &[],
        first: &[
            ACKNOWLEDGED,
            ACKNOWLEDGED,
            ACKNOWLEDGED,
            ACKNOWLEDGED,
            &[WRITE, TRANSMIT],
        ],
        held: Some(Part::ReceiverEnd(UP)),
        job: Job::Receiver(UP),
        calls: &[
            Call::Busy,
            Call::Busy,
            Call::Event(WorkEvent::DeliverDllp(UP, Fate::Good)),
            Call::Busy,
            Call::Event(WorkEvent::DeliverDllp(UP, Fate::Lost)),
            Call::Busy,
            Call::Busy,
            Call::Event(WorkEvent::DeliverDllp(UP, Fate::Failed)),
            Call::Busy,
            Call::Event(WorkEvent::DeliverDllp(UP, Fate::Lost)),
            Call::Busy,
            Call::Busy,
            Call::Event(WorkEvent::DeliverDllp(UP, Fate::Lost)),
        ],
    },
    // A completion is to go down; a read lacks credit, and the write behind it doesn't.
    Row {
        second: &[SERVED, COMPLETION_OUT, SECOND_WRITES],
        first: &[&[READ, WRITE], BOTH_UP],
        held: None,
        job: Job::Switch,
        calls: &[
            Call::Event(WorkEvent::Forward(OUT, 0)),
            Call::Event(WorkEvent::Forward(UP, 0)),
            Call::Event(WorkEvent::Forward(UP, 1)),
            Call::Event(WorkEvent::Forward(UP_TWO, 0)),
            Call::Event(WorkEvent::Forward(OUT, 0)),
            Call::Event(WorkEvent::Forward(OUT, 1)),
            Call::Event(WorkEvent::Forward(UP, 0)),
            Call::Event(WorkEvent::Forward(UP, 1)),
            Call::Event(WorkEvent::Forward(UP_TWO, 0)),
            Call::Event(WorkEvent::Forward(UP_TWO, 1)),
            Call::Event(WorkEvent::Forward(OUT, 0)),
        ],
    },
    // Another seat has the first requester's receiver.
    Row {
        second: &[SERVED, COMPLETION_OUT, SECOND_WRITES],
        first: &[&[WRITE, TRANSMIT, DELIVER]],
        held: Some(Part::ReceiverEnd(UP)),
        job: Job::Switch,
        calls: &[
            Call::Event(WorkEvent::Forward(OUT, 0)),
            Call::Busy,
            Call::Event(WorkEvent::Forward(UP_TWO, 0)),
            Call::Event(WorkEvent::Forward(OUT, 0)),
            Call::Event(WorkEvent::Forward(OUT, 1)),
            Call::Busy,
            Call::Event(WorkEvent::Forward(UP_TWO, 0)),
            Call::Event(WorkEvent::Forward(UP_TWO, 1)),
        ],
    },
    // A read lacks credit for its completion, and the write behind it needs none.
    Row {
        second: &[SERVED, READ_CREDIT_BACK],
        first: &[&[READ, WRITE], BOTH_UP, BOTH_IN],
        held: None,
        job: Job::Completer,
        calls: &[
            Call::Event(WorkEvent::Serve(0)),
            Call::Event(WorkEvent::Serve(1)),
            Call::Event(WorkEvent::Serve(0)),
            Call::Event(WorkEvent::Serve(1)),
        ],
    },
    // Two writes act one after the other.
    Row {
        second: &[],
        first: &[&[WRITE, WRITE], BOTH_UP, BOTH_IN],
        held: None,
        job: Job::Completer,
        calls: &[
            Call::Event(WorkEvent::Serve(0)),
            Call::Event(WorkEvent::Serve(0)),
            Call::Event(WorkEvent::Serve(0)),
            Call::Event(WorkEvent::Serve(1)),
        ],
    },
];
