//! Asks the proved library why a port is shut, in Rust: two bridges and a link, step by step. README.md says how to run it.

// A slice passes as a pointer and then a length. Each call replies 0, or the number of its refusal.
#[rustfmt::skip]
extern "C" {
    fn bench_net_fresh(bench: *mut u32, _: usize, costs: *const u32, _: usize, sent: *mut u32, _: usize, held: *mut u32, _: usize) -> u8;
    fn bench_net_update(bench: *mut u32, _: usize, costs: *const u32, _: usize, sent: *mut u32, _: usize, held: *mut u32, _: usize,
                        bridge: usize, view: usize) -> u8;
    fn bench_net_cut(bench: *mut u32, _: usize, bridge: usize, link: usize) -> u8;
    fn bench_net_restore(bench: *mut u32, _: usize, bridge: usize, link: usize) -> u8;
    fn bench_net_send(bench: *mut u32, _: usize, messages: *mut u32, _: usize, bridge: usize, link: usize) -> u8;
    fn bench_net_deliver(bench: *mut u32, _: usize, costs: *const u32, _: usize, sent: *mut u32, _: usize, held: *mut u32, _: usize,
                         messages: *mut u32, _: usize, place: usize, out: *mut u32, _: usize) -> u8;
    fn bench_net_verdict(bench: *const u32, _: usize, costs: *const u32, _: usize, sent: *const u32, _: usize, held: *const u32, _: usize,
                         bridge: usize, dest: usize, out: *mut u32, _: usize) -> u8;
}

const WORDS: [&str; 7] = [
    "forwards, on link",
    "is the destination",
    "no path",
    "chosen link down at this end, link",
    "nothing held over link",
    "held limit too great, link",
    "sent limit not above the distance, link",
];

/// What a caller keeps, and lends to every call.
struct Network {
    bench: [u32; 420],
    costs: [u32; 1024],
    sent: [u32; 1024],
    held: [u32; 1024],
    messages: [u32; 320],
}

impl Network {
    /// Two bridges, one link, two views: the link costs 5 in view 0 and 3 in view 1.
    fn fresh() -> Network {
        let (mut bench, mut costs) = ([0; 420], [0; 1024]);
        bench[..3].copy_from_slice(&[2, 1, 2]);
        bench[4..6].copy_from_slice(&[0, 1]);
        (costs[0], costs[32]) = (5, 3);
        let mut n = Network { bench, costs, sent: [0; 1024], held: [0; 1024], messages: [0; 320] };
        let (bench, costs, sent, held) = (n.bench.as_mut_ptr(), n.costs.as_ptr(), n.sent.as_mut_ptr(), n.held.as_mut_ptr());
        assert_eq!(unsafe { bench_net_fresh(bench, 420, costs, 1024, sent, 1024, held, 1024) }, 0);
        n
    }

    fn ask(&self, bridge: usize, dest: usize) {
        let Network { bench, costs, sent, held, .. } = self;
        let mut out = [0u32; 2];
        #[rustfmt::skip] // the line of README.md
        let refused = unsafe { bench_net_verdict(bench.as_ptr(), 420, costs.as_ptr(), 1024, sent.as_ptr(), 1024, held.as_ptr(), 1024, bridge, dest, out.as_mut_ptr(), 2) };
        let words = || WORDS[out[0] as usize];
        match (refused, out[1]) {
            (0, u32::MAX) => println!("{bridge} to {dest}: {}", words()),
            (0, link) => println!("{bridge} to {dest}: {} {link}", words()),
            _ => println!("{bridge} to {dest}: refused {refused}"),
        }
    }

    fn cut(&mut self, bridge: usize, link: usize) {
        assert_eq!(unsafe { bench_net_cut(self.bench.as_mut_ptr(), 420, bridge, link) }, 0);
    }

    fn restore(&mut self, bridge: usize, link: usize) {
        assert_eq!(unsafe { bench_net_restore(self.bench.as_mut_ptr(), 420, bridge, link) }, 0);
    }

    fn send(&mut self, bridge: usize, link: usize) {
        assert_eq!(unsafe { bench_net_send(self.bench.as_mut_ptr(), 420, self.messages.as_mut_ptr(), 320, bridge, link) }, 0);
    }

    fn deliver(&mut self, place: usize) {
        let mut answer = [0; 3];
        let (bench, costs, sent, held) =
            (self.bench.as_mut_ptr(), self.costs.as_ptr(), self.sent.as_mut_ptr(), self.held.as_mut_ptr());
        let (messages, out) = (self.messages.as_mut_ptr(), answer.as_mut_ptr());
        let reply = unsafe { bench_net_deliver(bench, 420, costs, 1024, sent, 1024, held, 1024, messages, 320, place, out, 3) };
        assert_eq!(reply, 0);
    }

    fn update(&mut self, bridge: usize, view: usize) {
        let (bench, costs, sent, held) =
            (self.bench.as_mut_ptr(), self.costs.as_ptr(), self.sent.as_mut_ptr(), self.held.as_mut_ptr());
        assert_eq!(unsafe { bench_net_update(bench, 420, costs, 1024, sent, 1024, held, 1024, bridge, view) }, 0);
    }
}

fn main() {
    let mut network = Network::fresh();
    network.ask(0, 0);
    network.ask(1, 0);
    network.send(0, 0); // bridge 0 sends its agreement over link 0, and it arrives
    network.deliver(0);
    network.ask(1, 0);
    network.cut(1, 0); // bridge 1's connector is pulled, and put in again
    network.ask(1, 0);
    network.restore(1, 0);
    network.update(1, 1); // bridge 1 goes to view 1, bridge 0 has not yet
    network.ask(1, 0);
    network.ask(7, 0);
}
