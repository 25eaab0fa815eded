//! Builds plans field by field.

/// The bytes of a plan so far.
#[derive(Clone, Default)]
pub struct Plan(pub Vec<u8>);

impl Plan {
    pub fn new() -> Plan {
        Plan::default()
    }

    /// Any field: tag, the value's length, value.
    pub fn field(mut self, tag: u8, value: &[u8]) -> Plan {
        self.0.push(tag);
        self.0.extend(u16::try_from(value.len()).unwrap().to_be_bytes());
        self.0.extend(value);
        self
    }

    /// Bytes that need not be a field.
    pub fn bytes(mut self, bytes: &[u8]) -> Plan {
        self.0.extend(bytes);
        self
    }

    pub fn bridges(self, count: u8) -> Plan {
        self.field(1, &[count])
    }

    pub fn link(self, a: u8, b: u8) -> Plan {
        self.field(2, &[a, b])
    }

    pub fn view(self, costs: &[u32]) -> Plan {
        let value: Vec<u8> = costs.iter().flat_map(|cost| cost.to_be_bytes()).collect();
        self.field(3, &value)
    }

    pub fn update(self, bridge: u8, view: u8) -> Plan {
        self.field(4, &[bridge, view])
    }

    pub fn send(self, bridge: u8, link: u8) -> Plan {
        self.field(5, &[bridge, link])
    }

    pub fn deliver(self, place: u8) -> Plan {
        self.field(6, &[place])
    }

    pub fn repeat(self, place: u8) -> Plan {
        self.field(7, &[place])
    }

    pub fn lose(self, place: u8) -> Plan {
        self.field(8, &[place])
    }

    pub fn cut(self, bridge: u8, link: u8) -> Plan {
        self.field(9, &[bridge, link])
    }

    pub fn restore(self, bridge: u8, link: u8) -> Plan {
        self.field(10, &[bridge, link])
    }

    /// Cuts both ends of a link; `bridges` are those that it joins.
    pub fn cut_both(self, bridges: [u8; 2], link: u8) -> Plan {
        self.cut(bridges[0], link).cut(bridges[1], link)
    }

    pub fn restore_both(self, bridges: [u8; 2], link: u8) -> Plan {
        self.restore(bridges[0], link).restore(bridges[1], link)
    }

    pub fn report(self, destination: u8) -> Plan {
        self.field(11, &[destination])
    }

    pub fn path(self, start: u8, destination: u8) -> Plan {
        self.field(12, &[start, destination])
    }

    /// A send whose message is delivered at once; `place` is the count of messages in flight before it.
    pub fn pass(self, bridge: u8, link: u8, place: u8) -> Plan {
        self.send(bridge, link).deliver(place)
    }

    /// Each of these (bridge, link) pairs passes a message, with `place` messages in flight before.
    pub fn pass_all(self, pairs: &[(u8, u8)], place: u8) -> Plan {
        pairs.iter().fold(self, |plan, &(bridge, link)| plan.pass(bridge, link, place))
    }

    /// The bridges, links and views of the triangle of 'Known examples'.
    pub fn triangle() -> Plan {
        Plan::new().bridges(3).link(0, 1).link(1, 2).link(0, 2).view(&[1, 1, 3]).view(&[0, 1, 3])
    }

    /// A round in the triangle: all sends, then all deliveries.
    pub fn triangle_round(self, place: u8) -> Plan {
        let pairs = [(0, 0), (0, 2), (1, 0), (1, 1), (2, 1), (2, 2)];
        let sent = pairs.iter().fold(self, |plan, &(bridge, link)| plan.send(bridge, link));
        pairs.iter().fold(sent, |plan, _| plan.deliver(place))
    }

    /// The plan's length so far: the offset of the next field.
    pub fn len(&self) -> usize {
        self.0.len()
    }

    /// What is printed for the plan.
    pub fn printed(&self) -> String {
        String::from_utf8(reference::output(&self.0)).unwrap()
    }

    /// What is printed must be these lines.
    #[track_caller]
    pub fn prints(&self, lines: &[&str]) {
        let expected: String = lines.iter().map(|line| format!("{line}\n")).collect();
        assert_eq!(self.printed(), expected);
    }

    /// The last line must be this refusal; the offset is that of the next field of `before`.
    #[track_caller]
    pub fn refused(&self, number: u8, before: &Plan) {
        let expected = format!("refused {number} at {}\n", before.len());
        let printed = self.printed();
        assert!(printed.ends_with(&expected), "{printed:?} does not end with {expected:?}");
    }

    /// The last line must be `end E`.
    #[track_caller]
    pub fn accepted(&self, events: usize) {
        let expected = format!("end {events}\n");
        let printed = self.printed();
        assert!(printed.ends_with(&expected), "{printed:?} does not end with {expected:?}");
    }
}
