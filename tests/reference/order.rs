//! The nine orders. 01: "Fields are in the order given; d is the destination".

#[derive(Clone, Copy, Debug, PartialEq, Eq)]
pub enum Order {
    Deal { d: u64, e: u64, v: u64 },
    Add { d: u64, x: u64, y: u64 },
    Scale { d: u64, x: u64, c: u64 },
    Multiply { d: u64, x: u64, y: u64 },
    Decompose { d: u64, x: u64, l: u64 },
    Convert { d: u64, x: u64, f: u64 },
    Shift { d: u64, x: u64, s: u64 },
    Compose { d: u64, x: u64, f: u64 },
    Open { x: u64 },
}

impl Order {
    /// From its kind and fields; none for another kind or count of fields.
    pub fn new(kind: u64, fields: &[u64]) -> Option<Order> {
        Some(match (kind, fields) {
            (1, &[d, e, v]) => Order::Deal { d, e, v },
            (2, &[d, x, y]) => Order::Add { d, x, y },
            (3, &[d, x, c]) => Order::Scale { d, x, c },
            (4, &[d, x, y]) => Order::Multiply { d, x, y },
            (5, &[d, x, l]) => Order::Decompose { d, x, l },
            (6, &[d, x, f]) => Order::Convert { d, x, f },
            (7, &[d, x, s]) => Order::Shift { d, x, s },
            (8, &[d, x, f]) => Order::Compose { d, x, f },
            (9, &[x]) => Order::Open { x },
            _ => return None,
        })
    }

    /// Kind and fields; the two that an opening lacks are 0.
    pub fn words(&self) -> [u64; 4] {
        match *self {
            Order::Deal { d, e, v } => [1, d, e, v],
            Order::Add { d, x, y } => [2, d, x, y],
            Order::Scale { d, x, c } => [3, d, x, c],
            Order::Multiply { d, x, y } => [4, d, x, y],
            Order::Decompose { d, x, l } => [5, d, x, l],
            Order::Convert { d, x, f } => [6, d, x, f],
            Order::Shift { d, x, s } => [7, d, x, s],
            Order::Compose { d, x, f } => [8, d, x, f],
            Order::Open { x } => [9, x, 0, 0],
        }
    }

    /// The register numbers among the fields.
    pub fn registers(&self) -> Vec<u64> {
        match (self, self.words()) {
            (Order::Deal { .. } | Order::Open { .. }, [_, a, _, _]) => vec![a],
            (Order::Add { .. } | Order::Multiply { .. }, [_, a, b, c]) => vec![a, b, c],
            (_, [_, a, b, _]) => vec![a, b],
        }
    }
}
