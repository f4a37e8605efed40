//! A small assembler: expressions and commands of document 01 to bytes.

pub type Bytes = Vec<u8>;

fn join(byte: u8, parts: &[&[u8]]) -> Bytes {
    let mut bytes = vec![byte];
    for part in parts {
        bytes.extend_from_slice(part);
    }
    bytes
}

// Numbers, 20 to 2B.

pub fn lit(value: i32) -> Bytes {
    join(0x20, &[&value.to_le_bytes()])
}

pub fn num(variable: u8) -> Bytes {
    vec![0x21, variable]
}

pub fn sum(first: Bytes, second: Bytes) -> Bytes {
    join(0x22, &[&first, &second])
}

pub fn difference(first: Bytes, second: Bytes) -> Bytes {
    join(0x23, &[&first, &second])
}

pub fn product(first: Bytes, second: Bytes) -> Bytes {
    join(0x24, &[&first, &second])
}

pub fn quotient(first: Bytes, second: Bytes) -> Bytes {
    join(0x25, &[&first, &second])
}

pub fn lesser(first: Bytes, second: Bytes) -> Bytes {
    join(0x26, &[&first, &second])
}

pub fn greater(first: Bytes, second: Bytes) -> Bytes {
    join(0x27, &[&first, &second])
}

pub fn entry(table: u8, row: Bytes, column: Bytes) -> Bytes {
    join(0x28, &[&[table], &row, &column])
}

pub fn count(set: Bytes) -> Bytes {
    join(0x29, &[&set])
}

pub fn entry_sum(table: u8, set: Bytes, column: Bytes) -> Bytes {
    join(0x2A, &[&[table], &set, &column])
}

pub fn choice(condition: Bytes, first: Bytes, second: Bytes) -> Bytes {
    join(0x2B, &[&condition, &first, &second])
}

// Elements, 30 and 31.

pub fn obj(object: u8) -> Bytes {
    vec![0x30, object]
}

pub fn elem(variable: u8) -> Bytes {
    vec![0x31, variable]
}

// Sets, 40 to 47.

pub fn set_lit(count: u8, members: u64) -> Bytes {
    join(0x40, &[&[count], &members.to_le_bytes()])
}

pub fn set(variable: u8) -> Bytes {
    vec![0x41, variable]
}

pub fn add(element: Bytes, set: Bytes) -> Bytes {
    join(0x42, &[&element, &set])
}

pub fn remove(element: Bytes, set: Bytes) -> Bytes {
    join(0x43, &[&element, &set])
}

pub fn union(first: Bytes, second: Bytes) -> Bytes {
    join(0x44, &[&first, &second])
}

pub fn intersection(first: Bytes, second: Bytes) -> Bytes {
    join(0x45, &[&first, &second])
}

pub fn without(first: Bytes, second: Bytes) -> Bytes {
    join(0x46, &[&first, &second])
}

pub fn complement(set: Bytes) -> Bytes {
    join(0x47, &[&set])
}

// Conditions, 50 to 59.

pub fn equal(first: Bytes, second: Bytes) -> Bytes {
    join(0x50, &[&first, &second])
}

pub fn less(first: Bytes, second: Bytes) -> Bytes {
    join(0x51, &[&first, &second])
}

pub fn at_most(first: Bytes, second: Bytes) -> Bytes {
    join(0x52, &[&first, &second])
}

pub fn same(first: Bytes, second: Bytes) -> Bytes {
    join(0x53, &[&first, &second])
}

pub fn member(element: Bytes, set: Bytes) -> Bytes {
    join(0x54, &[&element, &set])
}

pub fn empty(set: Bytes) -> Bytes {
    join(0x55, &[&set])
}

pub fn subset(first: Bytes, second: Bytes) -> Bytes {
    join(0x56, &[&first, &second])
}

pub fn not(part: Bytes) -> Bytes {
    join(0x57, &[&part])
}

pub fn and(first: Bytes, second: Bytes) -> Bytes {
    join(0x58, &[&first, &second])
}

pub fn or(first: Bytes, second: Bytes) -> Bytes {
    join(0x59, &[&first, &second])
}

/// Preferences as operands of 03 and 04.
pub const NONE: u8 = 0;
pub const LESS: u8 = 1;
pub const MORE: u8 = 2;

/// Cost rules as operands of 01.
pub const SUM: u8 = 0;
pub const LARGEST: u8 = 1;

/// A model under assembly: its bytes so far, and the places where its commands begin.
#[derive(Clone)]
pub struct Build {
    pub bytes: Bytes,
    pub starts: Vec<usize>,
}

impl Build {
    /// 01.
    pub fn new(rule: u8) -> Build {
        let nothing = Build {
            bytes: Vec::new(),
            starts: Vec::new(),
        };
        nothing.command(0x01, &[&[rule]])
    }

    pub fn command(mut self, byte: u8, parts: &[&[u8]]) -> Build {
        self.starts.push(self.bytes.len());
        self.bytes.extend(join(byte, parts));
        self
    }

    /// 02.
    pub fn set(self, count: u8, start: u64) -> Build {
        self.command(0x02, &[&[count], &start.to_le_bytes()])
    }

    /// 03.
    pub fn element(self, count: u8, preference: u8, start: u8) -> Build {
        self.command(0x03, &[&[count, preference, start]])
    }

    /// 04.
    pub fn number(self, preference: u8, start: i32) -> Build {
        self.command(0x04, &[&[preference], &start.to_le_bytes()])
    }

    /// 05 and its 06 commands.
    pub fn table(self, rows: u8, columns: u8, entries: &[i32]) -> Build {
        entries
            .iter()
            .fold(self.command(0x05, &[&[rows, columns]]), |build, entry| {
                build.command(0x06, &[&entry.to_le_bytes()])
            })
    }

    /// 07 with its 08, 09 and 0A commands.
    pub fn transition(self, conditions: &[Bytes], cost: Bytes, effects: &[(u8, Bytes)]) -> Build {
        self.costed(conditions, cost).effects(effects)
    }

    /// 07 with its 08, 09, 10 and 0A commands: the low cost and the high one.
    pub fn ranged(
        self,
        conditions: &[Bytes],
        (low, high): (Bytes, Bytes),
        effects: &[(u8, Bytes)],
    ) -> Build {
        self.costed(conditions, low)
            .command(0x10, &[&high])
            .effects(effects)
    }

    fn costed(self, conditions: &[Bytes], cost: Bytes) -> Build {
        self.command(0x07, &[])
            .conditions(conditions)
            .command(0x09, &[&cost])
    }

    /// 0A for each effect.
    fn effects(self, effects: &[(u8, Bytes)]) -> Build {
        effects.iter().fold(self, |build, (variable, value)| {
            build.command(0x0A, &[&[*variable], value])
        })
    }

    /// 08 for each condition.
    pub fn conditions(self, conditions: &[Bytes]) -> Build {
        conditions
            .iter()
            .fold(self, |build, condition| build.command(0x08, &[condition]))
    }

    /// 0B with its 08 commands.
    pub fn base(self, conditions: &[Bytes]) -> Build {
        self.command(0x0B, &[]).conditions(conditions)
    }

    /// 0C.
    pub fn constraint(self, condition: Bytes) -> Build {
        self.command(0x0C, &[&condition])
    }

    /// 0C before all other constraints, or behind them, in front of the bounds that are there already.
    pub fn constraint_among(mut self, condition: &[u8], first: bool) -> Build {
        let least = if first { 0x0C } else { 0x0D };
        let behind = |start: &usize| (least..=0x0D).contains(&self.bytes[*start]);
        let at = self.starts.iter().copied().find(behind);
        let at = at.unwrap_or(self.bytes.len());
        let command = join(0x0C, &[condition]);
        let place = self.starts.partition_point(|start| *start < at);
        for start in &mut self.starts[place..] {
            *start += command.len();
        }
        self.starts.insert(place, at);
        self.bytes.splice(at..at, command);
        self
    }

    /// 0D.
    pub fn bound(self, number: Bytes) -> Build {
        self.command(0x0D, &[&number])
    }

    /// Bytes as they are, for damaged models.
    pub fn raw(mut self, bytes: &[u8]) -> Build {
        self.bytes.extend_from_slice(bytes);
        self
    }

    /// 0E, and the bytes of the whole model.
    pub fn end(self) -> Bytes {
        self.command(0x0E, &[]).bytes
    }
}
