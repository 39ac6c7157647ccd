// Random cases of 01's domain: records that pass 1 to 12 and 14, texts in UTF-8. Half of the calls are made to fit their list and then
// perhaps spoilt, so that acceptance and every refusal are frequent; names come from a small pool and from the list itself.
use crate::case::Case;
use crate::judge::Judge;
use crate::judge::Report;
use crate::port::Port;
use oracle::standin::calls::Forms;
use oracle::standin::calls::Iterable;
use oracle::standin::calls::NoDouble;
use oracle::standin::calls::Other;

pub struct Xorshift(u64);

impl Xorshift {
    pub fn new(seed: u64) -> Self {
        let mut rng = Xorshift(seed.wrapping_mul(0x9e37_79b9_7f4a_7c15) | 1);
        (0..8).for_each(|_| {
            rng.next();
        });
        rng
    }

    fn next(&mut self) -> u64 {
        self.0 ^= self.0 << 13;
        self.0 ^= self.0 >> 7;
        self.0 ^= self.0 << 17;
        self.0.wrapping_mul(0x2545_f491_4f6c_dd1d)
    }

    fn below(&mut self, n: usize) -> usize {
        ((self.next() >> 32) as usize * n) >> 32
    }

    fn one_in(&mut self, n: usize) -> bool {
        self.below(n) == 0
    }

    fn pick<'a, T: ?Sized>(&mut self, xs: &[&'a T]) -> &'a T {
        xs[self.below(xs.len())]
    }
}

// Equal beginnings, stars, several bytes a character, a pair that collides under FNV-1a, a blank, the longest.
const POOL: [&str; 16] = [
    "a",
    "b",
    "c",
    "ab",
    "abc",
    "start",
    "minutes",
    "*args",
    "**kwargs",
    "***x",
    "é",
    "日本",
    "costarring",
    "liquid",
    "x y",
    "wwwwwwwwwwwwwwwwwwwwwwwwwwwwwwwwwwwwwwwwwwwwwwwwwwwwwwwwwwwwwwww",
];

const WHOLES: [u64; 7] = [0, 1, 30, u64::MAX, 1 << 63, (1 << 63) - 1, 1 << 32];
const REALS: [u64; 6] = [
    0,
    1 << 63,
    0x3ff0_0000_0000_0000,
    0x7ff0_0000_0000_0000,
    0x7ff8_0000_0000_0001,
    0xfff7_ffff_ffff_ffff,
];
const NUMBERS: [usize; 6] = [0, 1, 2, 3, 5, 64];

// A parameter as the generator keeps it.
#[derive(Clone, Copy)]
struct Parameter {
    code: u64,
    name: u64,
    positional: bool,
    nameable: bool,
}

pub struct Generator {
    rng: Xorshift,
    parameters: Vec<Parameter>,
    values: Vec<[u64; 2]>,
    pairs: Vec<[u64; 4]>,
    order: Vec<usize>,
}

impl Generator {
    pub fn new(seed: u64) -> Self {
        Generator {
            rng: Xorshift::new(seed),
            parameters: Vec::new(),
            values: Vec::new(),
            pairs: Vec::new(),
            order: Vec::new(),
        }
    }

    pub fn next(&mut self, case: &mut Case) {
        case.spec_area.clear();
        case.call_area.clear();
        if self.rng.one_in(500) {
            // Texts that start as far on as a text can.
            let most = 65_000 - self.rng.below(100);
            case.spec_area.resize(most - 20_000, b'.');
            case.call_area.resize(most - 36_000, b'.');
        }
        self.list(case);
        self.call(case);
        self.rest(case);
    }

    // A size: small as a rule, sometimes up to the limit, sometimes the limit itself.
    fn size(&mut self, usual: usize) -> usize {
        match self.rng.below(200) {
            0 => 64,
            1 | 2 => self.rng.below(65),
            3..=9 => self.rng.below(20),
            _ => self.rng.below(usual + 1),
        }
    }

    // The like for a remainder, which can have both limits.
    fn rest_size(&mut self, usual: usize) -> usize {
        match self.rng.one_in(150) {
            true => 128,
            false => self.size(usual),
        }
    }

    // Puts a text into an area, or finds the last one that it has of it: its payload.
    fn put(&mut self, area: &mut Vec<u8>, text: &[u8]) -> u64 {
        if self.rng.one_in(4) {
            let found = area.windows(text.len().max(1)).rposition(|w| w == text);
            if let Some(start) = found.filter(|_| area.len() < 400) {
                return (start << 8 | text.len()) as u64;
            }
        }
        let start = area.len();
        area.extend_from_slice(text);
        (start << 8 | text.len()) as u64
    }

    fn value(&mut self, area: &mut Vec<u8>, text_kind: u64) -> [u64; 2] {
        match self.rng.below(9) {
            0 => [1, 0],
            1 => [2, self.rng.below(2) as u64],
            2 | 3 => [3, WHOLES[self.rng.below(WHOLES.len())]],
            4 => [3, self.rng.below(100) as u64],
            5 => [4, REALS[self.rng.below(REALS.len())]],
            6 => [7, self.rng.next() >> 32],
            _ => {
                let text = match self.rng.below(6) {
                    0 => "",
                    _ => self.rng.pick(&POOL),
                };
                [text_kind, self.put(area, text.as_bytes())]
            }
        }
    }

    fn list(&mut self, case: &mut Case) {
        self.parameters.clear();
        let mut area = std::mem::take(&mut case.spec_area);
        case.spec_cells.clear();
        let function = match self.rng.one_in(8) {
            true => self.rng.pick(&POOL),
            false => "f",
        };
        case.spec_cells
            .push(self.put(&mut area, function.as_bytes()));
        let most = self.size(5);
        let steps = most + self.rng.below(3);
        let wild = self.rng.one_in(30);
        // 0 positional-only, 1 positional or named, 2 named-only, 3 no more.
        let mut style = 0;
        for _ in 0..steps.min(66) {
            let code = self.code(style, wild, most);
            if !matches!(code, 4 | 5) && 64 <= self.parameters.len() {
                continue;
            }
            self.step(case, &mut area, code, &mut style, wild);
        }
        case.spec_area = area;
    }

    // A code that may stand here, unless the list is a wild one.
    fn code(&mut self, style: u64, wild: bool, most: usize) -> u64 {
        if wild && self.rng.one_in(4) {
            return 1 + self.rng.below(7) as u64;
        }
        let mark = 20.max(most * 2);
        match self.rng.below(mark) {
            0..=2 if style == 0 => 4,
            3 | 4 if style < 2 => 5,
            5 | 6 if style < 2 => 6,
            7 if style < 3 => 7,
            8 if style == 0 => 4,
            _ if style == 3 => 4 + 4 * wild as u64,
            k => [1, 1, 2, 3, 3][k % 5],
        }
    }

    fn step(
        &mut self,
        case: &mut Case,
        area: &mut Vec<u8>,
        code: u64,
        style: &mut u64,
        wild: bool,
    ) {
        if *style == 3 && !wild || 7 < code {
            return;
        }
        let mut cells = [code, 0, 0, 0];
        if code <= 3 {
            cells[1] = self.name_for_list(area, 0 < *style, wild);
        }
        if code == 3 {
            [cells[2], cells[3]] = self.value(area, 5);
        }
        case.spec_cells.extend(cells);
        if code != 4 && code != 5 {
            self.parameters.push(Parameter {
                code,
                name: cells[1],
                positional: *style < 2 && code <= 3,
                nameable: 0 < *style && code <= 3,
            });
        }
        match code {
            4 => *style = (*style).max(1),
            5 | 6 => *style = (*style).max(2),
            7 => *style = 3,
            _ => {}
        }
    }

    // A name from the pool; one that is nameable gets a number where the pool's was taken, but not in a wild list.
    fn name_for_list(&mut self, area: &mut Vec<u8>, nameable: bool, wild: bool) -> u64 {
        let name = self.rng.pick(&POOL);
        let taken =
            |area: &[u8], p: &Parameter| p.nameable && text(area, p.name) == name.as_bytes();
        if nameable && !wild && self.parameters.iter().any(|p| taken(area, p)) {
            let fresh = format!("p{}", self.parameters.len());
            return self.put(area, fresh.as_bytes());
        }
        self.put(area, name.as_bytes())
    }

    fn call(&mut self, case: &mut Case) {
        self.values.clear();
        self.pairs.clear();
        let mut area = std::mem::take(&mut case.call_area);
        let fitting = !self.rng.one_in(3);
        match fitting {
            true => self.fitting(&case.spec_area, &mut area),
            false => self.any(&case.spec_area, &mut area),
        }
        if self.rng.one_in(if fitting { 4 } else { 8 }) {
            self.spoil(&case.spec_area, &mut area);
        }
        case.call_area = area;
        self.write_call(case);
    }

    // Values for some of the positional parameters, names for most of those that are left, and what the remainders may hold.
    fn fitting(&mut self, spec: &[u8], area: &mut Vec<u8>) {
        let positional = self.parameters.iter().filter(|p| p.positional).count();
        let needed = |p: &Parameter| p.positional && !p.nameable && p.code == 1;
        let least = self
            .parameters
            .iter()
            .rposition(needed)
            .map_or(0, |i| i + 1);
        let given = least + self.rng.below(positional - least + 1);
        let args = self.parameters.iter().any(|p| p.code == 6);
        let more = match args && given == positional {
            true => self.rest_size(3),
            false => 0,
        };
        for _ in 0..given + more {
            let value = self.value(area, 6);
            self.values.push(value);
        }
        for i in given..self.parameters.len() {
            let p = self.parameters[i];
            let wanted = if p.code == 1 { 60 } else { 2 };
            if p.nameable && !self.rng.one_in(wanted) {
                self.pair(area, text(spec, p.name));
            }
        }
        if self.parameters.iter().any(|p| p.code == 7) {
            self.unknown(area);
        }
        self.shuffle();
    }

    // Names for **kwargs: a few of the pool, and where there are many, new ones.
    fn unknown(&mut self, area: &mut Vec<u8>) {
        for i in 0..self.rest_size(2) {
            if i < 2 {
                let name = self.rng.pick(&POOL);
                self.pair(area, name.as_bytes());
            } else {
                self.pair(area, format!("k{i}").as_bytes());
            }
        }
    }

    fn any(&mut self, spec: &[u8], area: &mut Vec<u8>) {
        for _ in 0..self.size(4) {
            let value = self.value(area, 6);
            self.values.push(value);
        }
        for _ in 0..self.size(3) {
            self.any_pair(spec, area);
        }
    }

    fn any_pair(&mut self, spec: &[u8], area: &mut Vec<u8>) {
        if !self.parameters.is_empty() && !self.rng.one_in(3) {
            let p = self.parameters[self.rng.below(self.parameters.len())];
            if p.code <= 3 {
                return self.pair(area, text(spec, p.name));
            }
        }
        let name = self.rng.pick(&POOL);
        self.pair(area, name.as_bytes());
    }

    fn pair(&mut self, area: &mut Vec<u8>, name: &[u8]) {
        let name = self.put(area, name);
        let [kind, payload] = self.value(area, 6);
        self.pairs.push([6, name, kind, payload]);
    }

    fn spoil(&mut self, spec: &[u8], area: &mut Vec<u8>) {
        match self.rng.below(5) {
            0 => {
                self.values.pop();
            }
            1 => {
                let value = self.value(area, 6);
                self.values.push(value);
            }
            2 => {
                self.pairs.pop();
            }
            _ => self.any_pair(spec, area),
        }
        self.shuffle();
    }

    fn shuffle(&mut self) {
        for i in (1..self.pairs.len()).rev() {
            let j = self.rng.below(i + 1);
            self.pairs.swap(i, j);
        }
    }

    // Cuts the values and the pairs, and writes the record: both parts of each have at most 64, and the entries' keys differ.
    fn write_call(&mut self, case: &mut Case) {
        let star = match self.rng.below(16) {
            0 => 2,
            1..=9 => 0,
            _ => 1,
        };
        let double = match self.rng.below(16) {
            0 => 2,
            1..=8 => 0,
            _ => 1,
        };
        let p = self.cut(self.values.len(), star == 1);
        let n = self.cut(self.pairs.len(), double == 1);
        let s = (self.values.len() - p).min(if star == 1 { 64 } else { 0 });
        self.keys(&case.call_area, n, double == 1);
        let cells = &mut case.call_cells;
        cells.clear();
        cells.extend([
            p as u64,
            n as u64,
            star,
            s as u64,
            double,
            self.order.len() as u64,
        ]);
        cells.extend(self.values[..p].iter().flatten());
        cells.extend(self.pairs[..n].iter().flatten());
        cells.extend(self.values[p..p + s].iter().flatten());
        for &i in &self.order {
            let mut entry = self.pairs[i];
            if entry[0] == 3 {
                entry[1] = i as u64;
            }
            cells.extend(entry);
        }
    }

    // How many are written out: all, as far as 64 go, where the rest has no place.
    fn cut(&mut self, all: usize, spread: bool) -> usize {
        match spread && !(64 < all && self.rng.one_in(2)) {
            true => self.rng.below(all.min(64) + 1),
            false => all.min(64),
        }
    }

    // The pairs from `n` on that become entries, in `order`: those with new keys. Now and then a key is made a number or empty, and a
    // written name is made another's.
    fn keys(&mut self, area: &[u8], n: usize, spread: bool) {
        self.order.clear();
        if 1 < n && self.rng.one_in(40) {
            let (i, j) = (self.rng.below(n), self.rng.below(n));
            self.pairs[i][1] = self.pairs[j][1];
        }
        if !spread {
            return;
        }
        let spoilt = self.rng.one_in(12);
        for i in n..self.pairs.len() {
            if spoilt && self.rng.one_in(2) {
                match self.rng.below(3) {
                    0 => self.pairs[i][1] &= !255,
                    1 if 0 < n => self.pairs[i][1] = self.pairs[self.rng.below(n)][1],
                    _ => self.pairs[i][0] = 3,
                }
            }
            let key = self.pairs[i];
            let same = |&j: &usize| {
                let other = self.pairs[j];
                key[0] == 6 && other[0] == 6 && text(area, key[1]) == text(area, other[1])
            };
            if self.order.len() < 64 && !self.order.iter().any(same) {
                self.order.push(i);
            }
        }
    }

    // How stars are given to the Rust, the accessors' numbers, the reader's slots.
    fn rest(&mut self, case: &mut Case) {
        case.forms = Forms {
            star: [Iterable::List, Iterable::Tuple, Iterable::Keys][self.rng.below(3)],
            no_star: [Other::Text, Other::Number][self.rng.below(2)],
            no_double: [NoDouble::List, NoDouble::Text, NoDouble::Number][self.rng.below(3)],
        };
        let usual = match self.rng.one_in(20) {
            true => NUMBERS.len(),
            false => 5,
        };
        case.required = NUMBERS[self.rng.below(usual)];
        case.more = NUMBERS[self.rng.below(usual)];
        case.board_len = 896 + self.rng.below(4);
        case.fill = self.rng.next();
        case.slots.clear();
        for _ in 0..self.rng.below(8) {
            let cell = match self.rng.below(3) {
                0 => 0,
                1 => self.rng.below(10) as u64,
                _ => self.rng.next(),
            };
            case.slots.push(cell);
        }
        case.at = self.rng.below(5);
    }
}

fn text(area: &[u8], payload: u64) -> &[u8] {
    let start = (payload >> 8) as usize;
    &area[start..start + (payload & 255) as usize]
}

pub fn compare_random(
    seed: u64,
    count: u64,
    ours: &mut dyn Port,
    judge: &mut Judge,
    report: &mut Report,
) {
    let mut generator = Generator::new(seed);
    let mut case = Case::default();
    for _ in 0..count {
        generator.next(&mut case);
        judge.all(&case, ours, report);
    }
}
