//! Books as bytes: small ones, two with real names, random ones.

use crate::random::Random;

#[derive(Clone)]
pub struct Book {
    pub flags: u8,
    pub default: u8,
    pub directives: Vec<String>,
    /// Rule and name.
    pub clauses: Vec<(u8, String)>,
}

/// The book of all OpenMP names.
const OPENMP: &[u8] = include_bytes!("../../books/openmp.drb");

const DIRECTIVES: [&str; 16] = [
    "parallel",
    "parallel for",
    "for",
    "do",
    "end parallel do",
    "endparalleldo",
    "target",
    "target teams",
    "target teams distribute parallel for simd",
    "target enter data",
    "taskloop",
    "barrier",
    "cancellation point",
    "declare target",
    "end declare target",
    "loop",
];

const CLAUSES: [(u8, &str); 14] = [
    (0, "nowait"),
    (1, "if"),
    (1, "private"),
    (1, "reduction"),
    (1, "depend"),
    (1, "map"),
    (2, "ordered"),
    (2, "async"),
    (2, "self"),
    (1, "num_threads"),
    (0, "untied"),
    (3, "ext_clause"),
    (1, "schedule"),
    (2, "nontemporal"),
];

impl Book {
    /// One directive `p`, and a clause for each rule: `a`, `i`, `f`, `u`.
    pub fn small(flags: u8, default: u8) -> Self {
        let clauses = [(0, "a"), (1, "i"), (2, "f"), (3, "u")];
        Self::of(flags, default, &["p"], &clauses)
    }

    /// Names of 10, 13, 18 and 20 bytes: what is asked of eight bytes at once ends with them, overlaps, or takes two turns and three.
    pub fn long(flags: u8, default: u8) -> Self {
        let directives = ["ab cdefghi", "abc defghij k", "a bcdefgh ijklmn o"];
        let clauses = [(0, "abcdefghij"), (1, "abc_defghijk_lmnopqr")];
        Self::of(flags, default, &directives, &clauses)
    }

    pub fn real(flags: u8, default: u8) -> Self {
        Self::of(flags, default, &DIRECTIVES, &CLAUSES)
    }

    pub fn openmp(flags: u8, default: u8) -> Self {
        let mut rest = &OPENMP[9..];
        let mut entry = |lead: usize| {
            let (rule, length) = (rest[0], usize::from(rest[lead]));
            let (entry, after) = rest.split_at(lead + 1 + length);
            rest = after;
            (rule, String::from_utf8_lossy(&entry[lead + 1..]).into_owned())
        };
        Self {
            flags,
            default,
            directives: (0..OPENMP[7]).map(|_| entry(0).1).collect(),
            clauses: (0..OPENMP[8]).map(|_| entry(1)).collect(),
        }
    }

    /// Names that are beginnings of others, or others without their blanks.
    pub fn tangled(flags: u8, default: u8, random: &mut Random) -> Self {
        let all = [
            "t", "t e", "t e d", "te d", "ted", "a", "ab", "a b", "a ba", "ab a", "aba", "a b c", "1_", "_", "e d",
        ];
        let mut directives: Vec<&str> = all.into_iter().filter(|_| random.percent(30)).collect();
        if directives.is_empty() {
            directives.push(random.pick(&all));
        }
        let clauses = [(0, "a"), (1, "e"), (2, "d"), (3, "b")];
        Self::of(flags, default, &directives, &clauses[..random.between(0, 4)])
    }

    /// Names of letters, one after the other, none twice.
    pub fn random(random: &mut Random) -> Self {
        let directives = (0..random.between(1, 5)).map(|index| {
            let words = (0..random.between(1, 3)).map(|_| random_word(random));
            let words: Vec<String> = words.collect();
            format!("{}{index}", words.join(" "))
        });
        let directives = directives.collect();
        let clauses = (0..random.between(0, 5))
            .map(|index| (random.below(4) as u8, format!("{}{index}", random_word(random))))
            .collect();
        Self {
            flags: random.below(4) as u8,
            default: random.below(4) as u8,
            directives,
            clauses,
        }
    }

    fn of(flags: u8, default: u8, directives: &[&str], clauses: &[(u8, &str)]) -> Self {
        let clauses = clauses.iter().map(|(rule, name)| (*rule, name.to_string()));
        Self {
            flags,
            default,
            directives: directives.iter().map(|name| name.to_string()).collect(),
            clauses: clauses.collect(),
        }
    }

    pub fn is_fortran(&self) -> bool {
        self.flags & 1 == 1
    }

    /// The same with clause names appended that it doesn't have.
    pub fn with_more(&self, random: &mut Random) -> Self {
        let mut more = self.clone();
        for name in ["z", "x1", "b_", "nowait2", "q"] {
            let is_new = more.clauses.iter().all(|(_, old)| !old.eq_ignore_ascii_case(name));
            if is_new && random.percent(60) {
                more.clauses.push((random.below(4) as u8, name.to_string()));
            }
        }
        more
    }

    pub fn bytes(&self) -> Vec<u8> {
        let mut bytes = b"DRB\x00\x01".to_vec();
        bytes.extend([self.flags, self.default]);
        bytes.extend([self.directives.len() as u8, self.clauses.len() as u8]);
        for name in &self.directives {
            bytes.push(name.len() as u8);
            bytes.extend(name.as_bytes());
        }
        for (rule, name) in &self.clauses {
            bytes.extend([*rule, name.len() as u8]);
            bytes.extend(name.as_bytes());
        }
        bytes
    }
}

fn random_word(random: &mut Random) -> String {
    (0..random.between(1, 6))
        .map(|_| char::from(random.pick(b"abcXYZ09_")))
        .collect()
}
