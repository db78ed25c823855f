//! Small catalogues with drafts, and what they give, computed by hand.

use super::Refused;

/// A catalogue as text, as text what it folds to, and its listing, which has the standing numbers too.
pub struct Accepted {
    pub name: &'static str,
    pub text: &'static str,
    pub folded: &'static str,
    pub listing: &'static str,
}

/// Words that are refused.
pub struct Wrong {
    pub name: &'static str,
    pub words: &'static [u32],
    pub refused: Refused,
}

pub const ACCEPTED: [Accepted; 15] = [
    Accepted {
        name: "all drafts",
        text: "1 1 1 ; 2 ; draft\n2 1 1 ; -2 ; draft\n",
        folded: "1 1 1 ; 2 ; draft\n",
        listing: "2 1\n1 1 0 0\nv 2\n2 1 0 0\n",
    },
    Accepted {
        name: "a draft first",
        text: "1 1 1 ; 2 ; draft\n2 1 1 ; -2\n3 1 1 ; 2\n",
        folded: "2 1 1 ; -2\n",
        listing: "3 1\n1 2 0 0\n2 2 0 0\nv -2\n3 2 0 0\n",
    },
    Accepted {
        name: "a draft last",
        text: "1 1 1 ; 2\n2 1 1 ; -2 ; draft\n",
        folded: "1 1 1 ; 2\n",
        listing: "2 1\n1 1 0 0\nv 2\n2 1 0 0\n",
    },
    // 3 stands for 1, behind 2
    Accepted {
        name: "drafts only in one of two lattices, with a checked entry",
        text: "1 1 1 ; 2 ; draft\n2 1 1 ; 3\n3 1 1 ; -2\n4 1 1 ; -3\n",
        folded: "2 1 1 ; 3\n3 1 1 ; -2\n",
        listing: "4 2\n1 3 0 0\n2 2 0 0\nv 3\n3 3 0 0\nv -2\n4 2 0 0\n",
    },
    Accepted {
        name: "drafts only in one of two lattices, without one",
        text: "1 1 1 ; 2 ; draft\n2 1 1 ; 3\n3 1 1 ; -2 ; draft\n4 1 1 ; -3\n",
        folded: "1 1 1 ; 2 ; draft\n2 1 1 ; 3\n",
        listing: "4 2\n1 1 0 0\nv 2\n2 2 0 0\nv 3\n3 1 0 0\n4 2 0 0\n",
    },
    Accepted {
        name: "a standing draft with a see word",
        text: "1 1 1 ; 2 ; draft ; 2\n2 1 1 ; 3\n",
        folded: "1 1 1 ; 2 ; draft ; 2\n2 1 1 ; 3\n",
        listing: "2 2\n1 1 2 0\nv 2\n2 2 0 0\nv 3\n",
    },
    Accepted {
        name: "a standing draft with the see word of another",
        text: "1 1 1 ; 2 ; draft\n2 1 1 ; 3\n3 1 1 ; -2 ; draft ; 2\n",
        folded: "1 1 1 ; 2 ; draft ; 2\n2 1 1 ; 3\n",
        listing: "3 2\n1 1 0 0\nv 2\n2 2 0 0\nv 3\n3 1 2 0\n",
    },
    // 1, a draft, is before 2 and refers to 3
    Accepted {
        name: "the own see word before that of an earlier draft",
        text: "1 1 1 ; 2 ; draft ; 3\n2 1 1 ; -2 ; 4\n3 1 1 ; 3\n4 1 1 ; 5\n",
        folded: "2 1 1 ; -2 ; 4\n3 1 1 ; 3\n4 1 1 ; 5\n",
        listing: "4 3\n1 2 3 0\n2 2 4 0\nv -2\n3 3 0 0\nv 3\n4 4 0 0\nv 5\n",
    },
    // 2 refers to 1, which it stands for
    Accepted {
        name: "the see word of a draft where the own leads back",
        text: "1 1 1 ; 2 ; draft ; 3\n2 1 1 ; -2 ; 1\n3 1 1 ; 3\n",
        folded: "2 1 1 ; -2 ; 3\n3 1 1 ; 3\n",
        listing: "3 2\n1 2 3 0\n2 2 0 0\nv -2\n3 3 0 0\nv 3\n",
    },
    Accepted {
        name: "the see word of a draft before that of a later entry",
        text: "1 1 1 ; 2 ; draft ; 4\n2 1 1 ; -2\n3 1 1 ; 2 ; 5\n4 1 1 ; 3\n5 1 1 ; 5\n",
        folded: "2 1 1 ; -2 ; 4\n4 1 1 ; 3\n5 1 1 ; 5\n",
        listing: "5 3\n1 2 4 0\n2 2 0 0\nv -2\n3 2 5 0\n4 4 0 0\nv 3\n5 5 0 0\nv 5\n",
    },
    Accepted {
        name: "the see word of an entry before that of a later draft",
        text: "1 1 1 ; 2\n2 1 1 ; -2 ; 5\n3 1 1 ; 2 ; draft ; 4\n4 1 1 ; 3\n5 1 1 ; 5\n",
        folded: "1 1 1 ; 2 ; 5\n4 1 1 ; 3\n5 1 1 ; 5\n",
        listing: "5 3\n1 1 0 0\nv 2\n2 1 5 0\n3 1 4 0\n4 4 0 0\nv 3\n5 5 0 0\nv 5\n",
    },
    // 3 stands for 1
    Accepted {
        name: "a see word that names a draft",
        text: "1 1 1 ; 2 ; draft\n2 1 1 ; 3 ; 1\n3 1 1 ; -2\n",
        folded: "2 1 1 ; 3 ; 3\n3 1 1 ; -2\n",
        listing: "3 2\n1 3 0 0\n2 2 3 0\nv 3\n3 3 0 0\nv -2\n",
    },
    Accepted {
        name: "a circle of drafts",
        text: "1 1 1 ; 2 ; draft ; 2\n2 1 1 ; 3 ; draft ; 1\n3 1 1 ; -3\n",
        folded: "1 1 1 ; 2 ; draft ; 3\n3 1 1 ; -3 ; 1\n",
        listing: "3 2\n1 1 3 0\nv 2\n2 3 1 0\n3 3 0 0\nv -3\n",
    },
    // a checked entry of another m is no checked entry of the lattice
    Accepted {
        name: "drafts of one m, and a checked entry of another",
        text: "1 1 1 ; 2 ; draft\n2 1 2 ; 2 0\n3 1 1 ; -2 ; draft ; 2\n",
        folded: "1 1 1 ; 2 ; draft ; 2\n2 1 2 ; 2 0\n",
        listing: "3 2\n1 1 0 0\nv 2\n2 2 0 0\nv 2 0\n3 1 2 0\n",
    },
    // 12 stands for 7, with its own vectors
    Accepted {
        name: "two vectors",
        text: "7 2 2 ; 1 0 4 1 ; draft ; 9\n9 2 2 ; 2 0 0 3 ; draft ; 7\n12 2 2 ; 0 1 1 0\n",
        folded: "9 2 2 ; 2 0 0 3 ; draft ; 12\n12 2 2 ; 0 1 1 0 ; 9\n",
        listing: "3 2\n7 12 9 1\n9 9 12 1\nv 2 0\nv 0 3\n12 12 0 1\nv 0 1\nv 1 0\n",
    },
];

const fn wrong(name: &'static str, words: &'static [u32], number: u64, place: usize) -> Wrong {
    Wrong {
        name,
        words,
        refused: Refused { number, place },
    }
}

/// A head with the number 1, for one vector of one coordinate, then its coordinate 2.
const ONE: u32 = 0x10000111;
const TWO: u32 = 0x20004E22;
/// A see word to it, and the end word.
const SEE: u32 = 0x30000001;
const END: u32 = 0x40000001;
const MARK: u32 = 0x50000001;
/// No marks, by their loads.
const ZERO: u32 = 0x50000000;
const LOAD_2: u32 = 0x50000002;
const GREATEST: u32 = 0x5FFFFFFF;

#[rustfmt::skip]
pub const WRONG: [Wrong; 34] = [
    wrong("load 0", &[ONE, TWO, ZERO, END], 18, 2),
    wrong("load 2", &[ONE, TWO, LOAD_2, END], 18, 2),
    wrong("the greatest load", &[ONE, TWO, GREATEST, END], 18, 2),
    wrong("load 0 before a see word", &[ONE, TWO, ZERO, SEE, END], 18, 2),
    wrong("load 2 before a mark", &[ONE, TWO, LOAD_2, MARK, END], 18, 2),
    wrong("load 2 as the last word", &[ONE, TWO, LOAD_2], 18, 2),
    wrong("a mark before the first head", &[MARK, ONE, TWO, END], 10, 0),
    wrong("a mark before a head", &[ONE, TWO, SEE, MARK, ONE], 10, 3),
    wrong("a mark between head and coordinates", &[ONE, MARK, TWO, END], 10, 1),
    wrong("a mark among the coordinates", &[0x10000112, TWO, MARK, TWO, END], 10, 2),
    wrong("a mark between two vectors", &[0x10000121, TWO, MARK, TWO, END], 10, 2),
    wrong("a mark twice", &[ONE, TWO, MARK, MARK, END], 10, 3),
    wrong("a mark after the see word", &[ONE, TWO, SEE, MARK, END], 10, 3),
    wrong("a mark before and after it", &[ONE, TWO, MARK, SEE, MARK, END], 10, 4),
    wrong("a mark after the end word", &[ONE, TWO, END, MARK], 14, 3),
    wrong("a mark after the only word", &[0x40000000, MARK], 14, 1),
    wrong("a mark alone", &[MARK], 10, 0),
    wrong("a mark for the end word", &[ONE, TWO, MARK], 10, 3),
    wrong("load 0 before the first head", &[ZERO, ONE, TWO, END], 10, 0),
    wrong("load 2 between head and coordinates", &[ONE, LOAD_2, TWO, END], 10, 1),
    wrong("load 2 among the coordinates", &[0x10000112, TWO, LOAD_2, TWO, END], 10, 2),
    wrong("load 2 after a mark", &[ONE, TWO, MARK, LOAD_2, END], 10, 3),
    wrong("load 0 after a mark", &[ONE, TWO, MARK, ZERO, END], 10, 3),
    wrong("load 2 after the see word", &[ONE, TWO, SEE, LOAD_2, END], 10, 3),
    wrong("load 0 after the end word", &[ONE, TWO, END, ZERO], 14, 3),
    wrong("a coordinate after a mark", &[ONE, TWO, MARK, TWO, END], 10, 3),
    wrong("the length before load 0", &[ONE, 0x20009C41, ZERO, END], 4, 1),
    wrong("load 0 before the zero vector", &[ONE, 0x20004E20, ZERO, END], 18, 2),
    wrong("load 0 before a lost see word", &[ONE, TWO, ZERO, 0x30000002, END], 18, 2),
    wrong("the zero vector of a draft", &[ONE, 0x20004E20, MARK, END], 5, 0),
    wrong("a lost see word of a draft", &[ONE, TWO, MARK, 0x30000002, END], 12, 3),
    wrong("a draft's number again", &[ONE, TWO, MARK, ONE, TWO, 0x40000002], 11, 3),
    wrong("no vectors after a draft", &[ONE, TWO, MARK, 0x10000201, END], 1, 3),
    wrong("a draft not counted", &[ONE, TWO, MARK, 0x40000000], 13, 3),
];
