//! The examples of documents 000, 001 and 003, with the answers that those papers state. Their axioms are
//! normalised by hand: each becomes a few records, in document 01's words, and a record belongs to its axiom.
//!
//! An axiom with several parts on the right becomes a record for each part. "A is B and some r C" (≡) becomes
//! "A under B" and "A under some r C", and for the way back "some r C under N" with a new name N, and "B and N
//! under A". The empty role chain under r (ϵ) becomes "everything r itself". What has no record is left out: the
//! bottom concept.

use noolukask_tests::calls;
use noolukask_tests::compared::{module, set};
use noolukask_tests::packs::{marks, question};
use noolukask_tests::rules::Question;

/// The records of each axiom, by the number that it has in its paper.
type Axioms<'a> = &'a [(u32, &'a [&'a str])];

/// A paper's example as a pack, with the axiom of each record.
struct Example<'a> {
    concepts: Vec<&'a str>,
    roles: &'a [&'a str],
    records: Vec<[u8; 4]>,
    axioms: Vec<u32>,
}

impl<'a> Example<'a> {
    fn new(roles: &'a [&'a str], axioms: Axioms<'a>) -> Example<'a> {
        let mut example = Example { concepts: Vec::new(), roles, records: Vec::new(), axioms: Vec::new() };
        for &(axiom, records) in axioms {
            for words in records {
                let record = example.record(words);
                example.records.push(record);
                example.axioms.push(axiom);
            }
        }
        example
    }

    /// A record from its words.
    fn record(&mut self, words: &'a str) -> [u8; 4] {
        let list: Vec<&'a str> = words.split(' ').collect();
        match list[..] {
            ["some", r, a, "under", b] => [4, self.role(r), self.concept(a), self.concept(b)],
            [a, "under", "some", r, b] => [3, self.concept(a), self.role(r), self.concept(b)],
            [a, "and", b, "under", c] => [2, self.concept(a), self.concept(b), self.concept(c)],
            [r, "then", s, "under", t] => [6, self.role(r), self.role(s), self.role(t)],
            ["everything", r, "itself"] => [7, self.role(r), 0, 0],
            [r, "under", s] if self.roles.contains(&r) => [5, self.role(r), self.role(s), 0],
            [a, "under", b] => [1, self.concept(a), self.concept(b), 0],
            _ => panic!("no record: {words}"),
        }
    }

    fn role(&self, name: &str) -> u8 {
        self.roles.iter().position(|&role| role == name).expect("a role") as u8
    }

    /// The number of a concept, a new one the first time.
    fn concept(&mut self, name: &'a str) -> u8 {
        let known = self.concepts.iter().position(|&concept| concept == name);
        known.unwrap_or_else(|| {
            self.concepts.push(name);
            self.concepts.len() - 1
        }) as u8
    }

    /// Is a under b? All records are marked.
    fn question(&self, a: &str, b: &str) -> Question {
        let number =
            |name: &str| self.concepts.iter().position(|&concept| concept == name).expect("a concept") as u64;
        question(self.concepts.len() as u64, self.roles.len() as u64, &self.records, number(a), number(b))
    }

    /// The axioms, ascending, that have records at these places.
    fn axioms_of(&self, places: &[usize]) -> Vec<u32> {
        let mut axioms: Vec<u32> = places.iter().map(|&place| self.axioms[place]).collect();
        axioms.dedup();
        axioms
    }

    fn module(&self, a: &str) -> Vec<u32> {
        self.axioms_of(&module(&self.question(a, a)))
    }

    /// The axioms of the printed set, if a is under b.
    fn set(&self, a: &str, b: &str) -> Option<Vec<u32>> {
        set(&self.question(a, b)).map(|places| self.axioms_of(&places))
    }

    /// That a is under b has this one reason: it is the printed set, and without any record of it the goal
    /// is gone.
    fn only_reason(&self, a: &str, b: &str, axioms: &[u32]) {
        let q = self.question(a, b);
        let places = set(&q).expect("it follows");
        assert_eq!(self.axioms_of(&places), axioms, "{a} under {b}");
        for lost in places {
            assert_eq!(calls::verdict(&self.without(&q, |place| place == lost)), 0, "{a} under {b}");
        }
    }

    /// The question with the records struck that are named by their places.
    fn without(&self, q: &Question, struck: impl Fn(usize) -> bool) -> Question {
        Question { marks: marks((0..self.records.len()).filter(|&place| !struck(place))), ..q.clone() }
    }

    /// The place of a record.
    fn place(&mut self, words: &'a str) -> usize {
        let record = self.record(words);
        self.records.iter().position(|&other| other == record).expect("a record of the example")
    }
}

/// Document 000, figure 1: a faulty encoding by triplets. "At" names are for the parts with a site.
const AMPUTATION: Axioms = &[
    (1, &["AmpOfFinger under Amp", "AmpOfFinger under some site FingerS", "some site FingerS under At1",
        "Amp and At1 under AmpOfFinger"]),
    (2, &["AmpOfHand under Amp", "AmpOfHand under some site HandS", "some site HandS under At2",
        "Amp and At2 under AmpOfHand"]),
    (3, &["InjToFinger under Inj", "InjToFinger under some site FingerS", "some site FingerS under At3",
        "Inj and At3 under InjToFinger"]),
    (4, &["InjToHand under Inj", "InjToHand under some site HandS", "some site HandS under At4",
        "Inj and At4 under InjToHand"]),
    (5, &["FingerE under FingerS"]),
    (6, &["FingerP under FingerS", "FingerP under some part FingerE"]),
    (7, &["HandE under HandS"]),
    (8, &["HandP under HandS", "HandP under some part HandE"]),
    (9, &["ULimbE under ULimbS"]),
    (10, &["ULimbP under ULimbS", "ULimbP under some part ULimbE"]),
    (11, &["FingerS under HandP"]),
    (12, &["HandS under ULimbP"]),
];

#[test]
fn document_000_figure_1() {
    let example = Example::new(&["site", "part"], AMPUTATION);
    // Subsumptions (1) and (2): "the only MinA" of each.
    example.only_reason("AmpOfFinger", "AmpOfHand", &[1, 2, 8, 11]);
    example.only_reason("InjToFinger", "InjToHand", &[3, 4, 8, 11]);
    // Not the other way round.
    assert_eq!(example.set("AmpOfHand", "AmpOfFinger"), None);
    // By definition 3. Of axioms 3 and 4 it is the records that put a site into At3 and At4: no injury is
    // reached. Of the finger only its structure is.
    assert_eq!(example.module("AmpOfFinger"), [1, 2, 3, 4, 7, 8, 9, 10, 11, 12]);
    assert_eq!(example.module("HandS"), [9, 10, 12]);
}

#[test]
fn document_000_a_finger_is_part_of_the_upper_limb() {
    // "FingerE under some part ULimbE" is asked by a name for its right side.
    let asked: Axioms = &[(13, &["some part ULimbE under PartOfULimb"])];
    let axioms = [AMPUTATION, asked].concat();
    let example = Example::new(&["site", "part"], &axioms);
    example.only_reason("FingerE", "PartOfULimb", &[5, 8, 10, 11, 12, 13]);
}

#[test]
fn document_000_entities_instead_of_structures() {
    // "Using the entity concepts instead of the structure concepts in the axioms 1 and 2 would have avoided
    // this problem."
    let mended: Axioms = &[
        (1, &["AmpOfFinger under Amp", "AmpOfFinger under some site FingerE", "some site FingerE under At1",
            "Amp and At1 under AmpOfFinger"]),
        (2, &["AmpOfHand under Amp", "AmpOfHand under some site HandE", "some site HandE under At2",
            "Amp and At2 under AmpOfHand"]),
    ];
    let axioms = [mended, &AMPUTATION[2..]].concat();
    let example = Example::new(&["site", "part"], &axioms);
    assert_eq!(example.set("AmpOfFinger", "AmpOfHand"), None);
    example.only_reason("InjToFinger", "InjToHand", &[3, 4, 8, 11]);
}

/// Document 001, table 2, without axiom 10, which has the bottom concept. "In" names are for the parts with a
/// location. In axiom 11 "Viral" is the whole left side.
const MEDICAL: Axioms = &[
    (1, &["Appendix under BodyPart", "Appendix under some part-of Heart"]),
    (2, &["Endocardium under Tissue", "Endocardium under some part-of HeartValve",
        "Endocardium under some part-of HeartWall"]),
    (3, &["HeartValve under BodyValve", "HeartValve under some part-of Heart"]),
    (4, &["HeartWall under BodyWall", "HeartWall under some part-of Heart"]),
    (5, &["Appendicitis under Inflammation", "Appendicitis under some has-location Appendix",
        "some has-location Appendix under In5", "Inflammation and In5 under Appendicitis"]),
    (6, &["Endocarditis under Inflammation", "Endocarditis under some has-location Endocardium",
        "some has-location Endocardium under In6", "Inflammation and In6 under Endocarditis"]),
    (7, &["Pancarditis under Inflammation", "Pancarditis under some has-exact-location Heart",
        "some has-exact-location Heart under In7", "Inflammation and In7 under Pancarditis"]),
    (8, &["Inflammation under Disease", "Inflammation under some acts-on Tissue"]),
    (9, &["HeartDisease under Disease", "HeartDisease under some has-location Heart",
        "some has-location Heart under In9", "Disease and In9 under HeartDisease"]),
    (11, &["some causative-agent Virus under Caused", "HeartDisease and Caused under Viral",
        "Viral under ViralDisease", "Viral under some has-state NeedsTreatment"]),
    (12, &["everything part-of itself"]),
    (13, &["part-of then part-of under part-of"]),
    (14, &["has-location then part-of under has-location"]),
    (15, &["has-exact-location under has-location"]),
];

const MEDICAL_ROLES: &[&str] =
    &["part-of", "has-location", "has-exact-location", "acts-on", "causative-agent", "has-state"];

#[test]
fn document_001_table_2() {
    let mut example = Example::new(MEDICAL_ROLES, MEDICAL);
    // The starred axioms, but for the one that is left out.
    assert_eq!(example.module("Endocarditis"), [2, 3, 4, 6, 8, 9, 12, 13, 14]);
    // Of the two justifications the printed one lacks what stands first, the heart valve.
    let q = example.question("Endocarditis", "HeartDisease");
    let wall = set(&q).expect("it follows");
    assert_eq!(example.axioms_of(&wall), [2, 4, 6, 8, 9, 14]);
    // The two share all but two records: striking one of those two leaves the other justification, striking
    // any other leaves none.
    let own = ["Endocardium under some part-of HeartWall", "HeartWall under some part-of Heart"]
        .map(|words| example.place(words));
    for &lost in &wall {
        let less = example.without(&q, |place| place == lost);
        let other = set(&less);
        assert_eq!(other.is_some(), own.contains(&lost));
        if let Some(valve) = other {
            assert_eq!(example.axioms_of(&valve), [2, 3, 6, 8, 9, 14]);
            // Both are gone when a record of this one goes as well.
            for also in valve {
                assert_eq!(set(&example.without(&less, |place| [lost, also].contains(&place))), None);
            }
        }
    }
    // Struck as a whole, axiom 4 leaves the first justification and axiom 3 the second.
    let axioms = example.axioms.clone();
    let struck = |axiom: u32| set(&example.without(&q, |place| axioms[place] == axiom));
    assert_eq!(struck(4).map(|set| example.axioms_of(&set)), Some(vec![2, 3, 6, 8, 9, 14]));
    assert_eq!(struck(3), Some(wall));
}

#[test]
fn document_001_subsumption_1() {
    let example = Example::new(MEDICAL_ROLES, MEDICAL);
    // "The only justification" of the intended error.
    example.only_reason("Appendicitis", "HeartDisease", &[1, 5, 8, 9, 14]);
    // The module of the valve alone says nothing of diseases.
    assert_eq!(example.module("HeartValve"), [3, 12, 13]);
    // Nothing leads on from a virus; that everything is part of itself is said of it too.
    assert_eq!(example.module("Virus"), [12, 13]);
}

/// Document 003, figure 2. "At" names are for the parts with a location.
const PARTHOOD: Axioms = &[
    (1, &["Finger under BodyPart", "Finger under some proper-part-of Hand"]),
    (2, &["Hand under BodyPart", "Hand under some proper-part-of UpperLimb"]),
    (3, &["UpperLimb under BodyPart"]),
    (4, &["AmputationOfFinger under Amputation", "AmputationOfFinger under some has-exact-location Finger",
        "some has-exact-location Finger under At4", "Amputation and At4 under AmputationOfFinger"]),
    (5, &["AmputationOfHand under Amputation", "AmputationOfHand under some has-exact-location Hand",
        "some has-exact-location Hand under At5", "Amputation and At5 under AmputationOfHand"]),
    (6, &["AmputationOfUpperLimb under Amputation",
        "AmputationOfUpperLimb under some has-exact-location UpperLimb",
        "some has-exact-location UpperLimb under At6", "Amputation and At6 under AmputationOfUpperLimb"]),
    (7, &["InjuryToFinger under Injury", "InjuryToFinger under some has-location Finger",
        "some has-location Finger under At7", "Injury and At7 under InjuryToFinger"]),
    (8, &["InjuryToHand under Injury", "InjuryToHand under some has-location Hand",
        "some has-location Hand under At8", "Injury and At8 under InjuryToHand"]),
    (9, &["InjuryToUpperLimb under Injury", "InjuryToUpperLimb under some has-location UpperLimb",
        "some has-location UpperLimb under At9", "Injury and At9 under InjuryToUpperLimb"]),
    (10, &["proper-part-of then proper-part-of under proper-part-of"]),
    (11, &["proper-part-of under part-of"]),
    (12, &["part-of then part-of under part-of"]),
    (13, &["everything part-of itself"]),
    (14, &["has-exact-location under has-location"]),
    (15, &["has-location then proper-part-of under has-location"]),
];

const PARTHOOD_ROLES: &[&str] = &["proper-part-of", "part-of", "has-exact-location", "has-location"];

#[test]
fn document_003_figure_2() {
    let mut example = Example::new(PARTHOOD_ROLES, PARTHOOD);
    // An injury to the finger is one to the hand and to the upper limb.
    example.only_reason("InjuryToFinger", "InjuryToHand", &[1, 7, 8, 15]);
    example.only_reason("InjuryToHand", "InjuryToUpperLimb", &[2, 8, 9, 15]);
    example.only_reason("InjuryToFinger", "InjuryToUpperLimb", &[1, 2, 7, 9, 15]);
    // An amputation of the finger is none of the hand or of the upper limb: an exact location is not inherited.
    assert_eq!(example.set("AmputationOfFinger", "AmputationOfHand"), None);
    assert_eq!(example.set("AmputationOfFinger", "AmputationOfUpperLimb"), None);
    // Even so it is located at the hand.
    example.only_reason("AmputationOfFinger", "At8", &[1, 4, 8, 14, 15]);
    // No amputation is reached from an injury: it has no exact location.
    assert_eq!(example.module("InjuryToFinger"), [1, 2, 3, 7, 8, 9, 10, 11, 12, 13, 15]);
    // The upper limb is part of nothing: its module says that it is a body part and that part-of is reflexive and
    // transitive.
    assert_eq!(example.module("UpperLimb"), [3, 12, 13]);
    // Without axiom 15 nothing is inherited.
    let right_identity = example.place("has-location then proper-part-of under has-location");
    let q = example.question("InjuryToFinger", "InjuryToHand");
    assert_eq!(set(&example.without(&q, |place| place == right_identity)), None);
}

#[test]
fn document_003_triplets_defined_by_parthood() {
    // HandS is "some part-of Hand", HandP "some proper-part-of Hand", and the same for the finger.
    let triplets: Axioms = &[
        (16, &["FingerS under some part-of Finger", "some part-of Finger under FingerS"]),
        (17, &["FingerP under some proper-part-of Finger", "some proper-part-of Finger under FingerP"]),
        (18, &["HandS under some part-of Hand", "some part-of Hand under HandS"]),
        (19, &["HandP under some proper-part-of Hand", "some proper-part-of Hand under HandP"]),
    ];
    let left_identity: Axioms = &[(20, &["part-of then proper-part-of under proper-part-of"])];
    let extended = [PARTHOOD, triplets].concat();
    let example = Example::new(PARTHOOD_ROLES, &extended);
    // "We can only conclude" that FingerS is under HandS, "but not" that it is under HandP.
    example.only_reason("FingerS", "HandS", &[1, 11, 12, 16, 18]);
    assert_eq!(example.set("FingerS", "HandP"), None);
    // S is for "both entire objects and their parts": by axiom 13 the entire hand too. P is for "the proper parts".
    example.only_reason("Hand", "HandS", &[13, 18]);
    example.only_reason("Finger", "HandS", &[1, 11, 18]);
    example.only_reason("HandP", "HandS", &[11, 18, 19]);
    example.only_reason("Finger", "HandP", &[1, 19]);
    assert_eq!(example.set("Hand", "HandP"), None);
    // Not all that is in the structure is the entire hand.
    assert_eq!(example.set("HandS", "Hand"), None);
    // "In order to obtain the second subsumption, we would need to add" the left identity.
    let cyclic = [&extended[..], left_identity].concat();
    let example = Example::new(PARTHOOD_ROLES, &cyclic);
    example.only_reason("FingerS", "HandP", &[1, 16, 19, 20]);
}

/// Document 003's way with a site. "HeartStructure" is the heart and its parts, as HandS is the hand and its parts.
/// Concepts by their numbers: 0 ValveRepair, 1 Valve, 2 Heart, 3 AtHeart, 4 HeartStructure, 5 StructureProcedure,
/// 6 HeartRepair. Roles: 0 site, 1 part-of.
const SITES: Axioms = &[
    (1, &["ValveRepair under some site Valve"]),
    (2, &["Valve under some part-of Heart"]),
    (3, &["some site Heart under AtHeart"]),
    (4, &["some part-of Heart under HeartStructure"]),
    (5, &["some site HeartStructure under StructureProcedure"]),
    (6, &["HeartRepair under some site Heart"]),
    (7, &["everything part-of itself"]),
    (8, &["site then part-of under site"]),
];

#[test]
fn document_003_a_whole_among_its_own_parts() {
    let mut example = Example::new(&["site", "part-of"], SITES);
    let concepts = "ValveRepair Valve Heart AtHeart HeartStructure StructureProcedure HeartRepair";
    assert_eq!(example.concepts, concepts.split(' ').collect::<Vec<_>>());
    let records: [[u8; 4]; 8] = [
        [3, 0, 0, 1], [3, 1, 1, 2], [4, 0, 2, 3], [4, 1, 2, 4], [4, 0, 4, 5], [3, 6, 0, 2], [7, 1, 0, 0], [6, 0, 1, 0],
    ];
    assert_eq!(example.records, records);
    // What is sited in a part is sited in the whole.
    example.only_reason("ValveRepair", "AtHeart", &[1, 2, 3, 8]);
    // The whole is among its own parts: without axiom 7 the heart is not in its structure.
    example.only_reason("Heart", "HeartStructure", &[4, 7]);
    example.only_reason("HeartRepair", "StructureProcedure", &[4, 5, 6, 7]);
    // The valve is a part by axiom 2.
    example.only_reason("Valve", "HeartStructure", &[2, 4]);
    example.only_reason("ValveRepair", "StructureProcedure", &[1, 2, 4, 5]);
    let itself = example.place("everything part-of itself");
    let without = |a: &str, b: &str| set(&example.without(&example.question(a, b), |place| place == itself));
    assert_eq!(without("Heart", "HeartStructure"), None);
    assert_eq!(without("HeartRepair", "StructureProcedure"), None);
    assert_eq!(without("ValveRepair", "AtHeart"), Some(vec![0, 1, 2, 7]));
    assert_eq!(without("Valve", "HeartStructure"), Some(vec![1, 3]));
    // A part is no whole, and the heart is no procedure.
    assert_eq!([example.set("Heart", "Valve"), example.set("Heart", "StructureProcedure")], [None, None]);
    // From the heart part-of is reached, and so its structure; a site is not.
    assert_eq!(example.module("Heart"), [4, 7]);
    assert_eq!(example.module("Valve"), [2, 4, 7]);
    assert_eq!(example.module("HeartRepair"), [3, 4, 5, 6, 7, 8]);
    let struck = example.without(&example.question("HeartRepair", "AtHeart"), |place| place == itself);
    assert_eq!(module(&struck), [2, 5]);
}
