//! A limiter that remembers, references to limiters, what a lender knows of its limiter afterwards, and quotas.
use wasmi_core_proved::machine::{
    Kind, LimiterByKind, LimiterError, MemoryError, NoLimits, Quota, ResourceLimiter,
    ResourceLimiterRef, TableError,
};

/// What a limiter answers in place of a permission, or to a notice.
pub const COMPLAINT: LimiterError = LimiterError::ResourceLimiterDeniedAllocation;

/// A question to a limiter.
#[derive(Clone, Copy, Debug, PartialEq, Eq)]
pub struct Question {
    pub kind: Kind,
    pub current: usize,
    pub desired: usize,
    pub maximum: Option<usize>,
}

/// Why a memory or a table wasn't made or didn't grow.
#[derive(Clone, Copy, Debug, PartialEq, Eq)]
pub enum Failure {
    Memory(MemoryError),
    Table(TableError),
}

/// Gives each question the answer and each notice the notice_answer that it was told to give, and
/// keeps what it was asked and told last, and how often.
pub struct Recorder {
    pub answer: Result<bool, LimiterError>,
    pub notice_answer: Result<(), LimiterError>,
    pub questions: u32,
    pub question: Option<Question>,
    pub notices: u32,
    pub notice: Option<Failure>,
}

impl Recorder {
    pub fn new(
        answer: Result<bool, LimiterError>,
        notice_answer: Result<(), LimiterError>,
    ) -> Self {
        Recorder {
            answer,
            notice_answer,
            questions: 0,
            question: None,
            notices: 0,
            notice: None,
        }
    }

    fn is_asked(&mut self, question: Option<Question>) -> Result<bool, LimiterError> {
        self.questions = self.questions.saturating_add(1);
        self.question = question;
        self.answer
    }

    fn is_told(&mut self, notice: Failure) -> Result<(), LimiterError> {
        self.notices = self.notices.saturating_add(1);
        self.notice = Some(notice);
        self.notice_answer
    }
}

impl ResourceLimiter for Recorder {
    fn memory_growing(
        &mut self,
        current: usize,
        desired: usize,
        maximum: Option<usize>,
    ) -> Result<bool, LimiterError> {
        self.is_asked(memory_question(current, desired, maximum))
    }

    fn table_growing(
        &mut self,
        current: usize,
        desired: usize,
        maximum: Option<usize>,
    ) -> Result<bool, LimiterError> {
        self.is_asked(table_question(current, desired, maximum))
    }

    fn memory_grow_failed(&mut self, error: &MemoryError) -> Result<(), LimiterError> {
        self.is_told(Failure::Memory(*error))
    }

    fn table_grow_failed(&mut self, error: &TableError) -> Result<(), LimiterError> {
        self.is_told(Failure::Table(*error))
    }

    fn instances(&self) -> usize {
        0
    }

    fn tables(&self) -> usize {
        0
    }

    fn memories(&self) -> usize {
        0
    }
}

/// A question whether a memory may grow, in bytes.
pub fn memory_question(current: usize, desired: usize, maximum: Option<usize>) -> Option<Question> {
    Some(Question {
        kind: Kind::Bytes,
        current,
        desired,
        maximum,
    })
}

/// A question whether a table may grow, in elements.
pub fn table_question(current: usize, desired: usize, maximum: Option<usize>) -> Option<Question> {
    Some(Question {
        kind: Kind::Elements,
        current,
        desired,
        maximum,
    })
}

/// Compares what a limiter was asked and told: each of them once, or not at all.
pub fn same_record(
    what: &str,
    recorder: &Recorder,
    question: Option<Question>,
    notice: Option<Failure>,
) {
    let numbers = (u32::from(question.is_some()), u32::from(notice.is_some()));
    assert_eq!((recorder.questions, recorder.notices), numbers, "{}", what);
    let last = (recorder.question, recorder.notice);
    assert_eq!(last, (question, notice), "{}", what);
}

/// Lends its limiter for one question, and knows what became of it.
fn ask_once<L: ResourceLimiter>(limiter: &mut L) -> Result<bool, LimiterError> {
    let mut lent = ResourceLimiterRef::from(limiter);
    let answer = lent.memory_growing(0, 5, None);
    let Some(_limiter) = lent.into_resource_limiter() else {
        unreachable!()
    };
    answer
}

/// Asks the limiter itself, where the reference leads to one.
fn ask_through<L: ResourceLimiter>(lent: &mut ResourceLimiterRef<L>) -> Result<bool, LimiterError> {
    match lent.as_resource_limiter() {
        Some(limiter) => limiter.memory_growing(0, 5, None),
        None => Ok(true),
    }
}

#[test]
fn a_lender_finds_what_became_of_its_limiter() {
    let mut recorder = Recorder::new(Ok(true), Err(COMPLAINT));
    let mut lent = ResourceLimiterRef::from(&mut recorder);
    let memory_answer = lent.memory_growing(1, 5, None);
    if let Some(limiter) = lent.as_resource_limiter() {
        limiter.answer = Ok(false);
    }
    let table_answer = lent.table_growing(3, 10, Some(9));
    let memory_notice_answer = lent.memory_grow_failed(&MemoryError::OutOfSystemMemory);
    if let Some(limiter) = lent.as_resource_limiter() {
        let last = (limiter.question, limiter.notice);
        let notice = Some(Failure::Memory(MemoryError::OutOfSystemMemory));
        let expected = (table_question(3, 10, Some(9)), notice);
        assert_eq!(last, expected, "the last question and notice");
        limiter.question = None;
    }
    let table_notice_answer = lent.table_grow_failed(&TableError::GrowOutOfBounds);
    let Some(limiter) = lent.into_resource_limiter() else {
        unreachable!()
    };
    limiter.answer = Ok(true);
    let last = (recorder.question, recorder.notice);
    let notice = Some(Failure::Table(TableError::GrowOutOfBounds));
    assert_eq!(last, (None, notice), "no question, and the notice");
    let answers = [memory_answer, table_answer, ask_once(&mut recorder)];
    let expected = [Ok(true), Ok(false), Ok(true)];
    assert_eq!(answers, expected, "5 bytes, 10 elements, once more");
    let answers = [memory_notice_answer, table_notice_answer];
    assert_eq!(answers, [Err(COMPLAINT); 2], "the notices");
    let last = (recorder.question, recorder.questions, recorder.notices);
    let expected = (memory_question(0, 5, None), 3, 2);
    assert_eq!(last, expected, "a question, and the numbers");
}

/// Asks the four questions of a reference that leads to no limiter, or to one without limits.
fn permits_all(lent: &mut ResourceLimiterRef<NoLimits>) {
    let answers = [
        lent.memory_growing(0, usize::MAX, None),
        lent.table_growing(0, usize::MAX, None),
    ];
    assert_eq!(answers, [Ok(true); 2], "bytes, elements");
    let answers = [
        lent.memory_grow_failed(&MemoryError::OutOfSystemMemory),
        lent.table_grow_failed(&TableError::OutOfSystemMemory),
    ];
    assert_eq!(answers, [Ok(()); 2], "notices of a memory, a table");
}

#[test]
fn without_limits_all_is_permitted() {
    let mut none = ResourceLimiterRef::<NoLimits>::default();
    let mut limits = NoLimits;
    let numbers = [limits.instances(), limits.tables(), limits.memories()];
    assert_eq!(numbers, [usize::MAX; 3], "numbers");
    let asked = ask_through(&mut none);
    let is_none = none.as_resource_limiter().is_none();
    assert_eq!((asked, is_none), (Ok(true), true), "asking none");
    permits_all(&mut none);
    permits_all(&mut ResourceLimiterRef::from(&mut limits));
}

/// The bytes and elements that are held.
fn held(quota: &Quota) -> (u64, u64) {
    (quota.held_bytes(), quota.held_elements())
}

#[test]
fn quota_gives_back_once() {
    let memory_error = MemoryError::OutOfSystemMemory;
    let table_error = TableError::OutOfSystemMemory;
    let mut quota = Quota::new(10, 3);
    let growths = [
        quota.memory_growing(0, 5, None),
        quota.memory_growing(5, 11, Some(20)),
        quota.table_growing(0, 4, None),
    ];
    let expected = [Ok(true), Ok(false), Ok(false)];
    assert_eq!(growths, expected, "5 of 10 bytes, 6 of 5, 4 of 3");
    let at_first = held(&quota);
    let of_another_kind = quota.table_grow_failed(&table_error);
    let after_it = held(&quota);
    let first = quota.memory_grow_failed(&memory_error);
    let second = quota.memory_grow_failed(&memory_error);
    let given_back = held(&quota);
    let growths = [
        quota.memory_growing(0, 10, None),
        quota.table_growing(0, 3, None),
    ];
    assert_eq!(growths, [Ok(true); 2], "all bytes, all elements");
    let of_its_kind = quota.table_grow_failed(&table_error);
    let notices = [of_another_kind, first, second, of_its_kind];
    assert_eq!(notices, [Ok(()); 4], "notices");
    let amounts = [at_first, after_it, given_back, held(&quota)];
    let expected = [(5, 0), (5, 0), (0, 0), (10, 0)];
    assert_eq!(amounts, expected, "held, and given back once");
    let numbers = [quota.instances(), quota.tables(), quota.memories()];
    assert_eq!(numbers, [usize::MAX; 3], "numbers");
}

#[test]
fn a_quota_releases_what_it_holds_once() {
    let mut quota = Quota::new(10, 3);
    assert!(quota.growing(Kind::Bytes, 0, 7).unwrap(), "seven bytes");
    assert!(
        quota.growing(Kind::Elements, 0, 3).unwrap(),
        "three elements"
    );
    assert!(!quota.release(Kind::Bytes, 8), "more than is held");
    assert_eq!(held(&quota), (7, 3), "nothing given up");
    assert!(quota.release(Kind::Elements, 2), "two elements");
    assert_eq!(held(&quota), (7, 1), "one is left");
    assert!(quota.grow_failed(Kind::Elements).is_ok(), "a notice");
    assert_eq!(held(&quota), (7, 1), "nothing to give back");
    assert!(quota.release(Kind::Bytes, 7), "all bytes");
    assert!(!quota.release(Kind::Bytes, 7), "not twice");
    assert!(quota.growing(Kind::Bytes, 0, 10).unwrap(), "the whole cap");
    assert_eq!(held(&quota), (10, 1), "what is held then");
}
