//! Scripts of calls on a metered machine: reading, running, printing.
mod error {
    //! Why a script isn't run to its end.

    use crate::proved::grammar::ParseError;
    use crate::rattle::alloc::AllocError;
    use std::fmt;

    /// Why a script isn't run. The text is what the program prints.
    #[derive(Clone, Copy, Debug, PartialEq, Eq)]
    #[non_exhaustive]
    pub enum ReplayError {
        /// A line is no command, or there wasn't enough memory: to read, to parse or for the replies.
        Parse(ParseError),
        /// More bytes than a script may have.
        TooLong,
        /// The reader returned an error.
        ReadFault,
    }

    /// # Contract
    ///
    /// ```text
    /// output = λ error. Some (error_text error)
    /// ```
    ///
    /// Definitions: [`error_text`](crate::specs::script::TextsSpecs#error_text).
    impl fmt::Display for ReplayError {
        #[inline]
        fn fmt(&self, f: &mut fmt::Formatter<'_>) -> fmt::Result {
            match self {
                Self::Parse(ParseError::BadCommand { line }) => {
                    write!(f, "line {line}: bad command")
                }
                Self::Parse(ParseError::OutOfMemory) => f.write_str("out of memory"),
                Self::TooLong => f.write_str("script too long"),
                Self::ReadFault => f.write_str("read fault"),
            }
        }
    }

    impl std::error::Error for ReplayError {}

    /// # Contract
    ///
    /// ```text
    /// from_gives = λ _ error. error ≡ Parse OutOfMemory
    /// ```
    impl From<AllocError> for ReplayError {
        #[inline]
        fn from(_: AllocError) -> Self {
            ReplayError::Parse(ParseError::OutOfMemory)
        }
    }

    /// # Contract
    ///
    /// ```text
    /// from_gives = λ error replayed. replayed ≡ Parse error
    /// ```
    impl From<ParseError> for ReplayError {
        #[inline]
        fn from(error: ParseError) -> Self {
            ReplayError::Parse(error)
        }
    }
}
#[cfg(any(doc, test))]
pub mod laws {
    //! Laws of all scripts and of all that run them, each the contract of a function.

    use crate::proved::budget::laws::tenants_leave_no_choice;
    pub use crate::proved::grammar::laws::{
        first_bad_lines_are_one, texts_write_one_script, written_texts_have_no_bad_line,
    };

    /// A limiter that answers from a list is deterministic. One whose list has no `Complain` accepts
    /// each notice and stays such a limiter: if no memory is refused, two runs of one list of calls
    /// from one machine under it have the same replies and end alike.
    ///
    /// # Contract
    ///
    /// ```text
    /// ensures choice: IsDeterministic answer_list_rules
    /// ensures notices: QuietListsAcceptNotices
    /// ensures replies: QuietListsDecideReplies
    /// ```
    ///
    /// Definitions: [`IsDeterministic`](crate::specs::machine::DeterminismSpecs#IsDeterministic), [`answer_list_rules`](crate::specs::meter::AnswerListSpecs#answer_list_rules), [`QuietListsAcceptNotices`](crate::specs::script::DecidedSpecs#QuietListsAcceptNotices), [`QuietListsDecideReplies`](crate::specs::script::DecidedSpecs#QuietListsDecideReplies).
    #[inline]
    pub fn quiet_lists_decide_replies() {}

    /// If no memory is refused and the reader doesn't fail, the bytes of the reader decide the text and
    /// the status of an outcome. A word `complain` is left out: the answer to a notice hides whether
    /// memory was refused.
    ///
    /// # Contract
    ///
    /// ```text
    /// ensures: OutcomesAreOne
    /// ```
    ///
    /// Definitions: [`OutcomesAreOne`](crate::specs::script::DecidedSpecs#OutcomesAreOne).
    #[inline]
    pub fn outcomes_are_one() {
        tenants_leave_no_choice();
    }
}
mod lines {
    //! The lines for calls and their replies, written to the front of bytes as far as they fit, and the
    //! texts and numbers that are written there one after the other.

    use crate::proved::machine::{Call, Reply};
    use crate::proved::script::printing::{Wording, bytes_of};

    /// Writes a line for each call with its reply to the front of bytes, as much of the lines as fits.
    /// It returns the length of all the lines, or 2^64 - 1 if they are longer. It takes no memory.
    ///
    /// # Contract
    ///
    /// ```text
    /// ensures front: FillsFront (replies_text calls.now replies.now) bytes.old bytes.new
    /// ensures length: result ≡ min (length (replies_text calls.now replies.now)) (2 ^ 64 - 1)
    /// ```
    ///
    /// Definitions: [`FillsFront`](crate::specs::script::PrintingSpecs#FillsFront), [`replies_text`](crate::specs::script::OutcomesSpecs#replies_text).
    #[inline]
    pub fn write_lines(bytes: &mut [u8], calls: &[Call], replies: &[Reply]) -> usize {
        let mut end = 0;
        for (call, reply) in calls.iter().zip(replies) {
            end = put_line(bytes, end, call, reply);
        }
        end
    }

    /// A call's reply and a line feed, as [`put`] does a text.
    ///
    /// # Contract
    ///
    /// ```text
    /// ensures: AddsToFront (line (reply_text call.now reply.now)) bytes.old written bytes.new
    ///     result
    /// ```
    ///
    /// Definitions: [`AddsToFront`](crate::specs::script::PrintingSpecs#AddsToFront), [`line`](crate::specs::script::PrintingSpecs#line), [`reply_text`](crate::specs::script::TextsSpecs#reply_text).
    #[inline]
    fn put_line(bytes: &mut [u8], written: usize, call: &Call, reply: &Reply) -> usize {
        let worded = Wording::of(call, reply).put(bytes, written);
        let told = put_bytes(bytes, worded, bytes_of(reply));
        put(bytes, told, b"\n")
    }

    /// A space and a number for each of the bytes that were told, as [`put`] does a text.
    ///
    /// # Contract
    ///
    /// ```text
    /// ensures: AddsToFront (bytes_text told.now) bytes.old written bytes.new result
    /// ```
    ///
    /// Definitions: [`AddsToFront`](crate::specs::script::PrintingSpecs#AddsToFront), [`bytes_text`](crate::specs::script::TextsSpecs#bytes_text).
    #[inline]
    fn put_bytes(bytes: &mut [u8], written: usize, told: &[u8]) -> usize {
        let mut end = written;
        for byte in told {
            let spaced = put(bytes, end, b" ");
            end = put_number(bytes, spaced, u64::from(*byte));
        }
        end
    }

    /// Writes a text after those of `written` bytes in all that were written before, as much of it as
    /// fits, and returns the length of all of them, or 2^64 - 1 if they are longer.
    ///
    /// # Contract
    ///
    /// ```text
    /// ensures: AddsToFront text.now bytes.old written bytes.new result
    /// ```
    ///
    /// Definitions: [`AddsToFront`](crate::specs::script::PrintingSpecs#AddsToFront).
    #[inline]
    pub fn put(bytes: &mut [u8], written: usize, text: &[u8]) -> usize {
        let start = written.min(bytes.len());
        let count = text.len().min(bytes.len() - start);
        bytes[start..start + count].copy_from_slice(&text[..count]);
        written.saturating_add(text.len())
    }

    /// Writes a number in decimal, as [`put`] does a text.
    ///
    /// # Contract
    ///
    /// ```text
    /// ensures: AddsToFront (decimal number) bytes.old written bytes.new result
    /// ```
    ///
    /// Definitions: [`AddsToFront`](crate::specs::script::PrintingSpecs#AddsToFront).
    #[inline]
    pub fn put_number(bytes: &mut [u8], written: usize, number: u64) -> usize {
        let digit = [b'0' + (number % 10) as u8];
        if number < 10 {
            return put(bytes, written, &digit);
        }
        let before_last = put_number(bytes, written, number / 10);
        put(bytes, before_last, &digit)
    }

    /// Writes a number in decimal after a text, if there is a number, as [`put`] does a text.
    ///
    /// # Contract
    ///
    /// ```text
    /// ensures: AddsToFront (number_text before.now number) bytes.old written bytes.new result
    /// ```
    ///
    /// Definitions: [`AddsToFront`](crate::specs::script::PrintingSpecs#AddsToFront), [`number_text`](crate::specs::script::TextsSpecs#number_text).
    #[inline]
    pub fn put_optional(
        bytes: &mut [u8],
        written: usize,
        before: &str,
        number: Option<u64>,
    ) -> usize {
        match number {
            None => written,
            Some(number) => {
                let begun = put(bytes, written, before.as_bytes());
                put_number(bytes, begun, number)
            }
        }
    }
}
mod printing {
    //! The lines that a replay prints, by its outcome: the script with what its run has given, the
    //! words of a reply (`Wording`), what is held, and the printer, which sends texts to a writer.

    use crate::proved::budget::Pool;
    use crate::proved::grammar::Script;
    use crate::proved::machine::{Call, Reply};
    use crate::proved::meter::Amounts;
    use crate::proved::script::error::ReplayError;
    use crate::proved::script::lines::{put, put_optional};
    use crate::proved::script::replaying::{Held, Output, Ran};
    use crate::proved::types::RefType;
    use crate::rattle::arrayvec::ArrayString;
    use crate::rattle::arrayvec::{Show, Sink};
    use std::{fmt, io};

    /// How many bytes wait at most before they go to the writer.
    const CHUNK: usize = 4096;

    /// How long a text may be that is printed at once, with a line feed.
    const LONGEST: usize = 256;

    /// A script and the outcome of its run.
    pub struct Replayed {
        /// What was run.
        pub script: Script,
        /// The outcome.
        pub ran: Ran,
    }

    /// Prints the outcome to its last byte, and flushes the writer.
    ///
    /// # Contract
    ///
    /// ```text
    /// ensures ok: OnOk result
    ///     (Appends (W.contents writer.old) (W.contents writer.new) (outcome_text outcome.now))
    /// ensures flushed: OnOk result (W.is_flushed writer.new)
    /// ensures front: OnErr result
    ///     (AppendsFront (W.contents writer.old) (W.contents writer.new) (outcome_text outcome.now))
    /// ```
    ///
    /// Definitions: [`outcome_text`](crate::specs::script::OutcomesSpecs#outcome_text), [`AppendsFront`](crate::specs::script::PrintingSpecs#AppendsFront).
    ///
    /// `W` is a type with the trait `Output`.
    #[inline]
    pub fn print<W: Output>(
        writer: &mut W,
        outcome: &Result<Replayed, ReplayError>,
    ) -> fmt::Result {
        let mut printer = Printer {
            writer,
            chunk: ArrayString::new(),
        };
        let printed = print_outcome(&mut printer, outcome);
        let flushed = printer.flush(printed);
        // No effect at run time: the proof reads what the writer has from this use.
        let _ = &*printer.writer;
        flushed
    }

    /// Prints a line for each call with its reply, to the last byte, and flushes the writer.
    ///
    /// # Errors
    ///
    /// That of the writer, which then has the front of the text.
    ///
    /// # Contract
    ///
    /// ```text
    /// ensures ok: OnOk result (Appends (W.contents writer.old) (W.contents writer.new)
    ///     (replies_text calls.now replies.now))
    /// ensures flushed: OnOk result (W.is_flushed writer.new)
    /// ensures front: OnErr result (AppendsFront (W.contents writer.old) (W.contents writer.new)
    ///     (replies_text calls.now replies.now))
    /// ```
    ///
    /// Definitions: [`replies_text`](crate::specs::script::OutcomesSpecs#replies_text), [`AppendsFront`](crate::specs::script::PrintingSpecs#AppendsFront).
    ///
    /// `W` is a type with the trait `Output`.
    #[inline]
    pub fn print_lines<W: Output>(
        writer: &mut W,
        calls: &[Call],
        replies: &[Reply],
    ) -> fmt::Result {
        let mut printer = Printer {
            writer,
            chunk: ArrayString::new(),
        };
        let printed = print_replies(&mut printer, calls, replies);
        let flushed = printer.flush(printed);
        // No effect at run time: the proof reads what the writer has from this use.
        let _ = &*printer.writer;
        flushed
    }

    /// Prints a line for each call and what is held, or why the script isn't run.
    ///
    /// # Contract
    ///
    /// ```text
    /// ensures: PrintsText W.contents (outcome_text outcome.now) printer.old result printer.new
    /// ```
    ///
    /// Definitions: [`PrintsText`](crate::specs::script::PrintingSpecs#PrintsText), [`outcome_text`](crate::specs::script::OutcomesSpecs#outcome_text).
    ///
    /// `W` is the type of the writer.
    #[inline]
    fn print_outcome<W: io::Write>(
        printer: &mut Printer<W>,
        outcome: &Result<Replayed, ReplayError>,
    ) -> fmt::Result {
        match outcome {
            Ok(replayed) => {
                let calls = replayed.script.parts.calls();
                print_replies(printer, calls, &replayed.ran.replies)?;
                print_held(printer, &replayed.ran.held)
            }
            Err(error) => printer.print_line(&error),
        }
    }

    /// A line for each call, with its reply.
    ///
    /// # Contract
    ///
    /// ```text
    /// ensures: PrintsText W.contents (replies_text calls.now replies.now) printer.old result
    ///     printer.new
    /// ```
    ///
    /// Definitions: [`PrintsText`](crate::specs::script::PrintingSpecs#PrintsText), [`replies_text`](crate::specs::script::OutcomesSpecs#replies_text).
    ///
    /// `W` is the type of the writer.
    #[inline]
    fn print_replies<W: io::Write>(
        printer: &mut Printer<W>,
        calls: &[Call],
        replies: &[Reply],
    ) -> fmt::Result {
        for (call, reply) in calls.iter().zip(replies) {
            print_reply(printer, call, reply)?;
        }
        Ok(())
    }

    /// A call's reply. The numbers of bytes are printed one after the other, since they may be many.
    ///
    /// # Contract
    ///
    /// ```text
    /// ensures: PrintsText W.contents (line (reply_text call.now reply.now)) printer.old result
    ///     printer.new
    /// ```
    ///
    /// Definitions: [`PrintsText`](crate::specs::script::PrintingSpecs#PrintsText), [`line`](crate::specs::script::PrintingSpecs#line), [`reply_text`](crate::specs::script::TextsSpecs#reply_text).
    ///
    /// `W` is the type of the writer.
    #[inline]
    fn print_reply<W: io::Write>(
        printer: &mut Printer<W>,
        call: &Call,
        reply: &Reply,
    ) -> fmt::Result {
        printer.print(ReplyHead { call, reply })?;
        for byte in bytes_of(reply) {
            printer.print((" ", &byte))?;
        }
        printer.print("\n")
    }

    /// The bytes that are printed of a reply: none unless some were read.
    ///
    /// # Contract
    ///
    /// ```text
    /// ensures: result.now ≡ bytes_in reply.now
    /// ```
    ///
    /// Definitions: [`bytes_in`](crate::specs::script::TextsSpecs#bytes_in).
    #[must_use]
    #[inline]
    pub fn bytes_of(reply: &Reply) -> &[u8] {
        match reply {
            Reply::Bytes(bytes) => bytes.as_slice(),
            _ => &[],
        }
    }

    /// What a quota holds, or what each tenant of a pool holds.
    ///
    /// # Contract
    ///
    /// ```text
    /// ensures: PrintsText W.contents (held_text held.now) printer.old result printer.new
    /// ```
    ///
    /// Definitions: [`PrintsText`](crate::specs::script::PrintingSpecs#PrintsText), [`held_text`](crate::specs::script::OutcomesSpecs#held_text).
    ///
    /// `W` is the type of the writer.
    #[inline]
    fn print_held<W: io::Write>(printer: &mut Printer<W>, held: &Held) -> fmt::Result {
        match held {
            Held::Nothing => Ok(()),
            Held::Quota(Amounts { bytes, elements }) => {
                printer.print_line(("held ", &bytes, " ", &elements))
            }
            Held::Tenants(pool) => print_tenants(printer, pool),
        }
    }

    /// What each tenant of a pool holds.
    ///
    /// # Contract
    ///
    /// ```text
    /// ensures: PrintsText W.contents (tenants_text pool.now.machines) printer.old result
    ///     printer.new
    /// ```
    ///
    /// Definitions: [`PrintsText`](crate::specs::script::PrintingSpecs#PrintsText), [`tenants_text`](crate::specs::script::OutcomesSpecs#tenants_text).
    ///
    /// `W` is the type of the writer.
    #[inline]
    fn print_tenants<W: io::Write>(printer: &mut Printer<W>, pool: &Pool) -> fmt::Result {
        for index in 0..pool.len() {
            print_tenant(printer, pool, index)?;
        }
        Ok(())
    }

    /// What the tenant of an index holds, if there is one.
    ///
    /// # Contract
    ///
    /// ```text
    /// ensures: PrintsText W.contents (tenant_line index (machine_of pool.now index)) printer.old
    ///     result printer.new
    /// ```
    ///
    /// Definitions: [`PrintsText`](crate::specs::script::PrintingSpecs#PrintsText), [`tenant_line`](crate::specs::script::OutcomesSpecs#tenant_line), [`machine_of`](crate::specs::budget::PoolSpecs#machine_of).
    ///
    /// `W` is the type of the writer.
    #[inline]
    fn print_tenant<W: io::Write>(
        printer: &mut Printer<W>,
        pool: &Pool,
        index: usize,
    ) -> fmt::Result {
        let (Some(bytes), Some(elements)) = (pool.held_bytes(index), pool.held_elements(index))
        else {
            return Ok(());
        };
        printer.print_line(("held ", &index, " ", &bytes, " ", &elements))
    }

    /// A call's reply, as the program prints it, without the numbers that follow `bytes`.
    #[derive(Clone, Copy)]
    pub struct ReplyHead<'a> {
        /// The call, which says what a creation has made.
        pub call: &'a Call,
        /// Its reply.
        pub reply: &'a Reply,
    }

    /// # Contract
    ///
    /// ```text
    /// output = λ head. Some (head_text head.call.now head.reply.now)
    /// ```
    ///
    /// Definitions: [`head_text`](crate::specs::script::TextsSpecs#head_text).
    impl fmt::Display for ReplyHead<'_> {
        fn fmt(&self, f: &mut fmt::Formatter<'_>) -> fmt::Result {
            self.show(f)
        }
    }

    impl Show for ReplyHead<'_> {
        #[inline]
        fn show<W: Sink>(&self, f: &mut W) -> fmt::Result {
            let wording = Wording::of(self.call, self.reply);
            (wording.start, wording.words).show(f)?;
            match (wording.first, wording.second) {
                (None, None) => Ok(()),
                (Some(first), None) => first.show(f),
                (None, Some(second)) => (" ", &second).show(f),
                (Some(first), Some(second)) => (&first, " ", &second).show(f),
            }
        }
    }

    /// Words in two parts, then a number, if there is one, and then a second one after a space.
    #[derive(Clone, Copy)]
    pub struct Wording {
        /// The first words.
        pub start: &'static str,
        /// The words after them, which may be none.
        pub words: &'static str,
        /// The number after the words.
        pub first: Option<u64>,
        /// The number after that one and a space.
        pub second: Option<u64>,
    }

    impl Wording {
        /// What a reply says but for its bytes.
        ///
        /// # Contract
        ///
        /// ```text
        /// ensures: wording_text result ≡ head_text call.now reply.now
        /// ```
        ///
        /// Definitions: [`wording_text`](crate::specs::script::TextsSpecs#wording_text), [`head_text`](crate::specs::script::TextsSpecs#head_text).
        #[must_use]
        #[inline]
        pub fn of(call: &Call, reply: &Reply) -> Wording {
            match reply {
                Reply::Done => Wording::with("done", "", None),
                Reply::Bytes(_) => Wording::with("bytes", "", None),
                Reply::Reference(None) => Wording::with("none", "", None),
                Reply::NoSuch => Wording::with("no such", "", None),
                Reply::NoRegion => Wording::with("no region", "", None),
                Reply::NoRoom => Wording::with("no room", "", None),
                Reply::Made(index) => Wording::with(made_word(call), " ", Some(*index as u64)),
                Reply::Value(value) => Wording {
                    start: "raw ",
                    words: "",
                    first: Some(value.lo),
                    second: Some(value.hi),
                },
                Reply::Number(number) => Wording::with("value ", "", Some(*number)),
                Reply::Reference(Some(reference)) => {
                    let raw = u64::from(u32::from(reference.raw));
                    match reference.ty {
                        RefType::Func => Wording::with("func", " ", Some(raw)),
                        RefType::Extern => Wording::with("extern", " ", Some(raw)),
                    }
                }
                Reply::Memory(error) => Wording::of_error(error.words()),
                Reply::Table(error) => Wording::of_error(error.words()),
                Reply::Fuel(error) => Wording::of_error(error.words()),
                Reply::Global(error) => Wording::with("error ", error.words(), None),
                Reply::Segment(error) => Wording::with("error ", error.words(), None),
                Reply::Trap(code) => Wording::with("error ", code.trap_message(), None),
            }
        }

        /// # Contract
        ///
        /// ```text
        /// ensures: wording_text result ≡ start.now ++ numbered words.now first
        /// ```
        ///
        /// Definitions: [`wording_text`](crate::specs::script::TextsSpecs#wording_text), [`numbered`](crate::specs::meter::TextsSpecs#numbered).
        #[inline]
        fn with(start: &'static str, words: &'static str, first: Option<u64>) -> Wording {
            Wording {
                start,
                words,
                first,
                second: None,
            }
        }

        /// # Contract
        ///
        /// ```text
        /// ensures: wording_text result ≡ codes "error " ++ numbered error.entry.0.now error.entry.1
        /// ```
        ///
        /// Definitions: [`wording_text`](crate::specs::script::TextsSpecs#wording_text), [`numbered`](crate::specs::meter::TextsSpecs#numbered).
        #[inline]
        fn of_error(error: (&'static str, Option<u64>)) -> Wording {
            Wording::with("error ", error.0, error.1)
        }

        /// Writes it to the front of bytes, as [`put`] does a text.
        ///
        /// # Contract
        ///
        /// ```text
        /// ensures: AddsToFront (wording_text self) bytes.old written bytes.new result
        /// ```
        ///
        /// Definitions: [`AddsToFront`](crate::specs::script::PrintingSpecs#AddsToFront), [`wording_text`](crate::specs::script::TextsSpecs#wording_text).
        #[inline]
        pub fn put(self, bytes: &mut [u8], written: usize) -> usize {
            let started = put(bytes, written, self.start.as_bytes());
            let worded = put(bytes, started, self.words.as_bytes());
            let numbered = put_optional(bytes, worded, "", self.first);
            put_optional(bytes, numbered, " ", self.second)
        }
    }

    /// The word for what the call makes. `Made` answers no call that isn't a creation.
    ///
    /// # Contract
    ///
    /// ```text
    /// ensures: result.now ≡ kind_text call.now
    /// ```
    ///
    /// Definitions: [`kind_text`](crate::specs::script::TextsSpecs#kind_text).
    #[inline]
    fn made_word(call: &Call) -> &'static str {
        match call {
            Call::NewMemory(_) | Call::NewLentMemory(_) => "memory",
            Call::NewTable { .. } => "table",
            Call::NewSegment { .. } => "segment",
            Call::NewData(_) => "data",
            Call::NewGlobal { .. } => "global",
            _ => "nothing",
        }
    }

    /// Text that goes to a writer in chunks, without memory. Any error of the writer ends the printing,
    /// and so does a write that takes no byte.
    pub struct Printer<'w, W> {
        writer: &'w mut W,
        chunk: ArrayString<CHUNK>,
    }

    impl<W: io::Write> Printer<'_, W> {
        /// Prints a text of less than `LONGEST` bytes.
        ///
        /// # Contract
        ///
        /// ```text
        /// requires short: IsShort (D.output text)
        /// ensures ok: OnOk result
        ///     (IfSome (D.output text) (λ bytes. Prints W.contents self.old self.new bytes))
        /// ensures front: OnErr result
        ///     (IfSome (D.output text) (λ bytes. PrintsFront W.contents self.old self.new bytes))
        /// ```
        ///
        /// Definitions: [`IsShort`](crate::specs::script::PrintingSpecs#IsShort), [`Prints`](crate::specs::script::PrintingSpecs#Prints), [`PrintsFront`](crate::specs::script::PrintingSpecs#PrintsFront).
        ///
        /// `D` is a type with the trait `Display`. `W` is the type of the writer.
        #[inline]
        pub fn print<D: Show>(&mut self, text: D) -> fmt::Result {
            self.make_room()?;
            self.chunk.write(text)
        }

        /// Prints a line of at most `LONGEST` bytes with its feed.
        ///
        /// # Contract
        ///
        /// ```text
        /// requires short: IsShort (D.output text)
        /// ensures ok: OnOk result
        ///     (IfSome (D.output text) (λ bytes. Prints W.contents self.old self.new (line bytes)))
        /// ensures front: OnErr result
        ///     (IfSome (D.output text)
        ///     (λ bytes. PrintsFront W.contents self.old self.new (line bytes)))
        /// ```
        ///
        /// Definitions: [`IsShort`](crate::specs::script::PrintingSpecs#IsShort), [`Prints`](crate::specs::script::PrintingSpecs#Prints), [`line`](crate::specs::script::PrintingSpecs#line), [`PrintsFront`](crate::specs::script::PrintingSpecs#PrintsFront).
        ///
        /// `D` is a type with the trait `Display`. `W` is the type of the writer.
        #[inline]
        pub fn print_line<D: Show>(&mut self, text: D) -> fmt::Result {
            self.make_room()?;
            self.chunk.writeln(text)
        }

        /// Makes room for the longest text.
        ///
        /// # Contract
        ///
        /// ```text
        /// ensures ok: OnOk result (Prints W.contents self.old self.new [])
        /// ensures front: OnErr result (SendsFront W.contents self.old self.new)
        /// ensures room: OnOk result (length self.new.chunk.bytes + LONGEST ≤ CHUNK)
        /// ```
        ///
        /// Definitions: [`Prints`](crate::specs::script::PrintingSpecs#Prints), [`SendsFront`](crate::specs::script::PrintingSpecs#SendsFront).
        ///
        /// `W` is the type of the writer.
        #[inline]
        fn make_room(&mut self) -> fmt::Result {
            if self.chunk.remaining_capacity() < LONGEST {
                self.send()?;
            }
            Ok(())
        }

        /// Sends what waits to the writer.
        ///
        /// # Contract
        ///
        /// ```text
        /// ensures ok: OnOk result (Sends W.contents self.old self.new)
        /// ensures empty: OnOk result (self.new.chunk.bytes ≡ [])
        /// ensures front: OnErr result (SendsFront W.contents self.old self.new)
        /// ```
        ///
        /// Definitions: [`Sends`](crate::specs::script::PrintingSpecs#Sends), [`SendsFront`](crate::specs::script::PrintingSpecs#SendsFront).
        ///
        /// `W` is the type of the writer.
        #[inline]
        fn send(&mut self) -> fmt::Result {
            send_all(self.writer, self.chunk.as_str())?;
            self.chunk.clear();
            Ok(())
        }
    }

    impl<W: Output> Printer<'_, W> {
        /// Sends what waits to the writer, and flushes it, if all texts were printed.
        ///
        /// # Contract
        ///
        /// ```text
        /// ensures sent: Flushes W.contents printed self.old result self.new
        /// ensures flushed: OnOk result (W.is_flushed self.new.writer.now)
        /// ```
        ///
        /// Definitions: [`Flushes`](crate::specs::script::PrintingSpecs#Flushes).
        ///
        /// `W` is a type with the trait `Output`.
        #[inline]
        pub fn flush(&mut self, printed: fmt::Result) -> fmt::Result {
            printed?;
            self.send()?;
            self.writer.flush_all().map_err(|_| fmt::Error)
        }
    }

    /// Writes a whole text.
    ///
    /// # Contract
    ///
    /// ```text
    /// ensures ok: IsOk result → Appends (W.contents writer.old) (W.contents writer.new) text.now
    /// ensures front: AppendsFront (W.contents writer.old) (W.contents writer.new) text.now
    /// ```
    ///
    /// Definitions: [`AppendsFront`](crate::specs::script::PrintingSpecs#AppendsFront).
    ///
    /// `W` is the type of the writer.
    #[inline]
    fn send_all<W: io::Write>(writer: &mut W, text: &str) -> fmt::Result {
        let mut rest = text.as_bytes();
        while !rest.is_empty() {
            match writer.write(rest) {
                Ok(0) => return Err(fmt::Error),
                Ok(count) => rest = &rest[count..],
                Err(_) => return Err(fmt::Error),
            }
        }
        Ok(())
    }
}
mod replaying {
    //! A script from its reader to the printed lines: the streams, the replay with its status, and the
    //! run of the calls on a new machine or a new pool, as the header lines ask for it.

    use crate::proved::budget::Pool;
    use crate::proved::grammar::{
        Header, LimiterLine, MeterLine, ParseError, RegionLine, Script, TenantsLine, parse,
    };
    use crate::proved::machine::{Call, Machine, Reply, run, run_lending, run_reserving};
    use crate::proved::meter::{
        Amounts, AnswerList, CustomFuelCosts, Fuel, FuelCostsProvider, LimiterAnswer, NoLimits,
        Quota, ResourceLimiterRef,
    };
    use crate::proved::script::error::ReplayError;
    use crate::proved::script::printing::{Replayed, print};
    use crate::rattle::alloc::AllocError;
    use crate::rattle::{SliceExt, Vec};
    use std::io;

    /// A reader of a script. Each [`io::Read`] is one.
    ///
    /// # Contract
    ///
    /// ```text
    /// has_failed: Self → Type 0
    /// ```
    pub trait Input: io::Read {
        /// Reads bytes, as [`io::Read::read`] does.
        ///
        /// # Errors
        ///
        /// That of the reader, which has failed then.
        ///
        /// # Contract
        ///
        /// ```text
        /// ensures bound: ReadsAtMost result buffer.new
        /// ensures bytes: ReadConsumes (Self.remaining self.old) (Self.remaining self.new) result
        ///     buffer.new
        /// ensures failed: OnErr result (has_failed self.new)
        /// ```
        fn read_some(&mut self, buffer: &mut [u8]) -> io::Result<usize>;
    }

    /// # Contract
    ///
    /// ```text
    /// has_failed = λ _. Unit {0}
    /// ```
    impl<R: io::Read> Input for R {
        #[inline]
        fn read_some(&mut self, buffer: &mut [u8]) -> io::Result<usize> {
            self.read(buffer)
        }
    }

    /// A writer of what a script prints. Each [`io::Write`] is one.
    ///
    /// # Contract
    ///
    /// ```text
    /// is_flushed: Self → Type 0
    /// ```
    pub trait Output: io::Write {
        /// Flushes it, as [`io::Write::flush`] does.
        ///
        /// # Errors
        ///
        /// That of the writer, which then isn't known to be flushed.
        ///
        /// # Contract
        ///
        /// ```text
        /// ensures bytes: KeepsContents (Self.contents self.old) (Self.contents self.new)
        /// ensures flushed: OnOk result (is_flushed self.new)
        /// ```
        ///
        /// Definitions: [`KeepsContents`](crate::specs::machine::LawsSpecs#Keeps).
        fn flush_all(&mut self) -> io::Result<()>;
    }

    /// # Contract
    ///
    /// ```text
    /// is_flushed = λ _. Unit {0}
    /// ```
    impl<W: io::Write> Output for W {
        #[inline]
        fn flush_all(&mut self) -> io::Result<()> {
            self.flush()
        }
    }

    /// The most bytes that a script may have.
    pub const LIMIT: usize = 1_048_576;

    /// How a replay ended.
    #[derive(Clone, Copy, Debug, PartialEq, Eq)]
    #[non_exhaustive]
    pub enum Status {
        /// Each call has a reply, which may be a refusal.
        Answered,
        /// A line is no command, or the script is too long.
        BadScript,
        /// There wasn't enough memory to read, to parse or for the replies.
        OutOfMemory,
        /// The reader or the writer failed.
        Fault,
    }

    impl Status {
        /// The exit status of the program.
        ///
        /// # Contract
        ///
        /// ```text
        /// ensures: result ≡ status_number self
        /// ```
        ///
        /// Definitions: [`status_number`](crate::specs::script::OutcomesSpecs#status_number).
        #[must_use]
        #[inline]
        pub fn code(self) -> u8 {
            match self {
                Status::Answered => 0,
                Status::BadScript => 2,
                Status::OutOfMemory => 3,
                Status::Fault => 4,
            }
        }
    }

    /// Reads the script, runs it and prints its replies, or prints why it isn't run. A line that can't
    /// be printed, or a flush that fails, makes the status `Fault`; what went out before it stays.
    ///
    /// # Contract
    ///
    /// ```text
    /// ensures ends: Replays (IsOutcomeOfReader (R.remaining reader.old) (R.has_failed reader.new))
    ///     (W.contents writer.old) (W.contents writer.new) (W.is_flushed writer.new) result
    /// ```
    ///
    /// Definitions: [`Replays`](crate::specs::script::OutcomesSpecs#Replays), [`IsOutcomeOfReader`](crate::specs::script::OutcomesSpecs#IsOutcomeOfReader).
    ///
    /// `R` is a type with the trait `Input`. `W` is a type with the trait `Output`.
    #[doc = examples!(script replay)]
    #[inline]
    pub fn replay<R: Input, W: Output>(reader: &mut R, writer: &mut W) -> Status {
        let outcome = outcome_of_reader(reader);
        tell(writer, &outcome)
    }

    /// Runs the script of these bytes and prints its replies, as [`replay`] does. No reader fails.
    ///
    /// # Contract
    ///
    /// ```text
    /// ensures ends: Replays (IsOutcomeOf script.now)
    ///     (W.contents writer.old) (W.contents writer.new) (W.is_flushed writer.new) result
    /// ```
    ///
    /// Definitions: [`Replays`](crate::specs::script::OutcomesSpecs#Replays), [`IsOutcomeOf`](crate::specs::script::OutcomesSpecs#IsOutcomeOf).
    ///
    /// `W` is a type with the trait `Output`.
    #[inline]
    pub fn replay_bytes<W: Output>(script: &[u8], writer: &mut W) -> Status {
        let outcome = outcome_of(script);
        tell(writer, &outcome)
    }

    /// Prints the outcome, and says how the replay ends.
    ///
    /// # Contract
    ///
    /// ```text
    /// ensures: PrintsOutcome (W.contents writer.old) (W.contents writer.new)
    ///     (W.is_flushed writer.new) outcome.now result
    /// ```
    ///
    /// Definitions: [`PrintsOutcome`](crate::specs::script::OutcomesSpecs#PrintsOutcome).
    ///
    /// `W` is a type with the trait `Output`.
    #[inline]
    fn tell<W: Output>(writer: &mut W, outcome: &Result<Replayed, ReplayError>) -> Status {
        match print(writer, outcome) {
            Ok(()) => status_of(outcome),
            Err(_) => Status::Fault,
        }
    }

    /// Reads the script and runs it.
    ///
    /// # Contract
    ///
    /// ```text
    /// ensures: IsOutcomeOfReader (R.remaining reader.old) (R.has_failed reader.new) result
    /// ```
    ///
    /// Definitions: [`IsOutcomeOfReader`](crate::specs::script::OutcomesSpecs#IsOutcomeOfReader).
    ///
    /// `R` is a type with the trait `Input`.
    #[inline]
    fn outcome_of_reader<R: Input>(reader: &mut R) -> Result<Replayed, ReplayError> {
        let mut counted = CountedReader { reader, taken: 0 };
        let script = read(&mut counted);
        // No effect at run time: the proof reads what the reader is then from this use.
        let _ = &*counted.reader;
        outcome_of(script?.as_slice())
    }

    /// Runs the script that these bytes write.
    ///
    /// # Contract
    ///
    /// ```text
    /// ensures: IsOutcomeOf bytes.now result
    /// ```
    ///
    /// Definitions: [`IsOutcomeOf`](crate::specs::script::OutcomesSpecs#IsOutcomeOf).
    #[inline]
    fn outcome_of(bytes: &[u8]) -> Result<Replayed, ReplayError> {
        if LIMIT < bytes.len() {
            return Err(ReplayError::TooLong);
        }
        let script = parse(bytes)?;
        let ran = run_script(&script)?;
        Ok(Replayed { script, ran })
    }

    /// How the replay ends if its lines can be printed.
    ///
    /// # Contract
    ///
    /// ```text
    /// ensures: result ≡ status_after outcome.now
    /// ```
    ///
    /// Definitions: [`status_after`](crate::specs::script::OutcomesSpecs#status_after).
    #[inline]
    fn status_of(outcome: &Result<Replayed, ReplayError>) -> Status {
        match outcome {
            Ok(_) => Status::Answered,
            Err(ReplayError::Parse(ParseError::BadCommand { .. }) | ReplayError::TooLong) => {
                Status::BadScript
            }
            Err(ReplayError::Parse(ParseError::OutOfMemory)) => Status::OutOfMemory,
            Err(ReplayError::ReadFault) => Status::Fault,
        }
    }

    /// A reader whose turns are counted.
    struct CountedReader<'r, R> {
        reader: &'r mut R,
        /// How many turns it took.
        taken: usize,
    }

    impl<R: Input> CountedReader<'_, R> {
        /// One turn more.
        ///
        /// # Contract
        ///
        /// ```text
        /// requires turns: self.old.taken ≤ script_limit
        /// ensures reader: self.new.reader.ghost_name ≡ self.old.reader.ghost_name
        /// ensures taken: self.new.taken ≡ self.old.taken + 1
        /// ensures bound: ReadsAtMost result buffer.new
        /// ensures bytes: ReadConsumes (R.remaining self.old.reader.now)
        ///     (R.remaining self.new.reader.now) result buffer.new
        /// ensures failed: OnErr result (R.has_failed self.new.reader.now)
        /// ```
        ///
        /// Definitions: [`script_limit`](crate::specs::script::OutcomesSpecs#script_limit).
        ///
        /// `R` is a type with the trait `Input`.
        #[inline]
        fn turn(&mut self, buffer: &mut [u8]) -> io::Result<usize> {
            self.taken += 1;
            self.reader.read_some(buffer)
        }
    }

    /// The bytes of the reader up to a turn that gives nothing, in at most `LIMIT + 1` turns.
    ///
    /// # Contract
    ///
    /// ```text
    /// requires fresh: reader.old.taken ≡ 0
    /// ensures reader: reader.new.reader.ghost_name ≡ reader.old.reader.ghost_name
    /// ensures bounded: IfOk result (λ script. vec_len script ≤ LIMIT)
    /// ensures whole: IfOk result
    ///     (λ script. IfSome (R.remaining reader.old.reader.now) (λ bytes. script.items ≡ bytes))
    /// ensures refused: IfErr result (IsReadError (R.remaining reader.old.reader.now)
    ///     (R.has_failed reader.new.reader.now))
    /// ensures turns: reader.new.taken ≤ script_limit + 1
    /// ```
    ///
    /// Definitions: [`IsReadError`](crate::specs::script::OutcomesSpecs#IsReadError), [`script_limit`](crate::specs::script::OutcomesSpecs#script_limit).
    ///
    /// `R` is a type with the trait `Input`.
    #[inline]
    fn read<R: Input>(reader: &mut CountedReader<'_, R>) -> Result<Vec<u8>, ReplayError> {
        let mut script = Vec::new();
        let mut chunk = [0u8; 4096];
        for _turn in 0..LIMIT + 1 {
            let Ok(count) = reader.turn(&mut chunk) else {
                return Err(ReplayError::ReadFault);
            };
            if count == 0 {
                return Ok(script);
            }
            if LIMIT - script.len() < count {
                return Err(ReplayError::TooLong);
            }
            script.extend_from_slice(&chunk[..count])?;
        }
        Err(ReplayError::TooLong)
    }

    /// The replies of a script's run, and what is held afterwards.
    pub struct Ran {
        /// A reply to each call, in order.
        pub replies: Vec<Reply>,
        /// What is held afterwards.
        pub held: Held,
    }

    /// What is held after a run, as far as it is printed.
    pub enum Held {
        /// Nothing is counted without a limiter that counts.
        Nothing,
        /// What a quota holds.
        Quota(Amounts),
        /// What the tenants of a pool hold.
        Tenants(Pool<'static>),
    }

    /// Runs the script's calls on a new machine, or its parts on a pool of new machines.
    ///
    /// # Contract
    ///
    /// ```text
    /// ensures: IfOk result (IsReplayOf script.now)
    /// ```
    ///
    /// Definitions: [`IsReplayOf`](crate::specs::script::ScriptRunsSpecs#IsReplayOf).
    #[inline]
    pub fn run_script(script: &Script) -> Result<Ran, AllocError> {
        let header = &script.header;
        let calls = script.parts.calls();
        match &header.limiter_line {
            None => run_freely(header, calls),
            Some(LimiterLine::Quota(caps)) => run_under_quota(header, calls, *caps),
            Some(LimiterLine::Answers(answers)) => run_answered(header, calls, answers),
            Some(LimiterLine::Tenants(line)) => run_pool(script, *line),
        }
    }

    /// The meter that the header lines ask for. Without a `meter` line it is off.
    ///
    /// # Contract
    ///
    /// ```text
    /// ensures: result ≡ meter_of header.now
    /// ```
    ///
    /// Definitions: [`meter_of`](crate::specs::grammar::HeadersSpecs#meter_of).
    #[inline]
    fn fuel_of(header: &Header) -> Fuel {
        match header.meter {
            Some(MeterLine::On(bytes_copied_per_fuel)) => {
                let costs = CustomFuelCosts {
                    bytes_copied_per_fuel,
                    fuel_per_bytes_translated: 7,
                    fuel_per_bytes_validated: 2,
                };
                Fuel::new(true, FuelCostsProvider::custom(costs))
            }
            Some(MeterLine::Off) | None => Fuel::new(false, FuelCostsProvider::default()),
        }
    }

    /// The bytes of the region that the header lines ask for, if there is one.
    ///
    /// # Contract
    ///
    /// ```text
    /// ensures: IfOk result (λ region. option_map (λ bytes. bytes.items) region
    ///     ≡ option_map region_bytes header.now.region)
    /// ```
    ///
    /// Definitions: [`region_bytes`](crate::specs::grammar::HeadersSpecs#region_bytes).
    #[inline]
    fn region_of(header: &Header) -> Result<Option<Vec<u8>>, AllocError> {
        match header.region {
            None => Ok(None),
            Some(RegionLine { len, byte }) => Ok(Some(Vec::filled(byte, len)?)),
        }
    }

    /// A new machine with the meter of the header, which is lent this region if there is one.
    ///
    /// # Contract
    ///
    /// ```text
    /// ensures: result ≡ record (new_state (meter_of header.now))
    ///     { spare = option_map (λ bytes. bytes.items) (option_copied_mut region.entry) }
    /// ```
    ///
    /// Definitions: [`new_state`](crate::specs::machine::StateSpecs#new_state), [`meter_of`](crate::specs::grammar::HeadersSpecs#meter_of).
    #[inline]
    fn machine_of<'r>(header: &Header, region: Option<&'r mut Vec<u8>>) -> Machine<'r> {
        let fuel = fuel_of(header);
        match region {
            None => Machine::new(fuel),
            Some(bytes) => Machine::with_region(fuel, bytes.as_mut_slice()),
        }
    }

    /// The machine that the script starts with, or each of its tenants: a new one, as by `machine_of`,
    /// with the slots reserved that the header lines ask for.
    ///
    /// # Contract
    ///
    /// ```text
    /// ensures: IfOk result (λ machine. machine ≡ record (tenant_start header.now)
    ///     { spare = option_map (λ bytes. bytes.items) (option_copied_mut region.entry) })
    /// ```
    ///
    /// Definitions: [`tenant_start`](crate::specs::grammar::HeadersSpecs#tenant_start).
    #[inline]
    fn start<'r>(
        header: &Header,
        region: Option<&'r mut Vec<u8>>,
    ) -> Result<Machine<'r>, AllocError> {
        let mut machine = machine_of(header, region);
        machine.reserve(header.slots())?;
        Ok(machine)
    }

    /// Runs the calls on a new machine without a limiter.
    ///
    /// # Contract
    ///
    /// ```text
    /// ensures: IfOk result (IsReplayOnOne None header.now calls.now)
    /// ```
    ///
    /// Definitions: [`IsReplayOnOne`](crate::specs::script::ScriptRunsSpecs#IsReplayOnOne).
    #[inline]
    fn run_freely(header: &Header, calls: &[Call]) -> Result<Ran, AllocError> {
        let mut region = region_of(header)?;
        let mut machine = start(header, region.as_mut())?;
        let mut limiter = ResourceLimiterRef::<NoLimits>::default();
        let replies = run(&mut machine, calls, &mut limiter)?;
        let held = Held::Nothing;
        Ok(Ran { replies, held })
    }

    /// Runs the calls on a new machine under a quota of these caps.
    ///
    /// # Contract
    ///
    /// ```text
    /// ensures: IfOk result (IsReplayOnOne (Some (LimiterLine.Quota caps)) header.now calls.now)
    /// ```
    ///
    /// Definitions: [`IsReplayOnOne`](crate::specs::script::ScriptRunsSpecs#IsReplayOnOne).
    #[inline]
    fn run_under_quota(header: &Header, calls: &[Call], caps: Amounts) -> Result<Ran, AllocError> {
        let mut region = region_of(header)?;
        let mut machine = start(header, region.as_mut())?;
        let mut quota = Quota::new(caps.bytes, caps.elements);
        let replies = run_reserving(&mut machine, calls, &mut quota)?;
        let held = Held::Quota(Amounts {
            bytes: quota.held_bytes(),
            elements: quota.held_elements(),
        });
        Ok(Ran { replies, held })
    }

    /// Runs the calls on a new machine under a limiter that answers from a list.
    ///
    /// # Contract
    ///
    /// ```text
    /// ensures: IfOk result (λ ran.
    ///     IsListedReplay answers.now (start_of header.now) calls.now ran.replies.items ran.held)
    /// ```
    ///
    /// Definitions: [`IsListedReplay`](crate::specs::script::ScriptRunsSpecs#IsListedReplay), [`start_of`](crate::specs::grammar::HeadersSpecs#start_of).
    #[inline]
    fn run_answered(
        header: &Header,
        calls: &[Call],
        answers: &[LimiterAnswer],
    ) -> Result<Ran, AllocError> {
        let mut limiter = AnswerList::new(answers.try_to_vec()?);
        let mut region = region_of(header)?;
        let mut machine = start(header, region.as_mut())?;
        let replies = run_lending(&mut machine, calls, &mut limiter)?;
        let held = Held::Nothing;
        Ok(Ran { replies, held })
    }

    /// Runs the script's parts, each by its tenant, on a pool of new machines with its meter and slots.
    ///
    /// # Contract
    ///
    /// ```text
    /// ensures: IfOk result (IsPoolReplay line script.now)
    /// ```
    ///
    /// Definitions: [`IsPoolReplay`](crate::specs::script::ScriptRunsSpecs#IsPoolReplay).
    #[inline]
    fn run_pool(script: &Script, line: TenantsLine) -> Result<Ran, AllocError> {
        let mut pool = pool_of(&script.header, line)?;
        let parts = &script.parts;
        let mut replies = Vec::with_capacity(parts.calls().len())?;
        for index in 0..parts.len() {
            let (tenant, calls) = parts.get(index).unwrap();
            // No script names a tenant that its pool lacks, so an error is one of memory.
            let Ok(mut answered) = pool.run(tenant, calls) else {
                return Err(AllocError);
            };
            replies.append(&mut answered)?;
        }
        let held = Held::Tenants(pool);
        Ok(Ran { replies, held })
    }

    /// A pool of new machines with the header's meter and reserved slots, under the caps of the line.
    ///
    /// # Contract
    ///
    /// ```text
    /// ensures: IfOk result (λ pool. pool ≡ new_pool line (tenant_start header.now))
    /// ```
    ///
    /// Definitions: [`new_pool`](crate::specs::script::ScriptRunsSpecs#new_pool), [`tenant_start`](crate::specs::grammar::HeadersSpecs#tenant_start).
    #[inline]
    fn pool_of(header: &Header, line: TenantsLine) -> Result<Pool<'static>, AllocError> {
        let mut pool = Pool::new(line.caps.bytes, line.caps.elements);
        for _index in 0..line.count {
            // A new machine has nothing, so only memory for its place can be refused.
            if pool.add(start(header, None)?).is_err() {
                return Err(AllocError);
            }
        }
        Ok(pool)
    }
}

pub use crate::proved::grammar::ParseError;
pub use error::ReplayError;
pub use lines::write_lines;
pub use printing::{ReplyHead, print_lines};
pub use replaying::{Input, LIMIT, Output, Status, replay, replay_bytes};
