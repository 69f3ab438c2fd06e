//! Why something is refused.

use std::fmt;

macro_rules! refusals {
    ($($number:literal $name:ident $text:literal)*) => {
        /// The rule that something breaks.
        #[derive(Clone, Copy, Debug, PartialEq, Eq, Hash)]
        #[non_exhaustive]
        #[repr(u32)]
        pub enum Rule { $(#[doc = $text] $name = $number),* }

        impl Rule {
            /// All rules, by number.
            pub const ALL: &'static [Rule] = &[$(Rule::$name),*];

            /// The rule with a number.
            pub fn from_number(number: u32) -> Option<Rule> {
                match number { $($number => Some(Rule::$name),)* _ => None }
            }

            /// The name of the rule.
            pub fn name(self) -> &'static str {
                match self { $(Rule::$name => stringify!($name)),* }
            }

            /// What is refused, in words.
            pub fn text(self) -> &'static str {
                match self { $(Rule::$name => $text),* }
            }
        }
    };
}

refusals! {
    1 ShortImage "the image has fewer than 512 bytes"
    2 BadMagic "the image does not begin with \"SQLite format 3\" and a zero"
    3 BadPageSize "the page size at offset 16 is neither a power of two from 512 to 32768 nor 1 (for 65536)"
    4 PartialPage "the image's length is no whole number of pages"
    5 TooManyPages "the database has over 2,200,000 pages"
    6 SmallUsableSize "the page size less the reserved bytes is under 480"
    7 BadFractions "the payload fractions at offsets 21 to 23 are not 64, 32, 32"
    8 BadReadVersion "the read version at offset 19 is not 1 or 2"
    9 BadPageCount "fewer pages are present than the count at offset 28 says"
    10 IncrementalVacuum "the number at offset 64 (incremental vacuum) is set while the one at 52 (auto-vacuum) is zero"
    11 ReservedHeader "the reserved bytes 72 to 91 of the header are not all zero"
    12 SmallLedgers "a ledger has fewer entries than the database has pages"
    13 LongInput "standard input has over 65,536 bytes"
    20 PointerRange "a pointer names a page that the image does not have"
    21 NamedTwice "the page is named a second time (page 1, a pointer map or the lock-byte page by its very first pointer)"
    22 PageType "the page's type byte does not suit its place"
    23 NotSound "the page's cells, freeblocks and fragments do not account for each of its bytes"
    24 TreeLevel "the page would be level 21 of its tree, or is a leaf at another level than the leaves before it"
    25 RowOrder "the page's row numbers are out of order"
    26 LongPayload "the page has a payload of over 65,536 bytes"
    27 ChainLength "an overflow chain ends too early or too late"
    28 BadRecord "the page has a cell whose payload does not read as a record; or a schema row that has not five columns, or whose root is no page from 2 on"
    29 Freelist "a trunk's count is too large, or the freelist's total is not the number at offset 36"
    30 NeverNamed "nothing names the page"
    31 MapEntry "the pointer map's entry about the page says another kind, or another number than its namer (0 for a root or a free page)"
    32 LargestRoot "the number at offset 52 is not the largest root page"
    33 KeyOrder "the page has a key, of an index that was named, that is not more than the key before it"
    34 TextEncoding "an index was named, and the text encoding at offset 56 is not 1 (UTF-8)"
    35 NoIndexRoot "the page that was named as an index is no index root"
    40 LogVersion "the log's version is not 3007000"
    41 RecoverySize "a page size or sector size is no power of two from 512 to 65536, or the words of a tail have no page size or no order of bytes"
    42 RecoveredPages "the recovered database would have over 2,200,000 pages"
    43 PageNowhere "a page of the recovered database, not the lock-byte page, is in neither of the two files"
    44 SmallOutput "the lent output, cursor, tail or room is too small"
    45 RecordedTwice "the journal has two records for one page"
    46 NoSuchPlace "the page or cell that was asked for does not exist"
    47 SmallTable "the table of frames has fewer entries than the database has pages; or it, or a log's tail, would hold a frame numbered past 4,294,967,295"
    48 BadRows "the rows to be built do not rise by number, are over 4,096, or come in lists that disagree in length"
    49 StaleCursor "the cursor's path does not stand in the image, does not end at a leaf cell, or has a page that fails a test"
    50 NoLogHeader "the log has no header that is accepted: it has under 32 bytes, another magic, or wrong sums"
    51 BadCommit "the commit to be appended has no pages, one that it may not hold, or other bytes than its list of pages says"
    53 NoTableRoot "the root is page 1, or no root by the ledger that was lent; or the row's leaf is page 1"
    54 DoesNotFit "the row has an overflow chain, or the record to be set would need one, or the page has no room for it"
}

#[allow(non_upper_case_globals)]
impl Rule {
    /// The older name of [`Rule::IncrementalVacuum`].
    pub const AutoVacuum: Rule = Rule::IncrementalVacuum;
    /// The older name of [`Rule::BadRecord`].
    pub const SchemaRow: Rule = Rule::BadRecord;

    /// The number of the rule.
    pub fn number(self) -> u32 {
        self as u32
    }
}

/// A refusal: the rule that is broken, and the page that it reports, if any.
#[derive(Clone, Copy, Debug, PartialEq, Eq, Hash)]
pub struct Refusal {
    pub rule: Rule,
    pub page: Option<u32>,
}

impl Refusal {
    /// The answer of a C function as a result.
    pub(crate) fn test(number: u32, page: u32) -> Result<(), Refusal> {
        if number == 0 {
            return Ok(());
        }
        let rule = Rule::from_number(number).expect("the library refuses by a rule that is known");
        // What is named as an index may be page 0.
        Err(Refusal { rule, page: (page != 0 || rule == Rule::NoIndexRoot).then_some(page) })
    }
}

impl fmt::Display for Refusal {
    fn fmt(&self, f: &mut fmt::Formatter) -> fmt::Result {
        write!(f, "refused {}", self.rule.number())?;
        if let Some(page) = self.page {
            write!(f, ", page {page}")?;
        }
        write!(f, ": {}", self.rule.text())
    }
}

impl std::error::Error for Refusal {}
