//! Rules made wrong on purpose. A reader has one of these, or `None`; that the
//! generator's answers change under each shows that it looks where they bite.

macro_rules! wrong_rules {
    ($($(#[$doc:meta])* $name:ident,)* ; $($(#[$of_two:meta])* $two:ident,)*) => {
        /// Which rule is wrong.
        #[derive(Clone, Copy, Debug, PartialEq, Eq)]
        pub enum Wrong {
            /// Every rule is as the documents say.
            None,
            $($(#[$doc])* $name,)*
            $($(#[$of_two])* $two,)*
        }

        /// Every wrong rule about one dump.
        pub const WRONG_RULES: &[Wrong] = &[$(Wrong::$name,)*];

        /// Every wrong rule about two dumps that are compared.
        pub const WRONG_COMPARING: &[Wrong] = &[$(Wrong::$two,)*];
    };
}

wrong_rules! {
    // Layouts and lengths.
    /// K decides nothing.
    BlockIgnored,
    /// A dump too long or empty is BadLength even under a bad layout.
    BadLengthBeforeBadLayout,

    // Page kinds.
    /// Sequence 0x1000 is foreign.
    LowestSequenceForeign,
    /// Sequence 0xFFF is not foreign.
    SequenceBelowLowestTaken,
    /// Sequence 0xEFFFFF00 is foreign.
    HighestSequenceForeign,
    /// Sequence 0xEFFFFF01 is not foreign.
    SequenceAboveHighestTaken,
    /// With chunk word 0 the id is the low 28 bits.
    IdMasked,
    /// A byte count of P is Damaged.
    FullCountDamaged,
    /// A byte count of P + 1 is data.
    CountAbovePageTaken,
    /// A byte count of 0 is data.
    CountZeroTaken,
    /// The tag type may differ from the page type.
    TagTypeNotCompared,
    /// The page type is its first byte: 0x101 is a file.
    TypeOfOneByte,
    /// The shrink mark is the value 1 alone.
    ShrinkMarkOnlyOne,
    /// The shrink mark stands where it would with an alias of 128 bytes.
    ShrinkAtOldPlace,
    /// The in-band word sets the shrink mark.
    ShrinkInBand,
    /// A file whose size has a high word is as long as 32 bits can say.
    SizeHighRead,

    // Header fields.
    /// The alias has 128 bytes.
    AliasCutShort,
    /// The alias has 164 bytes.
    AliasOverRdev,
    /// The fields behind the alias stand as if it had 128 bytes.
    FieldsAtOldPlaces,
    /// The reserved bytes are 8, from the size's high word on.
    ReservedWithSizeHigh,
    /// The size's high word is the in-band shrink word.
    SizeHighOfInBandShrink,

    // Finding.
    /// Among equal scores the last candidate wins.
    LastBestWins,
    /// Candidates go by T, then by pair.
    CandidatesByOffset,
    /// Candidates go by rising page size.
    CandidatesBySize,
    /// Pages before a block's first good one score too.
    PagesBeforeFirstGoodScore,
    /// A block's sequence is that of its last good page.
    BlockSequenceOfLastGood,
    /// A block's sequence is that of its first page, good or not.
    BlockSequenceOfFirstPage,
    /// Blank pages count as not blank.
    BlankCountedNotBlank,
    /// Exactly half does not fit.
    MoreThanHalfNeeded,
    /// One good page is enough to fit.
    HalfNotNeeded,
    /// The type tests decide what is good.
    FindReadsTypes,
    /// The first candidate that fits wins, whatever its score.
    FirstFitWins,
    /// The highest score is chosen before it is asked whether it fits.
    HighestChosenBeforeFit,
    /// Where two have the highest score, none wins.
    ClearWinnerNeeded,
    /// Among equal scores the one with more of it in the first block wins.
    TiesByFirstBlock,
    /// Between candidates the first half of their blocks decides.
    FirstHalfRanks,
    /// Half is needed at the end of every block, not of the last alone.
    HalfNeededThroughout,
    /// Pages of the last block are not counted as not blank.
    LastBlockNotCounted,

    // Newest, size and cuts.
    /// A record is of every object.
    EveryObjectsRecords,
    /// Records are ordered by page number alone.
    OrderByPageAlone,
    /// A lower sequence is newer.
    LowerSequenceNewer,
    /// Under equal sequences the lower page is newer.
    LowerPageNewer,
    /// Sequences are compared as signed numbers.
    SequenceSigned,
    /// The file ends where the newest header says.
    SizeOfHeaderAlone,
    /// Data older than the newest header makes the file longer.
    SizeOfAllData,
    /// What data reaches to is kept in 32 bits.
    SizeWraps,
    /// Old shrink-marked headers do not cut.
    OldBytesComeBack,
    /// Every file header cuts.
    EveryHeaderCuts,
    /// The newest header cuts only if it is shrink-marked.
    NewestHeaderNoCut,
    /// The newest header of a file cuts, whatever header is newer.
    NewestOfFilesCuts,
    /// A header that is no file cuts if shrink-marked.
    MarkCutsEveryType,
    /// Headers older than a copy cut it.
    EarlierCutsCount,
    /// A deleted directory's header does not cut.
    DirectoryDeletionNoCut,
    /// A deletion cuts only as the newest header.
    OldDeletionNoCut,
    /// Parent 4 is not deleted.
    ParentFourLive,
    /// Parent 3 is not deleted.
    ParentThreeLive,
    /// The oldest data record is the copy.
    OldestCopyWins,
    /// An older copy's bytes follow a shorter newer one.
    OlderCopyFillsIn,
    /// Only a cut below a chunk's start hides it.
    HiddenOnlyBelow,
    /// A later cut does not shorten the valid length.
    ValidNotCut,
    /// Of the later cuts inside a copy the newest shortens it, not the lowest.
    ValidToNewestCut,
    /// The shown length is P everywhere.
    ShownNotLimited,
    /// A read clears its buffer to the end.
    ReadClearsBuffer,

    // Visits.
    /// The record a lookup ends at is not counted.
    VisitsWithoutLast,
    /// One record more is counted, where there is one.
    VisitsOneFurther,
    /// A hole's visits end at the newest header.
    HoleVisitsToHeader,
    /// A copy's visits end at the copy, above the newest header too.
    CopyVisitsToCopy,
    /// A copy's visits end at the newest header, above the copy too.
    CopyVisitsToHeader,
    /// ShortBuffer reports no visits.
    ShortBufferVisitsNone,

    // Index.
    /// Lookups see pages that were not added.
    PagesNotAddedSeen,
    /// A page that is no record may be added again.
    NonRecordAddedAgain,
    /// A page may be added again.
    EveryPageAddedAgain,
    /// A start keeps earlier additions.
    StartKeepsAdditions,
    /// A refused start forgets all additions.
    RefusedStartForgets,
    /// One index word fewer is enough.
    IndexOneWordShort,
    /// A start clears all words that it is lent.
    StartClearsAllLent,
    /// A start leaves the words that no rule reads.
    StartLeavesUnused,

    /// A run of older records takes the record itself too.
    OlderWithItself,
    /// A run of older records takes those on lower pages.
    OlderByPage,
    /// A run of older records leaves out those of the same sequence.
    OlderBySequenceAlone,
    /// A run of older records takes those of the record's object alone.
    OlderOfOneObject,
    /// A run of older records takes every record.
    EveryPageOlder,
    /// A run of older records takes pages that are none.
    OlderWithoutRecords,
    /// Every record is older than a page that is none.
    OlderThanNoRecord,
    /// A refused addition does not end a run.
    RunPassesRefused,

    // What the words say.
    /// A start keeps no seed.
    SeedNotKept,
    /// The seed moves no home.
    SeedIgnored,
    /// The seed is added to the id.
    SeedAdded,
    /// What is added to the id is not squared.
    MixedWithoutSquare,
    /// The id itself is left out of the home.
    MixedWithoutId,
    /// There are as many slots as pages.
    SlotForEachPage,
    /// Slots are searched from the object's home upwards.
    SlotsSearchedUpwards,
    /// A free slot does not end the search.
    FreeSlotPassed,
    /// Where no slot serves, it is slot 0.
    FullTableTakesSlotZero,
    /// An object's chain is that of its slot, whatever key that has.
    KeyNotCompared,
    /// A link outside the dump ends the chain.
    LinkOutsideEnds,
    /// A link may lead to a record of another object.
    LinkToOtherObjectTaken,
    /// A link may lead to any record of the object.
    LinkToNewerTaken,
    /// A link may lead to the record that it belongs to.
    LinkToItselfTaken,
    /// A record whose page has no mark ends the chain.
    LookupsReadMarks,
    /// A damaged link ends the chain like any other end.
    DamageIsAnEnd,
    /// A damaged link is met wherever it stands in the chain.
    EveryLinkMet,
    /// A hidden copy ends the walk.
    HiddenCopyEndsWalk,
    /// IndexDamaged reports the records before the damaged link.
    DamagedVisitsCounted,
    /// An addition meets every link of the chain.
    AddMeetsEveryLink,
    /// An addition overlooks a damaged link.
    AddMeetsNoDamage,
    /// A page without a mark may be added again, though the chain has it.
    UnmarkedAddedAgain,
    /// A marked record that the chain has not may be added.
    MarkOfRecordIgnored,
    /// A slot taken over keeps its first link.
    ClaimKeepsFirst,
    /// A record with nothing older behind it gets no mark.
    LastRecordUnmarked,
    /// A listing goes over every used slot, the key's own or not.
    ListOfEverySlot,
    /// A listing passes over keys that no object has.
    ListWithoutHighKeys,
    /// A listing passes over objects whose links are damaged.
    ListPassesDamage,
    /// A listing that does not fit is ShortBuffer, damaged or not.
    ListShortBufferFirst,

    // Tables.
    /// A last chunk that is not full has no row.
    TableWithoutBrokenChunk,
    /// There is a row for the chunk behind a last full one.
    TableOneRowMore,
    /// Chunks without numbers have rows too.
    TableBeyondNumbers,
    /// What a table needs is given in rows.
    TableNeedInRows,
    /// A table of just the rows is too short.
    TableOneWordMore,
    /// A table that is too short is cleared.
    ShortTableCleared,
    /// Words past the rows are cleared.
    TableClearsRest,
    /// The row of a hole is left as it was.
    HoleRowUnwritten,
    /// A damaged link met by a row refuses the whole table.
    DamagedRowRefuses,
    /// A row that meets a damaged link says that it is a hole.
    DamagedRowIsHole,
    /// A row says the number of the page as it stands.
    RowNamesPage,
    /// A row says the shown length.
    RowHasShown,
    /// The bytes of a row are those of the page with its first word's number.
    RowOfPage,
    /// The bytes of a row may reach into the spare.
    RowReachesSpare,

    // Copies and records.
    /// A copy that a newer one supersedes is listed.
    CopiesWithOlder,
    /// A copy that a cut hides is listed.
    CopiesWithHidden,
    /// A copy behind the file's end is listed.
    CopiesPastEnd,
    /// Copies are listed in the order of their pages.
    CopiesByPage,
    /// Copies are listed as the chain has them.
    CopiesAsMet,
    /// A copy is listed with its shown length.
    CopiesHaveShown,
    /// What copies need is given as one row each.
    CopiesNeedOneEach,
    /// Rows that are needed beyond the copies are left as they were.
    CopiesLeaveRoom,
    /// Rows that are not needed are cleared.
    CopiesClearAll,
    /// A damaged link at the end of the chain is told, though every chunk has a copy.
    BrokenIsDamaged,
    /// No damaged link is told.
    NeverDamaged,
    /// A row has its page above its chunk.
    RowByPage,
    /// A row's page has one bit fewer.
    PageOfRowCut,
    /// Records are listed in the order of their pages.
    RecordsByPage,
    /// Records are listed from the oldest on.
    RecordsOldestFirst,
    /// Records below the newest header are not listed.
    RecordsFromHeader,
    /// A damaged link ends the records like any other end.
    RecordsPassDamage,

    // Why a byte is what it is.
    /// The oldest of the headers that cut is named.
    WhyOldestCuts,
    /// Of the headers that cut, the one that cuts lowest is named.
    WhyLowestCuts,
    /// Where some header cuts, the newest header is named.
    WhyNewestHeaderCuts,
    /// Of the headers that cut, the one on the highest page is named.
    WhyHighestPageCuts,
    /// The byte count is asked before the cuts.
    WhyCountBeforeCut,
    /// A header that cuts at the position itself does not cut.
    WhyCutOnlyBelow,
    /// Headers older than the copy cut it.
    WhyEarlierCuts,
    /// A copy that is hidden from its begin on is no copy.
    WhyHiddenIsNoCopy,
    /// A chunk above 0xFFFFF is looked for by its low bits.
    WhyLowBitsOfChunk,
    /// The byte at the size is inside.
    WhySizeInside,
    /// Data that ends at the size sets it, older than the newest header too.
    WhyOlderDataSets,
    /// The newest header sets the size, whatever newer data does.
    WhyHeaderSets,
    /// Of the pages that set the size the oldest is named.
    WhyOldestSets,
    /// A byte that is held is named by its position in the file.
    WhyByteOfFile,
    /// The copy's byte is shown behind its byte count.
    WhyCountedShown,
    /// A reason holds for one position more.
    WhyUntilOneTooFar,
    /// A hole ends with each chunk.
    WhyHoleByChunk,
    /// What one header cuts ends with each chunk.
    WhyCutByChunk,
    /// What is held goes on over a later cut.
    WhyHeldOverCut,
    /// Past the end the reason holds up to the size.
    WhyPastEndUntilSize,
    /// A run inside the file goes on beyond its size.
    WhyRunBeyondSize,
    /// What is cut is one run, whichever headers cut it.
    WhyCutsAreOne,
    /// What reads 0 is one run, whatever the reason.
    WhyZerosAreOne,
    /// Past the end is answered before the object is refused.
    WhyPastEndFirst,
    /// BadObject is given before BadPage.
    BadObjectBeforeBadPage,
    /// The runs of a file leave out the holes.
    SpansWithoutHoles,
    /// The runs of a file have one more behind its end.
    SpansWithEnd,
    /// The runs of a file come in the order of their pages.
    SpansByPage,

    // How records stand.
    /// The next newer copy supersedes, not the newest.
    StandsByNextCopy,
    /// The copy on the highest page supersedes.
    StandsByCopyOnPage,
    /// A copy that is cut supersedes none.
    StandsCutSupersedesNot,
    /// A copy that ends sooner supersedes none.
    StandsShorterSupersedesNot,
    /// Whether it is cut is asked before whether it is superseded.
    StandsCutFirst,
    /// Whether the object is a file is asked first.
    StandsNoFileFirst,
    /// Whether the object is a file is asked before whether it is cut.
    StandsNoFileBeforeCut,
    /// A header that cuts at or below its chunk's end cuts it.
    StandsCutAtEnd,
    /// A header that cuts inside its bytes cuts it.
    StandsCutInside,
    /// What a deletion cuts is not cut.
    StandsDeletionNoCut,
    /// What the newest header cuts is not cut.
    StandsNewestNoCut,
    /// It holds the rest of its page.
    StandsHoldsPage,
    /// It holds what its chunk shows.
    StandsHoldsShown,
    /// The newest header does not shorten what it holds.
    StandsHoldsPastSize,
    /// What it holds is told in 32 bits.
    StandsHoldsWraps,
    /// What it holds is told by its length.
    StandsHoldsLength,
    /// What it holds is told by places in its page.
    StandsHoldsInPage,
    /// What it holds is told up to its last byte.
    StandsHoldsToLast,
    /// The header on the highest page stands as the newest.
    StandsTopByPage,
    /// The newest header of a file stands as the newest.
    StandsTopOfFiles,
    /// The newest header that does not delete stands as the newest.
    StandsTopLive,
    /// No header with newer data stands as the newest.
    StandsTopOfRecords,
    /// Data of a deleted file holds.
    StandsDeletedHolds,
    /// Data without a header holds.
    StandsHeaderlessHolds,
    /// Data of what is no file holds.
    StandsOtherTypesHold,
    /// Data of what was once a file holds.
    StandsOnceAFile,
    /// Records stand in the order of their pages.
    StandsByPage,
    /// Records stand from the newest on.
    StandsNewestFirst,
    /// Records below the newest header are left out.
    StandsFromHeader,
    /// Records stand, and have the history, of the dump as it stands, before every record.
    StandsAsItStands,
    /// Where a size is refused, so is how records stand.
    StandsRefusedAsSize,

    // Histories.
    /// A size never falls.
    HistoryNeverFalls,
    /// A header without the mark lowers no size.
    HistoryUnmarkedKeeps,
    /// After data the file ends where that does.
    HistoryOwnEnd,
    /// Data before the first header is no object.
    HistoryHeaderlessAbsent,
    /// Data before the first header makes a file.
    HistoryHeaderlessSized,
    /// A deleted file has the size 0.
    HistoryDeletedEmpty,
    /// A deleted file keeps its size.
    HistoryDeletedSized,
    /// What was deleted once stays so.
    HistoryDeletedStays,
    /// Data after a deletion makes a file again, and data of what is no file does.
    HistoryDataRevives,
    /// What is no file has a size.
    HistoryTypesSized,
    /// The newest header of all decides what the object was.
    HistoryTypeOfNewest,
    /// What is told of a record is what was before it.
    HistoryBeforeEach,
    /// Records on lower pages were there before.
    HistorySeesLowerPages,
    /// The history is in the order of pages.
    HistoryByPage,
    /// The history goes from the newest record on.
    HistoryNewestFirst,
    /// The history is that of headers alone.
    HistoryOfHeaders,
    /// The history has the records that change something.
    HistoryOfChanges,
    /// Where a size is refused, so is the history.
    HistoryRefusedAsSize,

    // The tree.
    /// An object of depth 33 is listed.
    TreeDepth33Listed,
    /// Depth 31 is the last that is listed.
    TreeDepth32NotListed,
    /// Where more than 32 directories stand above an object it is too deep,
    /// wherever its parents lead.
    TreeTooDeepFirst,
    /// Parents are followed round a loop, until it is too deep.
    TreeLoopFollowed,
    /// The object itself does not make a loop.
    TreeStartNotMet,
    /// A loop that the object is not on itself is followed.
    TreeLoopToStartAlone,
    /// A loop may go through what is no directory.
    TreeLoopThroughFile,
    /// A deleted parent is missing.
    TreeDeletedIsMissing,
    /// Parents are followed beyond a deleted directory.
    TreeDeletedPassed,
    /// A missing parent is deleted.
    TreeMissingIsDeleted,
    /// A parent that has data alone is no directory.
    TreeHeadlessNoDirectory,
    /// That a parent is no directory is asked before whether it is deleted.
    TreeNonDirectoryFirst,
    /// A symbolic link has entries.
    TreeLinksFollowed,
    /// A hard link has entries.
    TreeHardLinksFollowed,
    /// Entries are listed in the order of their pages.
    TreeEntriesByPage,
    /// Entries are listed by name.
    TreeEntriesByName,
    /// Entries are listed from the highest id down.
    TreeEntriesDescending,
    /// Directories are listed before the other entries.
    TreeDirectoriesFirst,
    /// The entries of directories follow all entries beside these.
    TreeEntriesAfterAll,
    /// Object 1 is listed where it is an entry.
    TreeRootAsEntry,
    /// Object 1 is in the second list.
    TreeRootAmongOthers,
    /// Object 1 is the root only if it has a header.
    TreeRootNeedsHeader,
    /// Object 1 is the root only if it is a directory.
    TreeRootNeedsDirectory,
    /// Object 1 is the root only if it is not deleted.
    TreeRootNeedsLive,
    /// An object with parent 0 stands under the root.
    TreeParentZeroIsRoot,
    /// Of a parent the low 28 bits count.
    TreeHighParentMasked,
    /// The parent is the one that the tags name.
    TreeParentOfTags,
    /// The parent is that of the oldest header.
    TreeParentOfOldest,
    /// The type is that of the oldest header.
    TreeTypeOfOldest,
    /// The name is that of the oldest header.
    TreeNameOfOldest,
    /// A name has all of its 256 bytes.
    TreeNameWhole,
    /// A name ends at a newline.
    TreeNameEndsAtNewline,
    /// A name has at most 255 bytes.
    TreeName255,
    /// A slash in a name is shown as something else.
    TreeSlashInNameShown,
    /// A newline in a name is escaped in the text.
    TreeNewlineEscaped,
    /// A name of two dots leads upwards.
    TreeDotsFollowed,
    /// An empty name makes no step.
    TreeEmptyNameNoStep,
    /// A path is the name alone.
    TreePathOfNameAlone,
    /// The second list is in the order of pages.
    TreeOthersByPage,
    /// The second list goes by reasons.
    TreeOthersByReason,
    /// Deleted objects are in the second list.
    TreeDeletedListed,
    /// Objects of data alone are in the second list.
    TreeHeadlessListed,
    /// An unlinked object is live.
    TreeUnlinkedLive,
    /// The tree is that of the dump as it stands, before every record.
    TreeAsItStands,

    // Counting.
    /// Only live objects are counted.
    CountOfLive,
    /// Only objects with a header are counted.
    CountOfHeaders,
    /// Stored ids are counted, with a record or without.
    CountOfKeys,
    /// Counting passes over damaged links.
    CountPassesDamage,

    // Refusals.
    /// ShortBuffer is given before PastEnd.
    ShortBufferBeforePastEnd,
    /// BadChunk is given before BadObject.
    BadChunkBeforeBadObject,
    /// BadPage is given before ShortIndex.
    BadPageBeforeShortIndex,
    /// AlreadyAdded is given before IndexDamaged.
    AlreadyAddedBeforeDamaged,
    /// NotAFile is given before Deleted.
    NotAFileBeforeDeleted,
    /// A buffer of just the shown length is too short.
    BufferOneByteMore,
    /// A hole needs no buffer.
    HoleNeedsNoBuffer,
    /// Header fields are given for a damaged header.
    DamagedHeaderGiven,

    // Listing.
    /// Ids are listed as they are met.
    ListUnsorted,
    /// Deleted objects are listed.
    ListWithDeleted,
    /// Objects of data alone are listed.
    ListWithHeaderless,
    /// Only files are listed.
    ListOfFiles,

    ;

    // Two dumps compared: which objects.
    /// Only objects of the first dump are compared.
    CompareIdsOfFirst,
    /// Only objects of the second dump are compared.
    CompareIdsOfSecond,
    /// Only objects of both dumps are compared.
    CompareIdsOfBoth,
    /// Only objects that are live in some dump are compared.
    CompareIdsOfLive,
    /// Only objects that have a header in some dump are compared.
    CompareIdsWithHeaders,
    /// Only objects that are files in some dump are compared.
    CompareIdsOfFiles,
    /// Objects of the second dump alone come behind all others.
    CompareIdsAsMet,
    /// Objects come from the highest id down.
    CompareIdsDescending,
    /// Objects that do not differ are named too.
    CompareAlikeNamed,
    /// A deleted object is not in the dump.
    CompareDeletedAbsent,
    /// An object of data alone is not in the dump.
    CompareHeaderlessAbsent,
    /// `only=` names the dump that lacks the object.
    CompareOnlyOfOther,
    /// An object of one dump alone is no difference.
    CompareOnlyNotTold,
    /// `only=` is followed by whether the object is deleted.
    CompareOnlyWithDeleted,
    /// `only=` is followed by whether the object has no header.
    CompareOnlyWithNoHeader,
    /// `only=` is followed by the file's size.
    CompareOnlyWithSize,

    // Two dumps compared: deleted, and without a header.
    /// Deleted on one side is no difference.
    CompareDeletedNotTold,
    /// Deleted is told of each side, though both are.
    CompareDeletedOnBoth,
    /// `deleted=` names the side that is not.
    CompareDeletedOfOther,
    /// Deleted is told of the second dump alone.
    CompareDeletedOfSecond,
    /// Deleted is told only where both have headers.
    CompareDeletedNeedsHeaders,
    /// Without a header on one side is no difference.
    CompareNoHeaderNotTold,
    /// Without a header is told of each side, though both are.
    CompareNoHeaderOnBoth,
    /// `noheader=` names the side that has one.
    CompareNoHeaderOfOther,
    /// Without a header is told of the second dump alone.
    CompareNoHeaderOfSecond,
    /// Without a header is told only where the other is live.
    CompareNoHeaderUnlessDeleted,
    /// `noheader=` comes before `deleted=`.
    CompareNoHeaderFirst,
    /// An object of data alone is deleted.
    CompareHeaderlessDeleted,

    // Two dumps compared: fields.
    /// The type is not compared.
    CompareWithoutType,
    /// The parent is not compared.
    CompareWithoutParent,
    /// The name is not compared.
    CompareWithoutName,
    /// The mode is not compared.
    CompareWithoutMode,
    /// The owner is not compared.
    CompareWithoutUid,
    /// The group is not compared.
    CompareWithoutGid,
    /// The time of access is not compared.
    CompareWithoutAccessed,
    /// The time of modification is not compared.
    CompareWithoutModified,
    /// The time of creation is not compared.
    CompareWithoutCreated,
    /// The file size that the header says is not compared.
    CompareWithoutFileSize,
    /// The equivalent id is not compared.
    CompareWithoutEquivalent,
    /// The alias is not compared.
    CompareWithoutAlias,
    /// The device number is not compared.
    CompareWithoutRdev,
    /// The first Windows time is not compared.
    CompareWithoutWinCreated,
    /// The second Windows time is not compared.
    CompareWithoutWinAccessed,
    /// The third Windows time is not compared.
    CompareWithoutWinModified,
    /// The shadowed id is not compared.
    CompareWithoutShadowed,
    /// The shrink word is not compared.
    CompareWithoutShrink,
    /// The first unused bytes are compared.
    CompareUnused1,
    /// The second unused bytes are compared.
    CompareUnused2,
    /// The in-band shadow word is compared.
    CompareInBandShadow,
    /// The in-band shrink word is compared.
    CompareInBandShrink,
    /// The size's high word is compared.
    CompareSizeHigh,
    /// The reserved bytes are compared.
    CompareReserved,
    /// Fields are compared of live objects alone.
    CompareFieldsOfLive,
    /// Fields are not compared where one side alone is deleted.
    CompareFieldsUnlessDeleted,
    /// Fields are compared of live files alone.
    CompareFieldsOfFiles,
    /// Fields of a header differ from none as from zeros.
    CompareFieldsOfNoHeader,
    /// The oldest headers are compared.
    CompareOldestHeaders,
    /// Of the headers those with the latest time are compared.
    CompareHeadersByTime,
    /// Names are compared up to their first zero byte.
    CompareNamesToZero,
    /// Aliases are compared up to their first zero byte.
    CompareAliasesToZero,
    /// Of a name 255 bytes are compared.
    CompareNamesShort,
    /// Of an alias 159 bytes are compared.
    CompareAliasesShort,
    /// Names are compared without regard to case.
    CompareNamesAnyCase,
    /// Of the shrink word it is compared whether it is 0.
    CompareShrinkAsMark,
    /// Of a number the low 32 bits are compared.
    CompareNumbersLow,
    /// Of the mode the bits of permission are compared.
    CompareModeBits,
    /// A field is named by its place in the table.
    CompareFieldsByPlace,
    /// Offsets are hexadecimal.
    CompareOffsetsHex,
    /// Fields come from the highest offset down.
    CompareFieldsDescending,
    /// The first field that differs is told alone.
    CompareFirstFieldAlone,

    // Two dumps compared: sizes.
    /// Sizes are not compared.
    CompareSizesNotTold,
    /// Sizes are told where anything differs, though equal.
    CompareSizesThoughEqual,
    /// Sizes are told only where no stretch differs.
    CompareSizesOrStretches,
    /// The second dump's size comes first.
    CompareSizesExchanged,
    /// Of two sizes the first dump's is told alone.
    CompareSizeOfFirst,
    /// Of two sizes the second dump's is told alone.
    CompareSizeOfSecond,
    /// Sizes come before fields.
    CompareSizesBeforeFields,
    /// The size is what the newest header says.
    CompareSizeOfHeader,
    /// Size and bytes of deleted files are compared.
    CompareDeletedFilesToo,
    /// Size and bytes of every live object are compared.
    CompareEveryTypeToo,
    /// Size and bytes of live hard links are compared.
    CompareLinksToo,
    /// Size and bytes are compared where the first dump has a live file.
    CompareFilesByFirst,
    /// Size and bytes are compared where the second dump has a live file.
    CompareFilesBySecond,
    /// What is no live file has a size of 0.
    CompareOthersEmpty,

    // Two dumps compared: stretches.
    /// A stretch has 256 bytes.
    CompareStretchOf256,
    /// A stretch has 1024 bytes.
    CompareStretchOf1024,
    /// A stretch has the bytes of a page of the first dump.
    CompareStretchOfPage,
    /// Stretches count from 1.
    CompareStretchesFromOne,
    /// A stretch is named by its first byte.
    CompareStretchesByByte,
    /// Stretches come from the last one down.
    CompareStretchesDescending,
    /// The first stretch that differs is told alone.
    CompareFirstStretchAlone,
    /// The last stretch that differs is told alone.
    CompareLastStretchAlone,
    /// Bytes are compared up to the larger size.
    CompareToLarger,
    /// Bytes are compared up to the first dump's size.
    CompareToSizeOfFirst,
    /// Bytes are compared up to the second dump's size.
    CompareToSizeOfSecond,
    /// The last stretch is not cut off at the smaller size.
    CompareLastWhole,
    /// A last stretch that is cut off is not compared.
    CompareLastLeftOut,
    /// Bytes are compared only where the sizes are equal.
    CompareBytesOfEqualSizes,
    /// Bytes are compared only where the sizes differ.
    CompareBytesOfOtherSizes,
    /// Where one side has a hole nothing is compared.
    CompareHeldInBoth,
    /// Only what the first dump has copies of is compared.
    CompareHeldInFirst,
    /// Only what the second dump has copies of is compared.
    CompareHeldInSecond,
    /// A hole differs from a copy, whatever that has.
    CompareHolesDiffer,
    /// A hole shows 0xFF.
    CompareHolesErased,
    /// A copy that a cut hides is shown.
    CompareHiddenShown,
    /// A cut inside a copy leaves its bytes.
    CompareCutsNoBytes,
    /// A copy is shown beyond its byte count and later cuts.
    CompareCountsIgnored,
    /// A chunk above 0xFFFFF is looked for by its low bits.
    CompareLowBitsOfChunk,
    /// Chunks of both are counted by the first dump's page size.
    CompareDataSizeOfFirst,

    // Two dumps compared: two dumps.
    /// Both dumps have the first one's K.
    CompareBlockOfFirst,
    /// Both dumps have the first one's layout.
    CompareLayoutOfFirst,
    /// The first dump's refusal comes before any of the second's.
    CompareFirstRefusedFirst,
    /// The second dump's refusal comes before any of the first's.
    CompareSecondRefusedFirst,
}
