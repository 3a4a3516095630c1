//! The oracle against what document 01 prints, with 02's changes: its example, its edges, and the order of its
//! numbers; and against losses of the low side and basic charges worked out by hand.
use oracle::basic_charge::{factor, SupplyPoints};
use oracle::bits::{pack, unpack};
use oracle::book::{open, post, Book};
use oracle::call_lists::start;
use oracle::fraction::{fraction, whole};
use oracle::held::Held;
use oracle::low_side::{self, LowSide};
use oracle::month_file::{quarters, File, Header, HEADER};
use oracle::quarter::{c_call, Quarter, Shares};
use oracle::random::Random;
use oracle::replay;
use oracle::right_files::{
    active, eight_billed, entry, example, month_ends, one_point, one_quarter, right_file, semi_active, two_halves,
};
use oracle::statement::{rappen, text};

const STATEMENT: &str = "\
2024-02 2784 4
0 4800000 3200000 0 1600000 0 0 600 1500
1 2800000 0 0 1600000 1200000 0 0 1000
total 7600000 3200000 0 3200000 1200000 0 600 2500
";

#[test]
fn example_prints_as_in_the_document() {
    assert_eq!(text(&example().bytes()), STATEMENT);
}

#[test]
fn example_is_the_sample_of_the_repository() {
    assert_eq!(example().bytes(), include_bytes!("../../../samples/2024-02.month"));
}

#[test]
fn header_is_packed_without_gaps() {
    let bytes = [0x42, 0x45, 0x7e, 0x82, 0x20, 0x00, 0x04];
    let header = Header { opening: 0x4245, year: 2024, month: 2, points: 2, entries: 4 };
    assert_eq!(header.bytes(), bytes);
    assert_eq!(Header::read(&bytes), header);
}

#[test]
fn unpacking_undoes_packing() {
    let widths = [3, 12, 1, 17, 7];
    let fields = [5, 2_784, 1, 100_000, 127];
    assert_eq!(unpack(&pack(&fields, &widths), &widths), fields);
    assert_eq!(pack(&[1, 0, 0, 0, 0], &HEADER), [0, 1, 0, 0, 0, 0, 0]);
}

fn point_0(lamp: i64, take: i64, supply: i64, actual: i64, set: i64) -> Shares {
    Quarter { role: 0, level: 0, band: 0, lamp, take, supply, actual, set }.shares()
}

fn point_1(take: i64, supply: i64, actual: i64) -> Shares {
    Quarter { role: 1, level: 1, band: 1_200_000, lamp: 0, take, supply, actual, set: 38_500 }.shares()
}

#[test]
fn edges_of_an_active_point() {
    let all = 1_600_000;
    let paid = Shares { paid: all, ..Shares::default() };
    let free = Shares { free: all, ..Shares::default() };
    let billed = Shares { billed: all, ..Shares::default() };
    for (actual, shares) in [(22_099, paid), (22_100, free), (22_199, free), (22_200, billed)] {
        assert_eq!(point_0(1, 0, 1_000, actual, 22_000), shares, "supply at {actual}");
    }
    for (actual, shares) in [(21_901, paid), (21_900, free), (21_801, free), (21_800, billed)] {
        assert_eq!(point_0(1, 1_000, 0, actual, 22_000), shares, "take at {actual}");
    }
    assert_eq!(point_0(0, 1_000, 0, 22_000, 22_000), Shares { disconnected: all, ..Shares::default() });
    assert_eq!(point_0(1, 10, 0, 0, 50), Shares { paid: 16_000, ..Shares::default() });
    assert_eq!(point_0(1, 10, 10, 0, 50), Shares::default());
    assert_eq!(point_0(0, 10, 10, 0, 50), Shares::default());
}

#[test]
fn edges_of_a_semi_active_point() {
    let none = Shares::default();
    let (kvarh, band) = (1_600, 1_200_000);
    assert_eq!(point_1(750, 0, 38_000), Shares { free: band, ..none });
    assert_eq!(point_1(751, 0, 38_199), Shares { billed: kvarh, allowance: band, ..none });
    assert_eq!(point_1(751, 0, 38_200), Shares { free: band + kvarh, ..none });
    assert_eq!(point_1(0, 751, 38_199), Shares { paid: kvarh, allowance: band, ..none });
    assert_eq!(point_1(751, 0, 38_801), Shares { paid: kvarh, allowance: band, ..none });
    assert_eq!(point_1(0, 751, 38_801), Shares { billed: kvarh, allowance: band, ..none });
    assert_eq!(point_1(5, 5, 38_000), none);
}

#[test]
fn rappen_are_rounded_at_the_half() {
    assert_eq!([0, 799_999, 800_000, 2_399_999, 2_400_000].map(rappen), [0, 0, 1, 1, 2]);
}

#[test]
fn total_adds_the_rounded_lines() {
    let halves = two_halves();
    let book = post(&halves.bytes(), 24, INDEX).book.expect("a right file");
    assert_eq!(book.totals().map(|figures| figures[6])[..2], [800_000; 2]);
    assert_eq!(rappen(800_000 + 800_000), 1);
    assert!(text(&halves.bytes()).ends_with("\ntotal 1600000 1600000 0 0 0 0 2 0\n"));
}

#[test]
fn total_of_eight_points_with_the_largest_figures() {
    let grains = 5_446 * 1_000_000 * 1_600_i64;
    let debit = 5_446 * 200_000_000_i64;
    let last = format!("\ntotal {grains} 0 0 {grains} 0 0 0 {debit}\n");
    assert!(text(&eight_billed().bytes()).ends_with(&last));
}

/// 2,976 quarters stand, of 1,600,000 grains each: 300 times that sum, by 1,600,000.
const FULLEST: &str = "\
2024-01 2976 5459
0 4761600000 4761600000 0 0 0 0 892800 0
total 4761600000 4761600000 0 0 0 0 892800 0
";

/// Only the input's limit keeps 10 away: the journal of the program holds 5,461 entries.
#[test]
fn fullest_file_is_printed_and_one_entry_more_is_12() {
    assert_eq!(one_point(5_459).bytes().len(), 65_536);
    assert_eq!(text(&one_point(5_459).bytes()), FULLEST);
    assert_eq!(text(&one_point(5_460).bytes()), "refused 12\n");
    assert_eq!(text(&one_point(5_462).bytes()), "refused 12\n");
    assert_eq!(post(&one_point(5_461).bytes(), 65_532, INDEX).number, 0);
    assert_eq!(post(&one_point(5_462).bytes(), 65_532, INDEX).number, 10);
}

#[test]
fn calendar_is_gregorian() {
    assert_eq!(quarters(2024, 2), 2_784);
    assert_eq!(quarters(2023, 2), 2_688);
    assert_eq!(quarters(2000, 2), 2_784);
    assert_eq!(quarters(2100, 2), 2_688);
    assert_eq!([1, 5, 7, 8, 12].map(|month| quarters(2099, month)), [2_976; 5]);
    assert_eq!([4, 6, 9, 11].map(|month| quarters(2099, month)), [2_880; 4]);
}

#[test]
fn clocks_change_in_march_and_october() {
    assert_eq!([2020, 2024, 2099].map(|year| quarters(year, 3)), [2_972; 3]);
    assert_eq!([2020, 2024, 2099].map(|year| quarters(year, 10)), [2_980; 3]);
    // Supplied at U 22050 < S + 100: paid, 1,000 · 1,600 grains, at 300 that is 300 rappen.
    let figures = "1600000 1600000 0 0 0 0 300 0";
    let printed = |month: i64, quarter: i64| text(&one_quarter(month, quarter).bytes());
    let march = format!("2024-03 2972 1\n0 {figures}\ntotal {figures}\n");
    assert_eq!(printed(3, 2_971), march);
    assert_eq!(printed(3, 2_972), "refused 6\n");
    let october = format!("2024-10 2980 1\n0 {figures}\ntotal {figures}\n");
    for quarter in 2_976..2_980 {
        assert_eq!(printed(10, quarter), october, "quarter {quarter}");
    }
    assert_eq!(printed(10, 2_980), "refused 6\n");
}

#[test]
fn octobers_last_quarters_are_not_the_next_points_first() {
    // Point p supplies 100 · (p + 1) kvarh in each of eight quarters, and 0 + 1 + .. + 7 = 28 more in all.
    let book = post(&month_ends(10).bytes(), 12 * 64, INDEX).book.expect("a right file");
    for (point, figures) in (0..).zip(book.totals()) {
        assert_eq!(figures[0], 1_600 * (800 * (point + 1) + 28), "point {point}");
    }
    // Entries 1 to 32 are the first quarters, point after point, and 33 to 64 the last.
    let index = book.index();
    for point in 0..7 {
        let border = 2_980 * (point + 1);
        let (last, next) = (33 + point as u16, 2 + point as u16);
        assert_eq!(index[border - 4..border], [last, last + 8, last + 16, last + 24], "point {point}");
        assert_eq!(index[border..border + 4], [next, next + 8, next + 16, next + 24], "point {}", point + 1);
    }
}

#[test]
fn band_is_not_rounded() {
    let point = semi_active(0, 0, 0, &[(1, 1), (1, 1_599), (3, 7), (4_000, 20_000)]);
    assert_eq!(point.band(), 1_600 + 21 + 80_000_000);
}

#[test]
fn c_call_refuses_an_argument_before_a_slice() {
    let quarter = Quarter { role: 1, level: 1, band: 1, lamp: 0, take: 1, supply: 0, actual: 0, set: 50_000 };
    let mut slice = [7; 41];
    assert_eq!(c_call(&Quarter { band: 0, ..quarter }, &mut slice[..39]), 5);
    assert_eq!(c_call(&quarter, &mut slice[..39]), 13);
    assert_eq!(slice, [7; 41]);
    assert_eq!(c_call(&quarter, &mut slice), 0);
    assert_eq!(slice[16..33], [0, 0, 0, 0, 0, 0, 6, 63, 0, 0, 0, 0, 0, 0, 0, 1, 0]);
    assert_eq!(slice[40], 7);
}

/// An index for eight points.
const INDEX: usize = 23_840;

fn one_active_point() -> Vec<u8> {
    File::new(2024, 2, vec![active(0, 300, 1_000, 500)], Vec::new()).bytes()
}

fn small_book(journal: usize) -> Book {
    open(&one_active_point(), journal, INDEX).expect("a right file")
}

fn delivery(version: i64, supply: i64) -> Vec<u8> {
    entry([0, 5, version, 1, 0, supply, 22_000, 22_000]).bytes()
}

#[test]
fn taking_back_lets_the_earlier_version_stand() {
    let mut book = small_book(24);
    assert_eq!(book.deliver(&delivery(2, 10)), 0);
    assert_eq!(book.deliver(&delivery(2, 20)), 9);
    assert_eq!(book.deliver(&delivery(3, 20)), 0);
    assert_eq!(book.totals()[0][0], 32_000);
    assert_eq!(book.take_back(), 0);
    assert_eq!(book.totals()[0][0], 16_000);
    assert_eq!(book.take_back(), 0);
    assert_eq!(book.take_back(), 11);
    assert_eq!(book.totals(), [[0; 8]; 8]);
}

#[test]
fn numbers_come_in_the_documents_order() {
    let mut book = small_book(23);
    assert_eq!(book.deliver(&delivery(31, 10)), 0);
    assert_eq!(book.deliver(&delivery(31, 10)), 9, "before full");
    assert_eq!(book.deliver(&entry([0, 6, 1, 1, 0, 1, 0, 0]).bytes()), 10);
    assert_eq!(book.close(), 0);
    assert_eq!(book.close(), 8);
    assert_eq!(book.take_back(), 8);
    assert_eq!(book.deliver(&delivery(31, 10)), 8, "before the version");
    assert_eq!(book.deliver(&entry([1, 6, 1, 1, 0, 1, 0, 0]).bytes()), 6, "before closed");
    assert_eq!(book.deliver(&entry([0, 2_784, 1, 1, 0, 1, 0, 0]).bytes()), 6);
    assert_eq!(book.deliver(&entry([7, 4_095, 0, 1, 0, 1, 0, 0]).bytes()), 5, "before outside");
    assert_eq!(book.deliver(&delivery(1, 10)[..11]), 5);
    assert_eq!(book.entries.len(), 1);
}

#[test]
fn files_are_refused_in_the_documents_order() {
    let bytes = example().bytes();
    assert_eq!(text(&bytes[..6]), "refused 1\n");
    assert_eq!(text(&bytes[..7]), "refused 3\n");
    assert_eq!(text(&[&[0x42, 0x44], &bytes[2..7]].concat()), "refused 2\n", "before the length");
    let mut wrong_point = bytes.clone();
    wrong_point[7] = 0x40 | 0x08;
    assert_eq!(text(&wrong_point), "refused 4\n");
    assert_eq!(text(&wrong_point[..96]), "refused 3\n", "before the points");
    assert_eq!(text(&[0; 65_536]), "refused 2\n");
    assert_eq!(text(&[0; 65_537]), "refused 12\n");
}

#[test]
fn post_gives_the_index_of_the_entry_turned_down() {
    let mut file = example();
    file.entries[3].version = 1;
    let posted = post(&file.bytes(), 65_532, INDEX);
    assert_eq!((posted.number, posted.index), (9, 3));
    assert_eq!(posted.book.map(|book| book.entries.len()), Some(3));
    let posted = post(&example().bytes(), 47, INDEX);
    assert_eq!((posted.number, posted.index), (10, 3));
    assert!(post(&[], 0, INDEX).book.is_none());
}

/// A book with its journal and index, as the calls of a caller leave them.
struct Lent {
    book: Held,
    journal: Vec<u8>,
    index: Vec<u16>,
}

fn lent(file: &[u8], journal: usize, index: usize) -> Lent {
    let book = open(file, journal, index).expect("a right file");
    let mut places = vec![0xffff; index];
    book.set_index(&mut places);
    Lent { book: Held::fresh(&book), journal: vec![0; journal], index: places }
}

impl Lent {
    fn deliver(&mut self, fields: [i64; 8]) -> u32 {
        self.book.deliver(&mut self.journal, &mut self.index, &entry(fields).bytes())
    }

    fn back(&mut self) -> u32 {
        self.book.take_back(&mut self.journal, &mut self.index)
    }

    fn totals(&self, index: &[u16]) -> u32 {
        self.book.totals(&self.journal, index).0
    }

    /// The places that are not 0, and what they hold.
    fn marks(&self) -> Vec<(usize, u16)> {
        self.index.iter().copied().enumerate().filter(|&(_, value)| value != 0).collect()
    }
}

#[test]
fn index_says_which_entries_stand() {
    // February's last quarter is 2,783; point 1 begins at place 2,980 and ends before 5,960.
    let mut lent = lent(&example().bytes(), 60, 5_961);
    let past = (5_960, 0xffff);
    assert_eq!(lent.marks(), [past], "opening zeroes what the points need");
    assert_eq!(lent.deliver([0, 2_783, 1, 1, 0, 1, 0, 0]), 0);
    assert_eq!(lent.deliver([1, 0, 1, 1, 0, 1, 0, 0]), 0);
    assert_eq!(lent.deliver([1, 2_783, 1, 1, 0, 1, 0, 0]), 0);
    assert_eq!(lent.marks(), [(2_783, 1), (2_980, 2), (5_763, 3), past]);
    assert_eq!(lent.deliver([1, 0, 2, 1, 0, 1, 0, 0]), 0);
    assert_eq!(lent.deliver([1, 0, 2, 1, 0, 1, 0, 0]), 9);
    assert_eq!(lent.marks(), [(2_783, 1), (2_980, 4), (5_763, 3), past]);
    assert_eq!(lent.back(), 0);
    assert_eq!(lent.marks(), [(2_783, 1), (2_980, 2), (5_763, 3), past], "the earlier version's");
    assert_eq!([lent.back(), lent.back()], [0, 0]);
    assert_eq!(lent.marks(), [(2_783, 1), past]);
}

#[test]
fn index_is_judged_in_the_places_of_the_points() {
    let mut lent = lent(&example().bytes(), 60, 5_961);
    assert_eq!(lent.deliver([1, 0, 1, 1, 0, 1, 0, 0]), 0);
    for place in [0, 2_783, 2_784, 2_979, 2_980, 5_959] {
        let mut wrong = lent.index.clone();
        wrong[place] = 2;
        assert_eq!(lent.totals(&wrong), 7, "place {place}");
    }
    let mut past = lent.index.clone();
    past[5_960] = 2;
    assert_eq!(lent.totals(&past), 0, "neither needed nor read");
    assert_eq!(lent.totals(&past[..5_960]), 0);
    assert_eq!(lent.totals(&past[..5_959]), 17);
    lent.book.month = 13;
    assert_eq!(lent.totals(&past), 7);
    assert_eq!(lent.totals(&past[..5_959]), 17, "before unsound");
    lent.book.count = 9;
    assert_eq!(lent.totals(&[0; 26_819]), 17, "by the stored count");
    assert_eq!(lent.totals(&[0; 26_820]), 7);
    assert_eq!(Held::void().totals(&[], &[]).0, 7, "which needs no place");
}

#[test]
fn opening_asks_for_the_places_of_its_points() {
    let file = one_active_point();
    assert_eq!(open(&file, 0, 2_979).map(|_| ()), Err(17));
    assert!(open(&file, 0, 2_980).is_ok());
    let mut wrong_point = file.clone();
    wrong_point[7] = 0x08;
    assert_eq!(open(&wrong_point, 0, 0).map(|_| ()), Err(4), "before the index");
    let posted = post(&example().bytes(), 60, 5_959);
    assert_eq!((posted.number, posted.index, posted.book.is_none()), (17, 0, true));
}

#[test]
fn replayed_sample_prints_as_worked_out() {
    let calls = include_bytes!("../../../samples/2024-02.calls");
    assert_eq!(calls, include_bytes!("../../../crates/replay/stdin"));
    assert_eq!(replay::text(calls), include_str!("../../../crates/replay/stdout"));
}

#[test]
fn replay_ends_at_what_is_no_whole_call() {
    let entry = entry([0, 0, 1, 1, 0, 2_000, 22_050, 22_000]).bytes();
    let deliver = [&[0, 12][..], &entry].concat();
    let calls = [&deliver[..], &deliver, &[0, 1, 9, 3, 2, 1, 0, 12, 3, 3]].concat();
    let input = [&[0, 0, 0, 28][..], &one_active_point(), &[0, 0, 1, 0], &[0, 0, 11, 164], &calls].concat();
    let nothing: String = (1..8).map(|place| format!("{place} 0 0 0 0 0 0 0 0\n")).collect();
    let totals = format!("totals 0 1\n0 3200000 3200000 0 0 0 0 960000000 0\n{nothing}");
    let expected = format!("open 0\ndeliver 0\ndeliver 9\ndeliver 5\n{totals}close 0\ntake_back 8\n");
    assert_eq!(replay::text(&input), expected);
}

#[test]
fn replay_tests_its_limits_in_order() {
    let file = one_active_point();
    let input = |journal: usize, index: usize, closes: usize| [start(&file, journal, index), vec![2; closes]].concat();
    assert_eq!(replay::text(&input(786_433, 32_769, 200_001)), "journal too long\n");
    assert_eq!(replay::text(&input(0, 32_769, 200_001)), "index too long\n");
    assert_eq!(replay::text(&input(0, 2_979, 200_001)), "answers too long\n", "before the file is opened");
    assert_eq!(replay::text(&input(0, 2_979, 200_000)), "open 17\n");
    assert_eq!(replay::text(&input(0, 2_980, 1)), "open 0\nclose 0\n");
    assert_eq!(replay::text(&input(0, 32_768, 0)), "open 0\n");
    assert_eq!(replay::text(&input(0, 0, 0)[..39]), "input too short\n");
    assert_eq!(replay::text(&input(0, 0, 0)[..40]), "open 17\n");
}

/// The number answered, take and supply.
fn high_side(numbers: [i64; 6]) -> [u32; 3] {
    let high = LowSide::of(numbers).high_side();
    [high.number, high.take, high.supply]
}

#[test]
fn high_side_is_minus_the_low_side_and_the_loss() {
    // 24,000 kW and 32,000 kvar are 40,000 kVA, which is Sn. uR is 2,400 kW of it, 6 %, so that uk, 10 %, leaves 8 %.
    // With i0, 0.25 %, the loss is 8.25 % of 40,000 kVA: 3,300 kvar, in a quarter-hour 825 kvarh.
    assert_eq!(high_side([6_000, 8_000, 400, 1_000, 25, 2_400]), [0, 0, 8_000 - 825]);
    assert_eq!(high_side([-6_000, -8_000, 400, 1_000, 25, 2_400]), [0, 8_000 + 825, 0]);
    // i0 is 0.25 % of 40,000 kVA: 100 kvar, 25 kvarh. The root adds less than 0.01 kvarh.
    for (reactive, take, supply) in [(-1, 26, 0), (0, 25, 0), (24, 1, 0), (25, 0, 0), (26, 0, 1)] {
        assert_eq!(high_side([0, reactive, 400, 1_000, 25, 2_400]), [0, take, supply], "{reactive} kvarh");
    }
}

#[test]
fn root_is_of_an_exact_ur() {
    // In millionths uk is 262,500 and uR 10,000 · 490 / 19 = 257,894.7... Both and the root are taken times 19.
    let low = LowSide::of([0, 535, 19, 2_625, 0, 490]);
    let most = 4_987_500_i64.pow(2) - 4_900_000_i64.pow(2);
    assert_eq!(low.root(), 48_954);
    assert!((19 * 48_954_i64).pow(2) <= most && most < (19 * 48_955_i64).pow(2));
    // uR rounded down leaves more.
    let rounded = 262_500_i64.pow(2) - 257_894_i64.pow(2);
    assert!(48_958_i64.pow(2) <= rounded && rounded < 48_959_i64.pow(2));
    // 2,140 kvar squared over 1,900 kVA, times the root, over 4: 29.4987 kvarh, and with the other root 29.5011.
    assert_eq!([48_954, 48_955, 48_958].map(|root| low.loss(root)), [29, 29, 30]);
    assert_eq!(high_side([0, 535, 19, 2_625, 0, 490]), [0, 0, 535 - 29]);
}

#[test]
fn loss_is_rounded_once_halves_up() {
    // 0.01 % of 19,900 and of 20,000 kVA: 1.99 and 2 kvar, 0.4975 and 0.5 kvarh.
    assert_eq!(high_side([0, 0, 199, 100, 1, 0]), [0, 0, 0]);
    assert_eq!(high_side([0, 0, 200, 100, 1, 0]), [0, 1, 0]);
    // 120 kW and 160 kvar are 200 kVA, twice Sn: four times uk, 0.5 %, of 100 kVA is 2 kvar, 0.5 kvarh.
    assert_eq!(high_side([30, 40, 1, 50, 0, 0]), [0, 0, 39]);
    assert_eq!(high_side([30, -40, 1, 50, 0, 0]), [0, 41, 0]);
    // With i0, 2 %, it is 1 kvarh and not twice a half rounded up; 0.4 and 0.4 kvarh are rounded up.
    assert_eq!(high_side([30, 40, 1, 50, 200, 0]), [0, 0, 39]);
    assert_eq!(high_side([30, 40, 1, 40, 160, 0]), [0, 0, 39]);
}

#[test]
fn low_side_is_refused_past_the_limits() {
    // 600,000 kW and 800,000 kvar are 1,000,000 kVA, twice Sn: four times 10 % of 500,000 kVA, over 4, is 50,000 kvarh.
    assert_eq!(high_side([150_000, 200_000, 5_000, 1_000, 0, 0]), [0, 0, 150_000]);
    assert_eq!(high_side([150_000, 200_001, 5_000, 1_000, 0, 0]), [15, 0, 0]);
    // uR is 4,000 kW of 50,000 kVA, 8 %.
    assert_eq!(high_side([1_000, 2_000, 500, 800, 0, 4_000]), [0, 0, 2_000]);
    assert_eq!(high_side([1_000, 2_000, 500, 799, 0, 4_000]), [15, 0, 0]);
    assert_eq!(high_side([1_000, 2_000, 500, 799, 0, 4_001]), [14, 0, 0], "before implausible");
    assert_eq!(high_side([300_000, 0, 5_000, 1_000, 0, 0]), [15, 0, 0]);
    assert_eq!(high_side([300_001, 0, 5_000, 1_000, 0, 0]), [14, 0, 0], "before implausible");
}

#[test]
fn cases_of_the_low_side_are_six_numbers_each() {
    let cases = "# 0 0\n6000 8000 400 1000 25 2400 # 825\n\t-6000\n-8000 400 1000 25 2400 0 0 0 0 0 0 1 2 3 4 5#6\n";
    assert_eq!(low_side::text(cases), "0 0 7175\n0 8825 0\n14 0 0\n");
    assert_eq!(low_side::text(""), "");
}

#[test]
fn factor_of_002_is_the_rule_of_02_in_600ths() {
    assert!(factor(200) == whole(0) && factor(350) == fraction(1, 4) && factor(800) == whole(1));
    for share in 0..=1_000 {
        let k = match share {
            0..=200 => 0,
            800.. => 600,
            _ => share - 200,
        };
        assert!(factor(share) == fraction(k, 600), "share {share}");
    }
}

/// Drawn and fed in, of each point.
fn basic_charge(fixed_tariff: u32, energies: &[[u64; 2]]) -> Result<u64, u32> {
    let drawn: Vec<u64> = energies.iter().map(|point| point[0]).collect();
    let fed_in: Vec<u64> = energies.iter().map(|point| point[1]).collect();
    SupplyPoints { fixed_tariff, points: energies.len() as u32, drawn: &drawn, fed_in: &fed_in }.charge()
}

const MOST: u64 = 1_000_000_000_000;

#[test]
fn share_is_rounded_down() {
    // With a tariff of 600 the charge is K. A fifth is share 200; 201 begins where 799 · drawn is 201 · fed-in.
    for (drawn, fed_in, k) in [(0, 1, 0), (1, 4, 0), (2_009, 7_991, 0), (201, 799, 1), (202, 799, 1), (1, 1, 300)] {
        assert_eq!(basic_charge(600, &[[drawn, fed_in]]), Ok(k), "{drawn} of {drawn} and {fed_in}");
    }
    // 201 · 10^12 / 799 is 251,564,455,569.4...: the least drawn of share 201 is above, the most fed-in of 799 below.
    for (drawn, k) in [(250_000_000_000, 0), (251_564_455_569, 0), (251_564_455_570, 1)] {
        assert_eq!(basic_charge(600, &[[drawn, MOST]]), Ok(k), "{drawn} drawn");
    }
    let borders = [(250_000_000_000, 600), (250_000_000_001, 599), (251_564_455_569, 599), (251_564_455_570, 598)];
    for (fed_in, k) in borders {
        assert_eq!(basic_charge(600, &[[MOST, fed_in]]), Ok(k), "{fed_in} fed in");
    }
}

#[test]
fn charge_is_rounded_down_once() {
    // K is 1 of 600 for each point: three times 200 is 600, three times 599 is 1,797.
    for (fixed_tariff, charge) in [(199, 0), (200, 1), (399, 1), (400, 2), (599, 2), (600, 3)] {
        assert_eq!(basic_charge(fixed_tariff, &[[201, 799]; 3]), Ok(charge), "tariff {fixed_tariff}");
    }
    // K is 300 and 599: 100,000,000 · 899 / 600 is 149,833,333.3...
    assert_eq!(basic_charge(100_000_000, &[[MOST, MOST], [799, 201]]), Ok(149_833_333));
    assert_eq!(basic_charge(100_000_000, &[[MOST, 0]; 8]), Ok(800_000_000));
    assert_eq!(basic_charge(0, &[[1, 0]]), Ok(0));
}

#[test]
fn points_are_turned_away_past_the_limits() {
    assert_eq!(basic_charge(100_000_001, &[[1, 0]]), Err(16));
    assert_eq!(basic_charge(600, &[]), Err(16));
    assert_eq!(basic_charge(600, &[[1, 0]; 9]), Err(16));
    for wrong in [[0, 0], [MOST + 1, 0], [0, MOST + 1], [u64::MAX, 1]] {
        assert_eq!(basic_charge(600, &[wrong, [1, 0]]), Err(16), "{wrong:?}");
        assert_eq!(basic_charge(600, &[[1, 0], wrong]), Err(16), "{wrong:?}");
    }
    let one = SupplyPoints { fixed_tariff: 600, points: 1, drawn: &[1, 0], fed_in: &[0, MOST + 1] };
    assert_eq!(one.charge(), Ok(600), "the second place is not read");
    assert_eq!(SupplyPoints { points: 2, ..one }.charge(), Err(16));
    assert_eq!(SupplyPoints { drawn: &[], ..one }.charge(), Err(16));
    assert_eq!(SupplyPoints { fed_in: &[], ..one }.charge(), Err(16));
}

#[test]
fn right_files_are_posted_in_full_and_their_shares_add_up() {
    for case in 0..500 {
        let file = right_file(&mut Random::of(1, case), 60);
        let posted = post(&file.bytes(), 65_532, INDEX);
        assert_eq!(posted.number, 0, "case {case}");
        let book = posted.book.expect("a posted book");
        assert_eq!(book.entries, file.entries, "case {case}");
        for [absolute, paid, free, billed, allowance, disconnected, ..] in book.totals() {
            assert_eq!(absolute, paid + free + billed + allowance + disconnected, "case {case}");
        }
    }
}
