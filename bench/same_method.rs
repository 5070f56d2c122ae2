//! The library's method in Rust, over the same data: codes are parts of one run by start and size,
//! a face is a number, and all comparing and searching is done by plain loops over indices.
#![allow(clippy::needless_range_loop)]

use crate::work::{each_overlap, Answer, Case, Verdict};

pub fn lay(case: &Case, ribbon: &mut [u8]) -> Answer {
    Answer::Length(lay_ribbon(&case.bands, &case.lengths, ribbon))
}

pub fn overlaps(case: &Case, out: &mut [u8]) -> Answer {
    each_overlap(case, out, overlap)
}

const CODES: usize = 128;
const FACES: usize = 2 * CODES;
const LONGEST: usize = 64;

fn lay_ribbon(bands: &[u8], lengths: &[u16], ribbon: &mut [u8]) -> u32 {
    if !list_ok(bands, lengths) {
        return 0;
    }
    let kept = keep(&cut(bands, lengths));
    let mut order = [0; FACES];
    let count = order_codes(&kept, &mut order);
    let order = &order[..count];
    let mut skips = [0; FACES];
    let length = measure(&kept, order, &mut skips);
    if ribbon.len() < length {
        return 0;
    }
    write_bands(&kept, order, &skips, ribbon);
    length as u32
}

fn list_ok(bands: &[u8], lengths: &[u16]) -> bool {
    if lengths.is_empty() || lengths.len() > CODES {
        return false;
    }
    let mut total = 0;
    for i in 0..lengths.len() {
        let n = lengths[i] as usize;
        if n == 0 || n > LONGEST {
            return false;
        }
        total += n;
    }
    if total != bands.len() {
        return false;
    }
    for i in 0..bands.len() {
        if bands[i] < b'A' || bands[i] > b'Z' {
            return false;
        }
    }
    true
}

/// Codes as parts of a run of bands.
struct Parts<'a> {
    bands: &'a [u8],
    starts: [usize; CODES],
    sizes: [usize; CODES],
    count: usize,
}

impl<'a> Parts<'a> {
    fn none_of(bands: &'a [u8]) -> Self {
        Parts {
            bands,
            starts: [0; CODES],
            sizes: [0; CODES],
            count: 0,
        }
    }

    fn push(&mut self, start: usize, size: usize) {
        self.starts[self.count] = start;
        self.sizes[self.count] = size;
        self.count += 1;
    }

    fn part(&self, k: usize) -> &'a [u8] {
        &self.bands[self.starts[k]..self.starts[k] + self.sizes[k]]
    }
}

fn cut<'a>(bands: &'a [u8], lengths: &[u16]) -> Parts<'a> {
    let mut parts = Parts::none_of(bands);
    let mut at = 0;
    for i in 0..lengths.len() {
        let size = lengths[i] as usize;
        parts.push(at, size);
        at += size;
    }
    parts
}

// Words

fn band_at(c: &[u8], turned: bool, i: usize) -> u8 {
    if turned {
        c[c.len() - 1 - i]
    } else {
        c[i]
    }
}

/// The last k bands of a way of a are the first k of a way of b.
pub fn agree(a: &[u8], a_turned: bool, b: &[u8], b_turned: bool, k: usize) -> bool {
    let start = a.len() - k;
    for i in 0..k {
        if band_at(a, a_turned, start + i) != band_at(b, b_turned, i) {
            return false;
        }
    }
    true
}

fn stands_way(c: &[u8], turned: bool, s: &[u8]) -> bool {
    for i in 0..s.len() {
        let rest = &s[i..];
        if c.len() <= rest.len() && agree(c, turned, rest, false, c.len()) {
            return true;
        }
    }
    c.is_empty()
}

// Dropping

fn held_by(parts: &Parts, i: usize, j: usize) -> bool {
    let (c, s) = (parts.part(i), parts.part(j));
    let outranked = c.len() < s.len() || (c.len() == s.len() && j < i);
    outranked && (stands_way(c, false, s) || stands_way(c, true, s))
}

fn is_dropped(parts: &Parts, i: usize) -> bool {
    for j in 0..parts.count {
        if held_by(parts, i, j) {
            return true;
        }
    }
    false
}

fn keep<'a>(parts: &Parts<'a>) -> Parts<'a> {
    let mut kept = Parts::none_of(parts.bands);
    for i in 0..parts.count {
        if !is_dropped(parts, i) {
            kept.push(parts.starts[i], parts.sizes[i]);
        }
    }
    kept
}

// Sorting

/// On which side face f is of those that begin with the last o bands of face a: 0 before them, 1
/// one of them, 2 after them.
fn side(parts: &Parts, f: usize, a: usize, o: usize) -> usize {
    let (c, d) = (parts.part(f / 2), parts.part(a / 2));
    let (turned, other) = (f % 2 == 1, a % 2 == 1);
    let start = d.len() - o;
    for i in 0..o {
        if c.len() <= i {
            return 0;
        }
        let y = band_at(c, turned, i);
        let x = band_at(d, other, start + i);
        if y < x {
            return 0;
        }
        if x < y {
            return 2;
        }
    }
    1
}

/// The first sorted place, from `low` to `high`, whose face is on side k or a later one.
fn first_place(
    parts: &Parts,
    sorted: &[usize],
    low: usize,
    high: usize,
    a: usize,
    o: usize,
    k: usize,
) -> usize {
    let (mut low, mut high) = (low, high);
    while low < high {
        let mid = low + (high - low) / 2;
        if side(parts, sorted[mid], a, o) < k {
            low = mid + 1;
        } else {
            high = mid;
        }
    }
    low
}

fn sort_faces(parts: &Parts, sorted: &mut [usize]) {
    for f in 0..2 * parts.count {
        let p = first_place(parts, sorted, 0, f, f, parts.sizes[f / 2], 1);
        let mut i = f;
        while p < i {
            sorted[i] = sorted[i - 1];
            i -= 1;
        }
        sorted[p] = f;
    }
}

// Joining. `after` has at each face the face after it plus 1, and 0 where it ends a piece.

fn mirror_of(f: usize) -> usize {
    f ^ 1
}

fn end_from(after: &[usize], f: usize) -> usize {
    let mut at = f;
    while after[at] != 0 {
        at = after[at] - 1;
    }
    at
}

fn head_of(after: &[usize], f: usize) -> usize {
    mirror_of(end_from(after, mirror_of(f)))
}

/// The lowest face that can come after a with o bands shared, if there is one.
fn lowest_following(
    parts: &Parts,
    sorted: &[usize],
    after: &[usize],
    a: usize,
    o: usize,
) -> Option<usize> {
    let m = 2 * parts.count;
    if parts.sizes[a / 2] < o {
        return None;
    }
    let head = head_of(after, a);
    let low = first_place(parts, sorted, 0, m, a, o, 1);
    let high = range_end(parts, sorted, low, m, a, o);
    let mut best = m;
    for i in low..high {
        let b = sorted[i];
        if b < best && b != head && b != mirror_of(a) && after[mirror_of(b)] == 0 {
            best = b;
        }
    }
    if best < m {
        Some(best)
    } else {
        None
    }
}

/// Where the faces that begin with the last o bands of face a end. Mostly there is none.
fn range_end(parts: &Parts, sorted: &[usize], low: usize, m: usize, a: usize, o: usize) -> usize {
    if low == m || side(parts, sorted[low], a, o) > 1 {
        return low;
    }
    first_place(parts, sorted, low + 1, m, a, o, 2)
}

fn run_pass(parts: &Parts, sorted: &[usize], after: &mut [usize]) {
    for o in (0..=LONGEST).rev() {
        for a in 0..2 * parts.count {
            if after[a] != 0 {
                continue;
            }
            if let Some(b) = lowest_following(parts, sorted, after, a, o) {
                after[mirror_of(b)] = mirror_of(a) + 1;
                after[a] = b + 1;
            }
        }
    }
}

/// The faces of the piece that holds face 0; how many.
fn order_codes(parts: &Parts, order: &mut [usize]) -> usize {
    let mut sorted = [0; FACES];
    sort_faces(parts, &mut sorted);
    let mut after = [0; FACES];
    run_pass(parts, &sorted, &mut after);
    let mut at = head_of(&after, 0);
    let mut count = 0;
    loop {
        order[count] = at;
        count += 1;
        if after[at] == 0 {
            return count;
        }
        at = after[at] - 1;
    }
}

// Overlaps

/// The most bands that a pass can hold.
const MOST_HELD: usize = LONGEST;

fn follows(b: &[u8], turned: bool, k: usize, x: u8) -> bool {
    if k < b.len() {
        return band_at(b, turned, k) == x;
    }
    false
}

/// One band further: m bands of a way of b are held, and x comes next.
fn go_on(b: &[u8], turned: bool, falls: &[usize], m: usize, x: u8) -> usize {
    let mut k = m;
    while !follows(b, turned, k, x) {
        if k == 0 {
            return 0;
        }
        k = falls[k];
    }
    k + 1
}

/// How far the row of fall-backs is filled then: to m, where that is further than ever before.
fn fill_to(b: &[u8], turned: bool, falls: &mut [usize], n: usize, m: usize) -> usize {
    if m <= n {
        return n;
    }
    falls[m] = go_on(b, turned, falls, falls[n], band_at(b, turned, n));
    m
}

/// The match held at the end of a pass along the last k bands of a way of a.
fn held_at_end(a: &[u8], a_turned: bool, k: usize, b: &[u8], b_turned: bool) -> usize {
    let start = a.len() - k;
    let mut falls = [0; MOST_HELD + 1];
    let mut filled = 1;
    let mut m = 0;
    for i in 0..k {
        m = go_on(b, b_turned, &falls, m, band_at(a, a_turned, start + i));
        filled = fill_to(b, b_turned, &mut falls, filled, m);
    }
    m
}

fn overlap(a: &[u8], a_turned: bool, b: &[u8], b_turned: bool) -> usize {
    let mut k = a.len().min(b.len());
    while MOST_HELD < k {
        if agree(a, a_turned, b, b_turned, k) {
            return k;
        }
        k -= 1;
    }
    held_at_end(a, a_turned, k, b, b_turned)
}

fn face_overlap(parts: &Parts, a: usize, b: usize) -> usize {
    let (c, d) = (parts.part(a / 2), parts.part(b / 2));
    overlap(c, a % 2 == 1, d, b % 2 == 1)
}

// Writing

/// What face number i of an order shares with the one before it.
fn skip_at(parts: &Parts, order: &[usize], i: usize) -> usize {
    if i == 0 {
        0
    } else {
        face_overlap(parts, order[i - 1], order[i])
    }
}

fn measure(parts: &Parts, order: &[usize], skips: &mut [usize]) -> usize {
    let mut long = 0;
    for i in 0..order.len() {
        skips[i] = skip_at(parts, order, i);
        long += parts.sizes[order[i] / 2] - skips[i];
    }
    long
}

fn write_bands(parts: &Parts, order: &[usize], skips: &[usize], ribbon: &mut [u8]) {
    let mut at = 0;
    for i in 0..order.len() {
        let c = parts.part(order[i] / 2);
        let turned = order[i] % 2 == 1;
        for j in skips[i]..c.len() {
            ribbon[at] = band_at(c, turned, j);
            at += 1;
        }
    }
}

// Places

#[derive(Clone, Copy)]
enum Found {
    Given(usize),
    Turned(usize),
    Either(usize),
    Nowhere,
}

/// What the bands of a word add up to, as given and turned.
#[derive(Clone, Copy)]
struct Sums {
    given: usize,
    turned: usize,
}

/// As many bands as a word has, from a start on, and what they add up to.
#[derive(Clone, Copy)]
struct Window {
    start: usize,
    sum: usize,
}

fn sum_of(c: &[u8], turned: bool) -> usize {
    let mut sum = 0;
    for i in 0..c.len() {
        sum += usize::from(band_at(c, turned, i));
    }
    sum
}

fn sums_of(c: &[u8]) -> Sums {
    Sums {
        given: sum_of(c, false),
        turned: sum_of(c, true),
    }
}

fn window_at(s: &[u8], start: usize, n: usize) -> Window {
    Window {
        start,
        sum: sum_of(&s[start..start + n], false),
    }
}

fn fits(least: usize, sums: Sums, w: Window) -> bool {
    if w.start < least {
        return false;
    }
    w.sum == sums.given || w.sum == sums.turned
}

/// The next start that fits, none before the least that is left, or the last one of the row.
fn next_fit(s: &[u8], n: usize, sums: Sums, from: Window, least: usize) -> Window {
    let mut w = from;
    while w.start + n < s.len() {
        if fits(least, sums, w) {
            return w;
        }
        w = Window {
            start: w.start + 1,
            sum: w.sum - usize::from(s[w.start]) + usize::from(s[w.start + n]),
        };
    }
    w
}

fn fall_backs(c: &[u8], turned: bool) -> [usize; MOST_HELD + 1] {
    let mut falls = [0; MOST_HELD + 1];
    let mut filled = 1;
    while filled < c.len() {
        filled = fill_to(c, turned, &mut falls, filled, filled + 1);
    }
    falls
}

/// The smallest start at which either way of c stands on s; one behind the row where there is none.
fn first_start(c: &[u8], falls: &[usize], turned_falls: &[usize], s: &[u8]) -> usize {
    let n = c.len();
    let sums = sums_of(c);
    let mut w = window_at(s, 0, n);
    let (mut i, mut j, mut m) = (0, 0, 0);
    'starts: loop {
        w = next_fit(s, n, sums, w, i + j - j.max(m));
        if i + j <= w.start {
            (i, j, m) = (w.start, 0, 0);
        }
        while j < n {
            let end = i + j;
            if m == n {
                break 'starts end - n;
            }
            if end == s.len() {
                break 'starts s.len() + 1;
            }
            let x = s[end];
            if c[j] != x {
                if j == 0 {
                    m = go_on(c, true, turned_falls, m, x);
                    i += 1;
                    continue 'starts;
                }
                i += j - falls[j];
                j = falls[j];
                continue 'starts;
            }
            m = go_on(c, true, turned_falls, m, x);
            j += 1;
        }
        break i;
    }
}

fn find_place(c: &[u8], s: &[u8]) -> Found {
    if s.len() < c.len() {
        return Found::Nowhere;
    }
    let start = first_start(c, &fall_backs(c, false), &fall_backs(c, true), s);
    if s.len() < start {
        return Found::Nowhere;
    }
    let part = &s[start..start + c.len()];
    if agree(c, false, part, false, c.len()) {
        if agree(c, true, part, false, c.len()) {
            return Found::Either(start);
        }
        return Found::Given(start);
    }
    Found::Turned(start)
}

/// The number of starts at which either way of c stands on s, each start once.
fn count_places(c: &[u8], s: &[u8]) -> usize {
    let n = c.len();
    if s.len() < n {
        return 0;
    }
    let (falls, turned_falls) = (fall_backs(c, false), fall_backs(c, true));
    let sums = sums_of(c);
    let mut w = window_at(s, 0, n);
    let (mut given, mut turned, mut count, mut end) = (0, 0, 0, 0);
    while end < s.len() {
        w = next_fit(s, n, sums, w, end - given.max(turned));
        if end <= w.start {
            (end, given, turned) = (w.start, 0, 0);
        }
        given = go_on(c, false, &falls, given, s[end]);
        turned = go_on(c, true, &turned_falls, turned, s[end]);
        end += 1;
        if given == n || turned == n {
            count += 1;
        }
    }
    count
}

/// How often each code stands, from its place on.
fn count_each(parts: &Parts, s: &[u8], places: &[Found], counts: &mut [usize]) {
    for i in 0..parts.count {
        let (_, start) = way_and_start(places[i]);
        counts[i] = count_places(parts.part(i), &s[start..]);
    }
}

/// The places of the codes until one has none; how many.
fn find_places(parts: &Parts, s: &[u8], places: &mut [Found]) -> usize {
    for i in 0..parts.count {
        let found = find_place(parts.part(i), s);
        if let Found::Nowhere = found {
            return i;
        }
        places[i] = found;
    }
    parts.count
}

// Checking

pub fn check(case: &Case, _: &mut [u8]) -> Answer {
    Answer::Verdict(check_ribbon(&case.bands, &case.lengths, &case.ribbon))
}

fn check_ribbon(bands: &[u8], lengths: &[u16], ribbon: &[u8]) -> Verdict {
    let fault = supplied_fault(bands, lengths, ribbon);
    if fault != 0 {
        return Verdict {
            refused: fault,
            ..Verdict::default()
        };
    }
    let mut places = [Found::Nowhere; CODES];
    let count = find_places(&cut(bands, lengths), ribbon, &mut places);
    if count < lengths.len() {
        return Verdict {
            missing: count as u32,
            ..Verdict::default()
        };
    }
    let computed = lay_ribbon(bands, lengths, &mut [0; CODES * LONGEST]);
    Verdict {
        held: true,
        difference: ribbon.len() as i32 - computed as i32,
        ..Verdict::default()
    }
}

fn supplied_fault(bands: &[u8], lengths: &[u16], ribbon: &[u8]) -> u8 {
    if !list_ok(bands, lengths) {
        return 12;
    }
    if ribbon.len() > 16_384 {
        return 15;
    }
    for i in 0..ribbon.len() {
        if ribbon[i] < b'A' || ribbon[i] > b'Z' {
            return 8;
        }
    }
    0
}

// The sheet

const HEADING: &[u8] = b"name,way,start,bands,places\r\n";

pub fn sheet(case: &Case, out: &mut [u8]) -> Answer {
    Answer::Length(write_sheet(case, out))
}

fn write_sheet(case: &Case, out: &mut [u8]) -> u32 {
    let names = cut(&case.names, &case.sizes);
    if !list_ok(&case.bands, &case.lengths) || !names_ok(&names, case.lengths.len()) {
        return 0;
    }
    let mut ribbon = [0; CODES * LONGEST];
    let length = lay_ribbon(&case.bands, &case.lengths, &mut ribbon);
    let ribbon = &ribbon[..length as usize];
    let codes = cut(&case.bands, &case.lengths);
    let mut places = [Found::Nowhere; CODES];
    find_places(&codes, ribbon, &mut places);
    let mut counts = [0; CODES];
    count_each(&codes, ribbon, &places, &mut counts);
    let size = sheet_size(&names, &codes, &places, &counts);
    if out.len() < size {
        return 0;
    }
    let mut at = put_word(HEADING, out, 0);
    for i in 0..codes.count {
        at = put_row(
            names.part(i),
            codes.part(i).len(),
            (places[i], counts[i]),
            ribbon,
            out,
            at,
        );
    }
    size as u32
}

fn names_ok(names: &Parts, count: usize) -> bool {
    if names.count != count {
        return false;
    }
    for i in 0..names.count {
        let name = names.part(i);
        if name.is_empty() || name.len() > 24 {
            return false;
        }
        for k in 0..name.len() {
            if name[k] < 0x20 || name[k] > 0x7E {
                return false;
            }
        }
        for j in i + 1..names.count {
            let other = names.part(j);
            if name.len() == other.len() && agree(name, false, other, false, name.len()) {
                return false;
            }
        }
    }
    true
}

fn needs_quotes(name: &[u8]) -> bool {
    for i in 0..name.len() {
        if name[i] == b',' || name[i] == b'"' {
            return true;
        }
    }
    false
}

fn field_size(name: &[u8]) -> usize {
    if !needs_quotes(name) {
        return name.len();
    }
    let mut size = 2;
    for i in 0..name.len() {
        size += if name[i] == b'"' { 2 } else { 1 };
    }
    size
}

fn decimal_size(n: usize) -> usize {
    if n < 10 {
        1
    } else {
        decimal_size(n / 10) + 1
    }
}

fn sheet_size(names: &Parts, codes: &Parts, places: &[Found], counts: &[usize]) -> usize {
    let mut size = HEADING.len();
    for i in 0..codes.count {
        let (way, start) = way_and_start(places[i]);
        size += field_size(names.part(i)) + way.len() + decimal_size(start);
        size += codes.part(i).len() + decimal_size(counts[i]) + 6;
    }
    size
}

fn way_and_start(place: Found) -> (&'static [u8], usize) {
    match place {
        Found::Given(start) => (b"given", start),
        Found::Turned(start) => (b"turned", start),
        Found::Either(start) => (b"either", start),
        Found::Nowhere => (b"", 0),
    }
}

fn put_word(word: &[u8], out: &mut [u8], at: usize) -> usize {
    for j in 0..word.len() {
        out[at + j] = word[j];
    }
    at + word.len()
}

fn put_field(name: &[u8], out: &mut [u8], at: usize) -> usize {
    if !needs_quotes(name) {
        return put_word(name, out, at);
    }
    let mut at = put_word(b"\"", out, at);
    for i in 0..name.len() {
        if name[i] == b'"' {
            at = put_word(b"\"", out, at);
        }
        out[at] = name[i];
        at += 1;
    }
    put_word(b"\"", out, at)
}

fn put_decimal(n: usize, out: &mut [u8], at: usize) -> usize {
    let at = if n < 10 {
        at
    } else {
        put_decimal(n / 10, out, at)
    };
    out[at] = b'0' + (n % 10) as u8;
    at + 1
}

fn put_row(
    name: &[u8],
    size: usize,
    (place, count): (Found, usize),
    ribbon: &[u8],
    out: &mut [u8],
    at: usize,
) -> usize {
    let (way, start) = way_and_start(place);
    let at = put_field(name, out, at);
    let at = put_word(b",", out, at);
    let at = put_word(way, out, at);
    let at = put_word(b",", out, at);
    let at = put_decimal(start, out, at);
    let at = put_word(b",", out, at);
    let at = put_word(&ribbon[start..start + size], out, at);
    let at = put_word(b",", out, at);
    let at = put_decimal(count, out, at);
    put_word(b"\r\n", out, at)
}
