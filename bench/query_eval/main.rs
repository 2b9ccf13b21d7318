// The plain program that `run.sh` sets beside the view and its queries: sorted terms, flat postings and places, std
// alone. It takes the same words.
use std::cmp::Ordering;
use std::env;
use std::hint::black_box;
use std::sync::Arc;
use std::time::Instant;

#[derive(Clone, PartialEq, Eq, PartialOrd, Ord)]
enum Key {
    Str(String),
    Long(i64),
    Token(String),
}

struct Doc {
    fields: Vec<Vec<Key>>,
}

// The terms of a field, ascending; the postings of each end where `ends` says, and their places where `place_ends` says.
struct Field {
    terms: Vec<Key>,
    ends: Vec<u32>,
    docs: Vec<u32>,
    place_ends: Vec<u32>,
    places: Vec<(u32, u32)>,
}

struct Segment {
    docs: Vec<Arc<Doc>>,
    fields: Vec<Field>,
}

struct View {
    parts: Vec<Arc<Segment>>,
    live: Arc<Vec<u64>>,
    size: u32,
}

fn drawn(number: u32, salt: u32, most: u32) -> u32 {
    let mixed = number.wrapping_mul(2_654_435_761).wrapping_add(salt.wrapping_mul(40_503));
    let mixed = (mixed ^ (mixed >> 15)).wrapping_mul(2_246_822_519);
    (mixed ^ (mixed >> 13)) % most
}

fn doc(number: u32) -> Arc<Doc> {
    let text = format!("w{} w{} item w{}", drawn(number, 3, 100), drawn(number, 4, 100), drawn(number, 5, 100));
    Arc::new(Doc {
        fields: vec![
            vec![Key::Str(format!("d{number}"))],
            vec![Key::Str(format!("c{}", drawn(number, 1, 10)))],
            vec![Key::Long(i64::from(drawn(number, 2, 1000)))],
            vec![Key::Token(text)],
        ],
    })
}

// The words of a text, in small letters.
fn tokens(text: &str) -> Vec<String> {
    text.split(|c: char| !c.is_alphanumeric()).filter(|word| !word.is_empty()).map(str::to_lowercase).collect()
}

impl Field {
    fn new(docs: &[Arc<Doc>], field: usize) -> Field {
        let mut found: Vec<(Key, u32, u32, u32)> = Vec::new();
        for (number, doc) in docs.iter().enumerate() {
            for (i, value) in doc.fields[field].iter().enumerate() {
                match value {
                    Key::Token(text) => {
                        for (j, token) in tokens(text).into_iter().enumerate() {
                            found.push((Key::Token(token), number as u32, i as u32, j as u32));
                        }
                    }
                    other => found.push((other.clone(), number as u32, i as u32, 0)),
                }
            }
        }
        found.sort_by(|a, b| a.0.cmp(&b.0));
        let mut made = Field { terms: vec![], ends: vec![], docs: vec![], place_ends: vec![], places: vec![] };
        for (key, doc, value, token) in found {
            let told = matches!(key, Key::Token(_));
            let new_term = made.terms.last() != Some(&key);
            if new_term {
                made.terms.push(key);
                made.ends.push(made.docs.len() as u32);
            }
            if new_term || made.docs.last() != Some(&doc) {
                made.docs.push(doc);
                made.place_ends.push(made.places.len() as u32);
            }
            if told {
                made.places.push((value, token));
                *made.place_ends.last_mut().unwrap() = made.places.len() as u32;
            }
            *made.ends.last_mut().unwrap() = made.docs.len() as u32;
        }
        for list in [&mut made.ends, &mut made.docs, &mut made.place_ends] {
            list.shrink_to_fit();
        }
        made.terms.shrink_to_fit();
        made.places.shrink_to_fit();
        made
    }

    // The places in `docs` of a term's postings.
    fn span(&self, term: usize) -> (usize, usize) {
        let start = if term == 0 { 0 } else { self.ends[term - 1] };
        (start as usize, self.ends[term] as usize)
    }

    fn places(&self, at: usize) -> &[(u32, u32)] {
        let start = if at == 0 { 0 } else { self.place_ends[at - 1] };
        &self.places[start as usize..self.place_ends[at] as usize]
    }
}

impl View {
    fn empty() -> View {
        View { parts: vec![], live: Arc::new(vec![]), size: 0 }
    }

    fn extend(&self, added: Vec<Arc<Doc>>) -> View {
        let size = self.size + added.len() as u32;
        let mut live = self.live.to_vec();
        live.resize(size.div_ceil(64) as usize, 0);
        for number in self.size..size {
            live[number as usize / 64] |= 1 << (number % 64);
        }
        let fields = (0..4).map(|field| Field::new(&added, field)).collect();
        let mut parts = self.parts.clone();
        parts.push(Arc::new(Segment { docs: added, fields }));
        View { parts, live: Arc::new(live), size }
    }

    fn is_live(&self, number: u32) -> bool {
        self.live[number as usize / 64] >> (number % 64) & 1 == 1
    }

    // Adds the live documents of the terms of a field that an end and a test allow.
    fn gather(&self, field: usize, from: &Key, within: impl Fn(&Key) -> bool, found: &mut Vec<u32>) {
        let mut base = 0;
        for part in &self.parts {
            let in_field = &part.fields[field];
            let first = in_field.terms.partition_point(|term| term < from);
            for term in first..in_field.terms.len() {
                if !within(&in_field.terms[term]) {
                    break;
                }
                let (start, end) = in_field.span(term);
                found.extend(in_field.docs[start..end].iter().map(|doc| base + doc).filter(|&doc| self.is_live(doc)));
            }
            base += part.docs.len() as u32;
        }
    }

    fn term(&self, field: usize, key: &Key) -> Vec<u32> {
        let mut found = Vec::new();
        self.gather(field, key, |term| term == key, &mut found);
        found
    }

    // The documents of many terms: marked in a row of bits, and read from it.
    fn many(&self, field: usize, from: &Key, within: impl Fn(&Key) -> bool) -> Vec<u32> {
        let mut found = Vec::new();
        self.gather(field, from, within, &mut found);
        let mut marks = vec![0u64; self.size.div_ceil(64) as usize];
        for number in &found {
            marks[*number as usize / 64] |= 1 << (number % 64);
        }
        found.clear();
        for (i, mut word) in marks.into_iter().enumerate() {
            while word != 0 {
                found.push(i as u32 * 64 + word.trailing_zeros());
                word &= word - 1;
            }
        }
        found
    }

    // The live documents with two words side by side in the text.
    fn phrase(&self, field: usize, first: &Key, second: &Key) -> Vec<u32> {
        let mut found = Vec::new();
        let mut base = 0;
        for part in &self.parts {
            let in_field = &part.fields[field];
            if let (Ok(a), Ok(b)) = (in_field.terms.binary_search(first), in_field.terms.binary_search(second)) {
                let ((mut i, i_end), (mut j, j_end)) = (in_field.span(a), in_field.span(b));
                while i < i_end && j < j_end {
                    match in_field.docs[i].cmp(&in_field.docs[j]) {
                        Ordering::Less => i += 1,
                        Ordering::Greater => j += 1,
                        Ordering::Equal => {
                            let doc = base + in_field.docs[i];
                            if self.is_live(doc) && follows(in_field.places(i), in_field.places(j)) {
                                found.push(doc);
                            }
                            i += 1;
                            j += 1;
                        }
                    }
                }
            }
            base += part.docs.len() as u32;
        }
        found
    }
}

fn follows(places: &[(u32, u32)], others: &[(u32, u32)]) -> bool {
    let mut rest = others;
    for &(value, token) in places {
        let target = (value, token + 1);
        while rest.first().is_some_and(|place| *place < target) {
            rest = &rest[1..];
        }
        if rest.first() == Some(&target) {
            return true;
        }
    }
    false
}

fn both(left: &[u32], right: &[u32]) -> Vec<u32> {
    let (mut i, mut j) = (0, 0);
    let mut found = Vec::new();
    while i < left.len() && j < right.len() {
        match left[i].cmp(&right[j]) {
            Ordering::Less => i += 1,
            Ordering::Greater => j += 1,
            Ordering::Equal => {
                found.push(left[i]);
                i += 1;
                j += 1;
            }
        }
    }
    found
}

fn text_key(text: &str) -> Key {
    Key::Str(text.to_string())
}

fn token_key(text: &str) -> Key {
    Key::Token(text.to_string())
}

fn ask(view: &View, name: &str, run: impl Fn() -> Vec<u32>) {
    let mut least = u64::MAX;
    let mut found = 0;
    for _ in 0..9 {
        let start = Instant::now();
        let set = black_box(run());
        least = least.min(start.elapsed().as_nanos() as u64);
        found = set.len();
    }
    println!("query {} {name}: {least} ns ({found})", view.size);
}

fn extending(view: &View, added: &[Arc<Doc>], rounds: u32) -> u64 {
    (0..rounds)
        .map(|_| {
            let more = added.to_vec();
            let start = Instant::now();
            let made = black_box(view.extend(more));
            let spent = start.elapsed().as_nanos() as u64;
            drop(made);
            spent
        })
        .min()
        .unwrap()
}

fn queries(view: &View) {
    let starts = |text: &'static str| move |key: &Key| matches!(key, Key::Str(t) | Key::Token(t) if t.starts_with(text));
    ask(view, "id:d77", || view.term(0, &text_key("d77")));
    ask(view, "cat:c3", || view.term(1, &text_key("c3")));
    ask(view, "w13", || view.term(3, &token_key("w13")));
    ask(view, "+cat:c3 +w13", || both(&view.term(1, &text_key("c3")), &view.term(3, &token_key("w13"))));
    ask(view, "\"w13 w7\"", || view.phrase(3, &token_key("w13"), &token_key("w7")));
    ask(view, "price:[100 TO 300]", || view.many(2, &Key::Long(100), |key| *key <= Key::Long(300)));
    ask(view, "id:d1*", || view.many(0, &text_key("d1"), starts("d1")));
    ask(view, "w1*", || view.many(3, &token_key("w1"), starts("w1")));
}

fn main() {
    let mut words = env::args().skip(1);
    if let Some(word) = words.next() {
        let all: Vec<_> = (0..word.parse().unwrap()).map(doc).collect();
        if words.next().is_none() {
            black_box(View::empty().extend(black_box(all)));
        }
        return;
    }
    for count in [1_000, 10_000, 100_000, 20_000, 200_000] {
        let all: Vec<_> = (0..count).map(doc).collect();
        println!("index {count}: {} ns a document", extending(&View::empty(), &all, 5) / u64::from(count));
        let view = View::empty().extend(all);
        if count == 20_000 || count == 200_000 {
            queries(&view);
        } else {
            let more: Vec<_> = (count..count + 100).map(doc).collect();
            println!("commit {count}: {} ns", extending(&view, &more, 50));
        }
    }
}
