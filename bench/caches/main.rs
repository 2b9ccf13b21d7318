// Times a hit in a map of std over a linked list of 4,096 entries, by queries of one, five and fifty parts. `run.sh`
// sets it beside the filter cache.
use std::collections::HashMap;
use std::sync::Arc;
use std::time::Instant;

const SIZE: u32 = 4096;
const ROUNDS: u32 = 40;
const END: usize = usize::MAX;

#[allow(dead_code)]
#[derive(PartialEq, Eq, Hash)]
enum Key {
    Str(String),
    Long(i64),
    Bool(bool),
    Token(String),
}

#[allow(dead_code)]
#[derive(PartialEq, Eq, Hash)]
enum Query {
    All,
    Exists(u32),
    Term(u32, Key),
    Words(u32, Vec<String>),
    Prefix(u32, String),
    Bool { must: Vec<Query>, should: Vec<Query>, not: Vec<Query> },
}

struct Node {
    value: Arc<Vec<u32>>,
    newer: usize,
    older: usize,
}

// A map of places, and the entries in the order of their last use.
struct Cache {
    places: HashMap<Query, usize>,
    nodes: Vec<Node>,
    first: usize,
    last: usize,
}

impl Cache {
    fn unlink(&mut self, at: usize) {
        let (newer, older) = (self.nodes[at].newer, self.nodes[at].older);
        if newer == END { self.first = older } else { self.nodes[newer].older = older }
        if older == END { self.last = newer } else { self.nodes[older].newer = newer }
    }

    fn link_first(&mut self, at: usize) {
        let first = self.first;
        self.nodes[at].newer = END;
        self.nodes[at].older = first;
        if first == END { self.last = at } else { self.nodes[first].newer = at }
        self.first = at;
    }

    fn put(&mut self, key: Query, value: Arc<Vec<u32>>) {
        let at = self.nodes.len();
        self.nodes.push(Node { value, newer: END, older: END });
        self.places.insert(key, at);
        self.link_first(at);
    }

    // Takes the key, as the look-up of the cache does.
    fn look(&mut self, key: Query) -> Option<Arc<Vec<u32>>> {
        let at = *self.places.get(&key)?;
        self.unlink(at);
        self.link_first(at);
        Some(Arc::clone(&self.nodes[at].value))
    }
}

fn part(number: u32, at: u32) -> Query {
    Query::Term(0, Key::Str(format!("part {number}/{at}")))
}

fn query(number: u32, parts: u32) -> Query {
    if parts == 1 {
        return part(number, 0);
    }
    let must = (0..parts).map(|at| part(number, at)).collect();
    Query::Bool { must, should: Vec::new(), not: Vec::new() }
}

fn hits(cache: &mut Cache, queries: Vec<Query>) -> u64 {
    let mut hits = 0;
    for key in queries {
        if let Some(set) = cache.look(key) {
            hits += set.len() as u64;
        }
    }
    hits
}

fn main() {
    for parts in [1, 5, 50] {
        let mut cache = Cache { places: HashMap::new(), nodes: Vec::new(), first: END, last: END };
        let set = Arc::new(vec![1]);
        for number in 0..SIZE {
            cache.put(query(number, parts), Arc::clone(&set));
        }
        let mut least = u64::MAX;
        let mut sum = 0;
        for round in 0..ROUNDS {
            let queries: Vec<Query> =
                (0..SIZE).map(|turn| query(turn.wrapping_mul(1_597).wrapping_add(round * 7) % SIZE, parts)).collect();
            let start = Instant::now();
            let hit = hits(&mut cache, queries);
            least = least.min(start.elapsed().as_nanos() as u64);
            sum += hit;
        }
        println!("map and list of std, {parts} parts: {} ns a hit ({sum} hits)", least / u64::from(SIZE));
    }
}
