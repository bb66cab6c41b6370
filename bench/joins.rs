// What the program does on a tree of streams, selects by one range, projects, sums and joins, in plain Rust: the measure of its
// speed. Files have canonical lines, and punctuations of constants and wildcards, or of one range `[..k]` and wildcards. Words: the
// plan, and each stream's file.

use std::collections::{BTreeMap, BTreeSet};
use std::fs::File;
use std::hash::{BuildHasherDefault, Hasher};
use std::io::{self, BufRead, BufReader, BufWriter, Write};
use std::rc::Rc;

// A quick hash of keys, which are no secret.
#[derive(Default)]
struct Quick(u64);

impl Hasher for Quick {
    fn finish(&self) -> u64 {
        self.0 ^ self.0 >> 32
    }

    fn write(&mut self, bytes: &[u8]) {
        for part in bytes.chunks(8) {
            let mut word = [0; 8];
            word[..part.len()].copy_from_slice(part);
            self.0 = (self.0.rotate_left(5) ^ u64::from_le_bytes(word)).wrapping_mul(0x517c_c1b7_2722_0a95);
        }
    }
}

type HashMap<K, V> = std::collections::HashMap<K, V, BuildHasherDefault<Quick>>;

// The cells of an element, without its first one. A wildcard is `*`.
struct Row {
    line: Vec<u8>,
    ends: Vec<(u32, u32)>,
}

impl Row {
    fn of(line: &[u8]) -> Row {
        let (mut ends, mut at) = (Vec::with_capacity(4), 1);
        while at < line.len() {
            let start = at + 1;
            at = start;
            if line[at] == b'"' {
                at += 1;
                while line[at] != b'"' {
                    at += if line[at] == b'\\' { 2 } else { 1 };
                }
                at += 1;
            } else {
                at += line[at..].iter().position(|byte| *byte == b' ').unwrap_or(line.len() - at);
            }
            ends.push((start as u32, at as u32));
        }
        Row { line: line.to_vec(), ends }
    }

    // The rows' cells one after the other.
    fn joined(rows: &[Rc<Row>]) -> Row {
        let mut line = Vec::with_capacity(rows.iter().map(|row| row.line.len()).sum());
        let mut ends = Vec::with_capacity(rows.iter().map(|row| row.ends.len()).sum());
        line.push(b't');
        for row in rows {
            let before = line.len() as u32 - 1;
            line.extend_from_slice(&row.line[1..]);
            ends.extend(row.ends.iter().map(|(start, end)| (start + before, end + before)));
        }
        Row { line, ends }
    }

    // A punctuation with so many wildcards before and behind it.
    fn widened(&self, before: usize, behind: usize) -> Row {
        let mut line = Vec::with_capacity(self.line.len() + 2 * (before + behind));
        line.push(b'p');
        line.extend(b" *".iter().cycle().take(2 * before));
        line.extend_from_slice(&self.line[1..]);
        line.extend(b" *".iter().cycle().take(2 * behind));
        let wild = |count: usize, from: usize| (0..count).map(move |at| ((from + 2 * at + 1) as u32, (from + 2 * at + 2) as u32));
        let moved = self.ends.iter().map(|(start, end)| (start + 2 * before as u32, end + 2 * before as u32));
        let ends = wild(before, 1).chain(moved).chain(wild(behind, self.line.len() + 2 * before)).collect();
        Row { line, ends }
    }

    fn of_cells<'a>(tag: u8, cells: impl Iterator<Item = &'a [u8]>) -> Row {
        let (mut line, mut ends) = (Vec::with_capacity(32), Vec::with_capacity(4));
        line.push(tag);
        for cell in cells {
            line.push(b' ');
            let start = line.len() as u32;
            line.extend_from_slice(cell);
            ends.push((start, line.len() as u32));
        }
        Row { line, ends }
    }

    fn number(&self, column: usize) -> i64 {
        number_of(self.cell(column))
    }

    fn cell(&self, column: usize) -> &[u8] {
        let (start, end) = self.ends[column];
        &self.line[start as usize..end as usize]
    }

    fn is_wild(&self, column: usize) -> bool {
        self.cell(column) == b"*"
    }

    fn constants(&self) -> Vec<usize> {
        (0..self.ends.len()).filter(|column| !self.is_wild(*column)).collect()
    }

    // The column with a range, and its end.
    fn limit(&self) -> Option<(usize, i64)> {
        (0..self.ends.len()).find_map(|column| {
            let end = self.cell(column).strip_prefix(b"[..")?.strip_suffix(b"]")?;
            Some((column, number_of(end)))
        })
    }

    fn matches(&self, row: &Row) -> bool {
        match self.limit() {
            Some((column, end)) => row.number(column) <= end,
            None => (0..self.ends.len()).all(|column| self.is_wild(column) || self.cell(column) == row.cell(column)),
        }
    }
}

fn number_of(cell: &[u8]) -> i64 {
    std::str::from_utf8(cell).unwrap().parse().unwrap()
}

type Key = Box<[u8]>;

// The cells of these columns, each with a space behind it.
fn key_of(row: &Row, columns: &[usize]) -> Key {
    let mut key = Vec::with_capacity(columns.iter().map(|column| row.cell(*column).len() + 1).sum());
    for column in columns {
        key.extend_from_slice(row.cell(*column));
        key.push(b' ');
    }
    key.into()
}

// Punctuations by the columns in which they have constants, each with the least of its numbers.
#[derive(Default)]
struct Store {
    forms: Vec<(Vec<usize>, HashMap<Key, u64>)>,
    // The ends of the ranges in a column, which rise with the numbers of their punctuations.
    limits: Vec<(usize, Vec<(i64, u64)>)>,
}

impl Store {
    fn push(&mut self, punct: &Row, number: u64) {
        if let Some((column, end)) = punct.limit() {
            match self.limits.iter_mut().find(|limit| limit.0 == column) {
                Some(limit) if limit.1.last().is_some_and(|last| last.0 >= end) => {}
                Some(limit) => limit.1.push((end, number)),
                None => self.limits.push((column, vec![(end, number)])),
            }
            return;
        }
        let columns = punct.constants();
        let key = key_of(punct, &columns);
        match self.forms.iter_mut().find(|form| form.0 == columns) {
            Some(form) => drop(form.1.entry(key).or_insert(number)),
            None => self.forms.push((columns, HashMap::from_iter([(key, number)]))),
        }
    }

    fn first_match(&self, row: &Row) -> Option<u64> {
        let of_constants = self.forms.iter().filter_map(|(columns, numbers)| numbers.get(&key_of(row, columns)).copied());
        let of_ranges = self.limits.iter().filter_map(|(column, ends)| {
            let number = row.number(*column);
            ends.get(ends.partition_point(|end| end.0 < number)).map(|end| end.1)
        });
        of_constants.chain(of_ranges).min()
    }

    // Whether one covers the instance that has these values in the marked columns, which are the key.
    fn covers<'a>(&self, marked: &[usize], key: &[u8], value: impl Fn(usize) -> &'a [u8]) -> bool {
        let is_in_range = |(column, ends): &(usize, Vec<(i64, u64)>)| marked.contains(column) && ends.last().is_some_and(|end| number_of(value(*column)) <= end.0);
        self.limits.iter().any(is_in_range) || self.forms.iter().any(|(columns, numbers)| {
            if columns == marked {
                return numbers.contains_key(key);
            }
            if !columns.iter().all(|column| marked.contains(column)) {
                return false;
            }
            let mut part = Vec::new();
            for column in columns {
                part.extend_from_slice(value(*column));
                part.push(b' ');
            }
            numbers.contains_key(&part[..])
        })
    }
}

enum Kind {
    Stream,
    Select { column: usize, low: i64, high: i64 },
    Project { columns: Vec<usize> },
    Group(Group),
    Join(Join),
}

struct Node {
    name: String,
    columns: Vec<String>,
    schemes: Vec<Vec<usize>>,
    // The node that it feeds, and as which of its inputs.
    parent: Option<(usize, usize)>,
    kind: Kind,
}

fn place_of(columns: &[String], name: &str) -> usize {
    columns.iter().position(|column| column == name).unwrap()
}

// The schemes whose marks are all among these columns, in their places there.
fn cut(schemes: &[Vec<usize>], columns: &[usize]) -> Vec<Vec<usize>> {
    let place = |mark: &usize| columns.iter().position(|column| column == mark);
    schemes.iter().filter_map(|scheme| scheme.iter().map(place).collect()).collect()
}

fn range_of(text: &str) -> (i64, i64) {
    let (low, high) = text[1..text.len() - 1].split_once("..").unwrap();
    (low.parse().unwrap_or(i64::MIN), high.parse().unwrap_or(i64::MAX))
}

fn join_of(nodes: &[Node], inputs: &[usize], words: &[&str]) -> Join {
    let mut classes = Vec::new();
    for class in words {
        let mut places = BTreeMap::new();
        for name in class.split('=') {
            for (input, node) in inputs.iter().enumerate() {
                if let Some(column) = nodes[*node].columns.iter().position(|other| other == name) {
                    places.insert(input, column);
                }
            }
        }
        classes.push(places);
    }
    let schemes: Vec<&[Vec<usize>]> = inputs.iter().map(|node| &nodes[*node].schemes[..]).collect();
    let certs = (0..inputs.len()).map(|input| certificate(&schemes, &classes, input)).collect();
    let arities: Vec<usize> = inputs.iter().map(|node| nodes[*node].columns.len()).collect();
    Join::new(JoinPlan { classes, certs }, &arities)
}

// The nodes in their order; each feeds a later one.
fn read_plan(text: &str) -> Vec<Node> {
    let mut nodes = Vec::<Node>::new();
    for line in text.lines() {
        let words: Vec<&str> = line.split(' ').collect();
        let number = |name: &str| nodes.iter().position(|node| node.name == name).unwrap();
        let (inputs, columns, schemes, kind) = match words[0] {
            "stream" => {
                let columns = words[2..].iter().map(|word| word.split(':').next().unwrap().to_owned()).collect();
                (Vec::new(), columns, Vec::new(), Kind::Stream)
            }
            "scheme" => {
                let marked = (2..words.len()).filter(|at| words[*at] == "+").map(|at| at - 2).collect();
                let stream = number(words[1]);
                nodes[stream].schemes.push(marked);
                continue;
            }
            "select" => {
                let input = number(words[2]);
                let (low, high) = range_of(words[5]);
                let column = place_of(&nodes[input].columns, words[4]);
                (vec![input], nodes[input].columns.clone(), nodes[input].schemes.clone(), Kind::Select { column, low, high })
            }
            "project" => {
                let input = number(words[2]);
                let columns: Vec<usize> = words[3..].iter().map(|name| place_of(&nodes[input].columns, name)).collect();
                let names = words[3..].iter().map(|name| name.to_string()).collect();
                (vec![input], names, cut(&nodes[input].schemes, &columns), Kind::Project { columns })
            }
            "group" => {
                let input = number(words[2]);
                let of = words.iter().position(|word| *word == "of").unwrap();
                let keys: Vec<usize> = words[4..of].iter().map(|name| place_of(&nodes[input].columns, name)).collect();
                let sums: Vec<(&str, &str)> = words[of + 1..].iter().map(|word| word.split_once("=sum:").unwrap()).collect();
                let names = words[4..of].iter().copied().chain(sums.iter().map(|sum| sum.0)).map(str::to_owned).collect();
                let summed = sums.iter().map(|sum| place_of(&nodes[input].columns, sum.1)).collect();
                (vec![input], names, cut(&nodes[input].schemes, &keys), Kind::Group(Group::new(keys, summed)))
            }
            "join" => {
                let on = words.iter().position(|word| *word == "on").unwrap();
                let inputs: Vec<usize> = words[2..on].iter().map(|name| number(name)).collect();
                let (mut columns, mut schemes) = (Vec::new(), Vec::new());
                for input in &inputs {
                    let before = columns.len();
                    schemes.extend(nodes[*input].schemes.iter().map(|scheme| scheme.iter().map(|mark| mark + before).collect()));
                    columns.extend(nodes[*input].columns.iter().cloned());
                }
                let join = join_of(&nodes, &inputs, &words[on + 1..]);
                (inputs, columns, schemes, Kind::Join(join))
            }
            _ => continue,
        };
        for (place, input) in inputs.into_iter().enumerate() {
            nodes[input].parent = Some((nodes.len(), place));
        }
        nodes.push(Node { name: words[1].to_owned(), columns, schemes, parent: None, kind });
    }
    nodes
}

fn certificate(schemes: &[&[Vec<usize>]], classes: &[BTreeMap<usize, usize>], input: usize) -> Vec<(usize, Vec<usize>)> {
    let (mut known, mut steps) = (BTreeSet::from([input]), Vec::new());
    'add: loop {
        for (other, listed) in schemes.iter().enumerate().filter(|(other, _)| !known.contains(other)) {
            let bound = |column: &usize| classes.iter().any(|class| class.get(&other) == Some(column) && class.keys().any(|k| known.contains(k)));
            if let Some(scheme) = listed.iter().find(|scheme| scheme.iter().all(bound)) {
                steps.push((other, scheme.clone()));
                known.insert(other);
                continue 'add;
            }
        }
        return steps;
    }
}

// What a node hands up: a row in parts, or a punctuation with so many wildcards before and behind it.
enum Up {
    Rows(Vec<Rc<Row>>),
    Punct(usize, Rc<Row>, usize),
}

// The open groups in order of their first rows, and for each form of a punctuation those with its constants.
struct Group {
    keys: Vec<usize>,
    summed: Vec<usize>,
    numbers: HashMap<Key, u64>,
    open: BTreeMap<u64, (Row, Vec<i128>)>,
    next: u64,
    forms: Vec<(Vec<usize>, HashMap<Key, BTreeSet<u64>>)>,
}

impl Group {
    fn new(keys: Vec<usize>, summed: Vec<usize>) -> Group {
        Group { keys, summed, numbers: HashMap::default(), open: BTreeMap::new(), next: 0, forms: Vec::new() }
    }

    fn tuple(&mut self, row: &Row) {
        let key = key_of(row, &self.keys);
        let number = match self.numbers.get(&key) {
            Some(number) => *number,
            None => {
                let number = self.next;
                self.next += 1;
                let cells = Row::of_cells(b't', self.keys.iter().map(|column| row.cell(*column)));
                for (columns, groups) in &mut self.forms {
                    groups.entry(key_of(&cells, columns)).or_default().insert(number);
                }
                self.open.insert(number, (cells, vec![0; self.summed.len()]));
                self.numbers.insert(key, number);
                number
            }
        };
        let sums = &mut self.open.get_mut(&number).unwrap().1;
        for (sum, column) in sums.iter_mut().zip(&self.summed) {
            *sum += i128::from(row.number(*column));
        }
    }

    // The rows of the groups that the punctuation closes, and what it says of the groups.
    fn punct(&mut self, punct: &Row, ups: &mut Vec<Up>) {
        if punct.constants().iter().any(|column| !self.keys.contains(column)) {
            return;
        }
        let said = Row::of_cells(b'p', self.keys.iter().map(|column| punct.cell(*column)));
        let columns = said.constants();
        if !self.forms.iter().any(|form| form.0 == columns) {
            let mut groups: HashMap<Key, BTreeSet<u64>> = HashMap::default();
            for (number, (cells, _)) in &self.open {
                groups.entry(key_of(cells, &columns)).or_default().insert(*number);
            }
            self.forms.push((columns.clone(), groups));
        }
        let form = self.forms.iter_mut().find(|form| form.0 == columns).unwrap();
        for number in form.1.remove(&key_of(&said, &columns)).unwrap_or_default() {
            let (cells, sums) = self.open.remove(&number).unwrap();
            let all: Vec<usize> = (0..self.keys.len()).collect();
            self.numbers.remove(&key_of(&cells, &all));
            for (columns, groups) in &mut self.forms {
                let key = key_of(&cells, columns);
                if let Some(set) = groups.get_mut(&key) {
                    set.remove(&number);
                    if set.is_empty() {
                        groups.remove(&key);
                    }
                }
            }
            let sums = sums.iter().map(|sum| (*sum).clamp(i64::MIN.into(), i64::MAX.into()).to_string()).collect::<Vec<String>>();
            let sums = Row::of_cells(b't', sums.iter().map(|sum| sum.as_bytes()));
            ups.push(Up::Rows(vec![Rc::new(cells), Rc::new(sums)]));
        }
        ups.push(Up::Punct(0, Rc::new(said), self.summed.len()));
    }
}

struct JoinPlan {
    // For each class the column of each input that it has.
    classes: Vec<BTreeMap<usize, usize>>,
    // For each input the others in an order in which the marked columns of a scheme of each are bound.
    certs: Vec<Vec<(usize, Vec<usize>)>>,
}

// A stored row, and the rows that watch through it.
struct Stored {
    row: Rc<Row>,
    watchers: Vec<(usize, u64)>,
}

struct Waiting {
    punct: Rc<Row>,
    witness: u64,
}

#[derive(Default)]
struct Side {
    rows: BTreeMap<u64, Stored>,
    // For each column that a class has, the tickets of the rows with a value there, which rise.
    index: HashMap<usize, HashMap<Key, Vec<u64>>>,
    // The numbers in such a column in order, once a range asks for them.
    orders: HashMap<usize, BTreeSet<i64>>,
    store: Store,
    // The rows to be judged at the next sweep.
    marked: BTreeSet<u64>,
    // For each scheme, by the constants of an instance, the rows that watch it.
    watches: HashMap<Vec<usize>, HashMap<Key, Vec<(usize, u64)>>>,
    waiting: BTreeMap<u64, Waiting>,
    witnesses: HashMap<u64, Vec<u64>>,
}

struct Join {
    plan: Rc<JoinPlan>,
    sides: Vec<Side>,
    next: u64,
    peak: usize,
    before: Vec<usize>,
    width: usize,
}

impl Join {
    fn new(plan: JoinPlan, arities: &[usize]) -> Join {
        let before = (0..arities.len()).map(|input| arities[..input].iter().sum()).collect();
        let mut sides: Vec<Side> = (0..arities.len()).map(|_| Side::default()).collect();
        for (input, column) in plan.classes.iter().flatten() {
            sides[*input].index.insert(*column, HashMap::default());
        }
        Join { plan: Rc::new(plan), sides, next: 0, peak: 0, before, width: arities.iter().sum() }
    }

    // The tickets of the rows of an input that agree with the parts in each class, which are all older than this one.
    fn partners(&self, plan: &JoinPlan, parts: &[Option<(u64, Rc<Row>)>], input: usize, below: u64) -> Vec<u64> {
        let mut found: Option<Vec<u64>> = None;
        for class in &plan.classes {
            let Some(column) = class.get(&input) else { continue };
            let Some((other, there)) = class.iter().find(|(other, _)| parts[**other].is_some()) else { continue };
            let value = parts[*other].as_ref().unwrap().1.cell(*there);
            match &mut found {
                None => found = Some(self.sides[input].index[column].get(value).map_or(Vec::new(), |set| set[..set.partition_point(|ticket| *ticket < below)].to_vec())),
                Some(tickets) => tickets.retain(|ticket| self.sides[input].rows[ticket].row.cell(*column) == value),
            }
        }
        found.unwrap_or_else(|| self.sides[input].rows.range(..below).map(|(ticket, _)| *ticket).collect())
    }

    fn tuple(&mut self, input: usize, row: Rc<Row>, ups: &mut Vec<Up>) {
        let (plan, ticket) = (self.plan.clone(), self.next);
        self.next += 1;
        let side = &mut self.sides[input];
        for (column, tickets) in &mut side.index {
            match tickets.get_mut(row.cell(*column)) {
                Some(set) => set.push(ticket),
                None => drop(tickets.insert(row.cell(*column).into(), vec![ticket])),
            }
        }
        for (column, numbers) in &mut side.orders {
            numbers.insert(row.number(*column));
        }
        side.rows.insert(ticket, Stored { row: row.clone(), watchers: Vec::new() });
        side.marked.insert(ticket);
        self.peak = self.peak.max(self.sides.iter().map(|side| side.rows.len()).sum());
        let mut parts = vec![None; self.sides.len()];
        parts[input] = Some((ticket, row));
        let mut found = Vec::new();
        self.complete(&plan, &mut parts, ticket, &mut found);
        found.sort_by(|a: &Vec<(u64, Rc<Row>)>, b| a.iter().map(|part| part.0).cmp(b.iter().map(|part| part.0)));
        ups.extend(found.into_iter().map(|rows| Up::Rows(rows.into_iter().map(|part| part.1).collect())));
    }

    fn complete(&self, plan: &JoinPlan, parts: &mut Vec<Option<(u64, Rc<Row>)>>, below: u64, found: &mut Vec<Vec<(u64, Rc<Row>)>>) {
        let open: Vec<usize> = (0..parts.len()).filter(|input| parts[*input].is_none()).collect();
        let linked = |input: &&usize| plan.classes.iter().any(|class| class.contains_key(*input) && class.keys().any(|k| parts[*k].is_some()));
        let Some(input) = open.iter().find(linked).or(open.first()).copied() else {
            found.push(parts.iter().flatten().cloned().collect());
            return;
        };
        for ticket in self.partners(plan, parts, input, below) {
            parts[input] = Some((ticket, self.sides[input].rows[&ticket].row.clone()));
            self.complete(plan, parts, below, found);
        }
        parts[input] = None;
    }

    fn up(&self, input: usize, punct: Rc<Row>) -> Up {
        let behind = self.width - self.before[input] - punct.ends.len();
        Up::Punct(self.before[input], punct, behind)
    }

    // The first stored row from this ticket on that the punctuation matches; of those of a range, one with the least number.
    fn witness(&self, input: usize, punct: &Row, from: u64) -> Option<u64> {
        let side = &self.sides[input];
        if let Some((column, end)) = punct.limit() {
            if let Some(numbers) = side.orders.get(&column) {
                let least = numbers.range(..=end).next()?;
                return side.index[&column].get(least.to_string().as_bytes())?.first().copied();
            }
        }
        let indexed = side.index.iter().find(|(column, _)| !punct.is_wild(**column));
        match indexed {
            Some((column, tickets)) => {
                let set = tickets.get(punct.cell(*column))?;
                let start = set.partition_point(|ticket| *ticket < from);
                set[start..].iter().find(|ticket| punct.matches(&side.rows[ticket].row)).copied()
            }
            None => side.rows.range(from..).find(|(_, stored)| punct.matches(&stored.row)).map(|(ticket, _)| *ticket),
        }
    }

    fn wait(&mut self, input: usize, number: u64, punct: Rc<Row>, witness: u64) {
        self.sides[input].witnesses.entry(witness).or_default().push(number);
        self.sides[input].waiting.insert(number, Waiting { punct, witness });
    }

    fn punct(&mut self, input: usize, punct: Rc<Row>, ups: &mut Vec<Up>) {
        let number = self.next;
        self.next += 1;
        self.sides[input].store.push(&punct, number);
        if let Some((column, _)) = punct.limit() {
            let side = &mut self.sides[input];
            if let (Some(tickets), false) = (side.index.get(&column), side.orders.contains_key(&column)) {
                let numbers = tickets.keys().map(|cell| number_of(cell)).collect();
                side.orders.insert(column, numbers);
            }
        }
        match self.witness(input, &punct, 0) {
            None => ups.push(self.up(input, punct.clone())),
            Some(witness) => self.wait(input, number, punct.clone(), witness),
        }
        let columns = punct.constants();
        let limit = punct.limit();
        let mut woken = Vec::new();
        for (marked, watches) in &mut self.sides[input].watches {
            if let (Some((_, end)), true) = (limit, *marked == columns) {
                let covered: Vec<Key> = watches.keys().filter(|key| number_of(&key[..key.len() - 1]) <= end).cloned().collect();
                woken.extend(covered.iter().flat_map(|key| watches.remove(key).unwrap()));
            } else if *marked == columns {
                woken.extend(watches.remove(&key_of(&punct, &columns)).unwrap_or_default());
            } else if columns.iter().all(|column| marked.contains(column)) {
                woken.extend(watches.drain().flat_map(|(_, rows)| rows));
            }
        }
        for (other, ticket) in woken {
            self.mark(other, ticket);
        }
    }

    fn mark(&mut self, input: usize, ticket: u64) {
        if self.sides[input].rows.contains_key(&ticket) {
            self.sides[input].marked.insert(ticket);
        }
    }

    // Whether all is covered that the parts ask for; else the row watches the first instance that is not.
    fn judge(&mut self, plan: &JoinPlan, own: (usize, u64), at: usize, parts: &mut Vec<Option<(u64, Rc<Row>)>>) -> bool {
        let cert = &plan.certs[own.0];
        let Some((input, marked)) = cert.get(at) else { return true };
        let value = |column: usize| {
            let class = plan.classes.iter().find(|class| class.get(input) == Some(&column)).unwrap();
            let (other, there) = class.iter().find(|(other, _)| parts[**other].is_some()).unwrap();
            parts[*other].as_ref().unwrap().1.cell(*there)
        };
        let mut key = Vec::with_capacity(24);
        for column in marked {
            key.extend_from_slice(value(*column));
            key.push(b' ');
        }
        if !self.sides[*input].store.covers(marked, &key, value) {
            self.sides[*input].watches.entry(marked.clone()).or_default().entry(key.into()).or_default().push(own);
            for (other, part) in parts.iter().enumerate().filter(|(other, _)| *other != own.0) {
                if let Some((ticket, _)) = part {
                    self.sides[other].rows.get_mut(ticket).unwrap().watchers.push(own);
                }
            }
            return false;
        }
        for ticket in self.partners(plan, parts, *input, self.next) {
            parts[*input] = Some((ticket, self.sides[*input].rows[&ticket].row.clone()));
            let covered = self.judge(plan, own, at + 1, parts);
            parts[*input] = None;
            if !covered {
                return false;
            }
        }
        true
    }

    fn sweep(&mut self, input: usize, ups: &mut Vec<Up>) {
        let plan = self.plan.clone();
        let marked = std::mem::take(&mut self.sides[input].marked);
        let mut ripe = Vec::new();
        for ticket in marked {
            let mut parts = vec![None; self.sides.len()];
            parts[input] = Some((ticket, self.sides[input].rows[&ticket].row.clone()));
            if self.judge(&plan, (input, ticket), 0, &mut parts) {
                ripe.push(ticket);
            }
        }
        let mut looked = BTreeSet::new();
        for ticket in ripe {
            let side = &mut self.sides[input];
            let stored = side.rows.remove(&ticket).unwrap();
            for (column, tickets) in &mut side.index {
                let set = tickets.get_mut(stored.row.cell(*column)).unwrap();
                let at = set.binary_search(&ticket).unwrap();
                set.remove(at);
                if set.is_empty() {
                    tickets.remove(stored.row.cell(*column));
                    if let Some(numbers) = side.orders.get_mut(column) {
                        numbers.remove(&stored.row.number(*column));
                    }
                }
            }
            looked.extend(side.witnesses.remove(&ticket).unwrap_or_default());
            for (other, watcher) in stored.watchers {
                self.mark(other, watcher);
            }
        }
        for number in looked {
            let waiting = self.sides[input].waiting.remove(&number).unwrap();
            match self.witness(input, &waiting.punct, waiting.witness) {
                None => ups.push(self.up(input, waiting.punct)),
                Some(witness) => self.wait(input, number, waiting.punct, witness),
            }
        }
    }
}

// The tree of nodes, and what the last of them wrote.
struct Tree<W: Write> {
    nodes: Vec<Node>,
    out: W,
    rows: u64,
    puncts: u64,
}

impl<W: Write> Tree<W> {
    // An element comes to a node from one of its inputs.
    fn arrive(&mut self, node: usize, input: usize, row: Rc<Row>) -> io::Result<()> {
        let is_punct = row.line[0] == b'p';
        let mut ups = Vec::new();
        let passed = match &mut self.nodes[node].kind {
            Kind::Stream => Some(row),
            Kind::Select { column, low, high } => (is_punct || (*low..=*high).contains(&row.number(*column))).then_some(row),
            Kind::Project { columns } => {
                let kept = !is_punct || row.constants().iter().all(|column| columns.contains(column));
                kept.then(|| Rc::new(Row::of_cells(row.line[0], columns.iter().map(|column| row.cell(*column)))))
            }
            Kind::Group(group) => {
                if is_punct { group.punct(&row, &mut ups) } else { group.tuple(&row) }
                None
            }
            Kind::Join(join) => {
                if is_punct { join.punct(input, row, &mut ups) } else { join.tuple(input, row, &mut ups) }
                None
            }
        };
        match (passed, self.nodes[node].parent) {
            (Some(row), Some((above, input))) => self.arrive(above, input, row),
            (Some(row), None) if is_punct => self.write(Up::Punct(0, row, 0)),
            (Some(row), None) => self.write(Up::Rows(vec![row])),
            (None, _) => self.hand_up(node, ups),
        }
    }

    fn hand_up(&mut self, node: usize, ups: Vec<Up>) -> io::Result<()> {
        for up in ups {
            match self.nodes[node].parent {
                Some((above, input)) => self.arrive(above, input, row_of(up))?,
                None => self.write(up)?,
            }
        }
        Ok(())
    }

    fn write(&mut self, up: Up) -> io::Result<()> {
        match up {
            Up::Rows(rows) => {
                self.rows += 1;
                self.out.write_all(b"t")?;
                for row in rows {
                    self.out.write_all(&row.line[1..])?;
                }
            }
            Up::Punct(before, punct, behind) => {
                self.puncts += 1;
                self.out.write_all(b"p")?;
                self.out.write_all(" *".repeat(before).as_bytes())?;
                self.out.write_all(&punct.line[1..])?;
                self.out.write_all(" *".repeat(behind).as_bytes())?;
            }
        }
        self.out.write_all(b"\n")
    }

    fn sweep(&mut self) -> io::Result<()> {
        for node in 0..self.nodes.len() {
            let inputs = if let Kind::Join(join) = &self.nodes[node].kind { join.sides.len() } else { 0 };
            for input in 0..inputs {
                let mut ups = Vec::new();
                if let Kind::Join(join) = &mut self.nodes[node].kind {
                    join.sweep(input, &mut ups);
                }
                self.hand_up(node, ups)?;
            }
        }
        Ok(())
    }
}

fn row_of(up: Up) -> Rc<Row> {
    match up {
        Up::Rows(mut rows) if rows.len() == 1 => rows.pop().unwrap(),
        Up::Rows(rows) => Rc::new(Row::joined(&rows)),
        Up::Punct(0, punct, 0) => punct,
        Up::Punct(before, punct, behind) => Rc::new(punct.widened(before, behind)),
    }
}

fn wild(arity: usize) -> Row {
    Row::of_cells(b'p', std::iter::repeat_n(&b"*"[..], arity))
}

// A stream's file with its accepted punctuations and its counts.
struct Feed {
    file: Option<BufReader<File>>,
    number: u64,
    store: Store,
    tuples: u64,
    puncts: u64,
    rejects: Vec<(u64, u64)>,
}

enum Turn {
    Tuple(Row),
    Punct(Row),
    End,
}

impl Feed {
    fn next(&mut self, line: &mut Vec<u8>) -> io::Result<Turn> {
        loop {
            line.clear();
            if self.file.as_mut().unwrap().read_until(b'\n', line)? == 0 {
                self.file = None;
                return Ok(Turn::End);
            }
            self.number += 1;
            let row = Row::of(line.strip_suffix(b"\n").unwrap_or(line));
            if row.line[0] == b'p' {
                self.puncts += 1;
                self.store.push(&row, self.number);
                return Ok(Turn::Punct(row));
            }
            match self.store.first_match(&row) {
                Some(number) => self.rejects.push((self.number, number)),
                None => {
                    self.tuples += 1;
                    return Ok(Turn::Tuple(row));
                }
            }
        }
    }
}

fn main() -> io::Result<()> {
    let words: Vec<String> = std::env::args().collect();
    let nodes = read_plan(&std::fs::read_to_string(&words[1])?);
    let streams: Vec<usize> = (0..nodes.len()).filter(|node| matches!(nodes[*node].kind, Kind::Stream)).collect();
    let out = BufWriter::with_capacity(1 << 16, io::stdout().lock());
    let mut tree = Tree { nodes, out, rows: 0, puncts: 0 };
    let mut feeds = Vec::new();
    for name in &words[2..] {
        let file = Some(BufReader::with_capacity(1 << 16, File::open(name)?));
        feeds.push(Feed { file, number: 0, store: Store::default(), tuples: 0, puncts: 0, rejects: Vec::new() });
    }
    let mut line = Vec::new();
    while feeds.iter().any(|feed| feed.file.is_some()) {
        for (stream, feed) in feeds.iter_mut().enumerate().filter(|(_, feed)| feed.file.is_some()) {
            let node = streams[stream];
            let row = match feed.next(&mut line)? {
                Turn::Tuple(row) | Turn::Punct(row) => row,
                Turn::End => wild(tree.nodes[node].columns.len()),
            };
            let is_punct = row.line[0] == b'p';
            tree.arrive(node, 0, Rc::new(row))?;
            if is_punct {
                tree.sweep()?;
            }
        }
    }
    for (stream, feed) in streams.iter().zip(&feeds) {
        let name = &tree.nodes[*stream].name;
        writeln!(tree.out, "# stream {name} tuples {} punctuations {} rejected {}", feed.tuples, feed.puncts, feed.rejects.len())?;
        for (number, by) in feed.rejects.iter().take(1_000) {
            writeln!(tree.out, "# reject {name} line {number} closed by line {by}")?;
        }
    }
    writeln!(tree.out, "# results {} punctuations {}", tree.rows, tree.puncts)?;
    for node in &tree.nodes {
        if let Kind::Join(join) = &node.kind {
            writeln!(tree.out, "# peak {} {}", node.name, join.peak)?;
        }
    }
    tree.out.flush()
}
