//! A plain program for some of what `asl` does, to hold the time and memory of `asl` against.
//!
//! It takes the command lines of the forms that `bench.py --plain` times, prints the same bytes, and ends with the same status:
//! runs of machines of Pass, Task with `Retry`, Parallel and Map with `ItemSelector`, with given answers, an order and declared
//! shapes; and the check of a certificate of Pass states. It is written for speed, in the usual way of Rust: texts are read
//! straight into what they stand for, with no JSON value in between; names and texts are borrowed from the text in which they
//! stand; of equal shapes one is kept; data that don't change are shared; and what stands in the trace already is copied from
//! there. As that of `asl` the trace is kept, and printed when the run is over.
//!
//! Nothing of it is proved, and it isn't complete. What it doesn't know it calls unsupported, with status 3: no escape in a
//! text, no number but a whole one of 64 bits, of a certificate no answer but yes. It doesn't look for all that is wrong with a
//! text, so it may read one that `asl` refuses.

use std::cell::Cell;
use std::collections::HashMap;
use std::hash::{BuildHasherDefault, Hash, Hasher};
use std::io::{self, Write};
use std::rc::Rc;
use std::{env, fs, process, vec};

/// The most bytes of a text, the most levels in it, and the most elements for which there is room before they are read.
const LIMIT: usize = 1 << 24;
const DEEPEST: usize = 127;
const MOST_ROOM: usize = 64;
/// The most steps of a run.
const MOST_STEPS: u64 = 10000;

/// Why the program stops before the end: it doesn't know this, or the run has as many steps as were asked for.
#[derive(Clone, Copy)]
enum Stop {
    Unsupported(&'static str),
    StepsSpent,
}

type Answered<T> = Result<T, Stop>;

fn unsupported<T>(what: &'static str) -> Answered<T> {
    Err(Stop::Unsupported(what))
}

// Values.

/// A JSON value. A text stood without an escape in what was read, and needs none where it is written. The fields of an object
/// stand in byte order of their names, each once.
#[derive(Clone)]
enum Value<'t> {
    Null,
    Bool(bool),
    Whole(i64),
    Text(&'t str),
    List(Box<[Value<'t>]>),
    Object(Box<[(&'t str, Value<'t>)]>),
}

fn write_value(out: &mut Vec<u8>, value: &Value) {
    match value {
        Value::Null => out.extend_from_slice(b"null"),
        Value::Bool(value) => out.extend_from_slice(if *value { b"true" } else { b"false" }),
        Value::Whole(number) => write_whole(out, *number),
        Value::Text(text) => write_text(out, text),
        Value::List(items) => write_all(out, *b"[]", items, write_value),
        Value::Object(fields) => write_all(out, *b"{}", fields, |out, (name, value)| {
            write_text(out, name);
            out.push(b':');
            write_value(out, value);
        }),
    }
}

fn write_all<T>(out: &mut Vec<u8>, brackets: [u8; 2], all: &[T], write: impl Fn(&mut Vec<u8>, &T)) {
    out.push(brackets[0]);
    for (number, one) in all.iter().enumerate() {
        if number > 0 {
            out.push(b',');
        }
        write(out, one);
    }
    out.push(brackets[1]);
}

fn write_text(out: &mut Vec<u8>, text: &str) {
    out.push(b'"');
    out.extend_from_slice(text.as_bytes());
    out.push(b'"');
}

fn write_whole(out: &mut Vec<u8>, number: i64) {
    let mut digits = [0; 20];
    let mut first = digits.len();
    let mut rest = number.unsigned_abs();
    while rest > 0 || first == digits.len() {
        first -= 1;
        digits[first] = b'0' + (rest % 10) as u8;
        rest /= 10;
    }
    if number < 0 {
        out.push(b'-');
    }
    out.extend_from_slice(&digits[first..]);
}

/// How many bytes stand in front of the first quote, backslash or control character, if there is one: eight bytes at a time.
fn length_of_plain(bytes: &[u8]) -> Option<usize> {
    const ONES: u64 = u64::MAX / 255;
    let (words, rest) = bytes.as_chunks::<8>();
    for (number, word) in words.iter().enumerate() {
        let word = u64::from_le_bytes(*word);
        let [quotes, backslashes] = [b'"', b'\\'].map(|byte| word ^ (ONES * u64::from(byte)));
        // In each of these the lowest byte with its highest bit set is the first one of its kind.
        let found = (quotes.wrapping_sub(ONES) & !quotes)
            | (backslashes.wrapping_sub(ONES) & !backslashes)
            | (word.wrapping_sub(ONES * u64::from(b' ')) & !word);
        let found = found & (ONES << 7);
        if found != 0 {
            return Some(number * 8 + found.trailing_zeros() as usize / 8);
        }
    }
    let length = rest.iter().position(|byte| matches!(byte, b'"' | b'\\' | 0..b' '))?;
    Some(words.len() * 8 + length)
}

// Reading.

/// How far a text is read.
struct Reader<'t> {
    text: &'t str,
    at: usize,
    depth: usize,
    /// A bracket was opened, and nothing read behind it.
    is_first: bool,
    /// How many fields the last object had, and how many elements the last list: the next one often has as many.
    fields: usize,
    items: usize,
}

impl<'t> Reader<'t> {
    /// Reads a whole text.
    fn read<T>(text: &'t str, read: impl FnOnce(&mut Reader<'t>) -> Answered<T>) -> Answered<T> {
        if text.len() > LIMIT {
            return unsupported("a text of that length");
        }
        let mut reader = Reader { text, at: 0, depth: 0, is_first: false, fields: 0, items: 0 };
        let found = read(&mut reader)?;
        reader.peek();
        if reader.at == text.len() { Ok(found) } else { unsupported("what stands behind a text") }
    }

    /// The next byte that is no blank, which stays; 0 at the end.
    fn peek(&mut self) -> u8 {
        loop {
            match self.text.as_bytes().get(self.at) {
                Some(b' ' | b'\n' | b'\r' | b'\t') => self.at += 1,
                Some(byte) => return *byte,
                None => return 0,
            }
        }
    }

    /// Takes that byte, with the blanks in front of it.
    #[inline(always)]
    fn take(&mut self, wanted: u8) -> Answered<()> {
        if self.peek() != wanted {
            return unsupported("a text that isn't written so");
        }
        self.at += 1;
        Ok(())
    }

    /// Opens an object or a list.
    fn open(&mut self, bracket: u8) -> Answered<()> {
        self.take(bracket)?;
        self.is_first = true;
        self.depth += 1;
        if self.depth <= DEEPEST { Ok(()) } else { unsupported("a text of that many levels") }
    }

    /// Whether more stands in front of that bracket, which closes what was opened last, and is taken where nothing does.
    fn goes_on(&mut self, bracket: u8) -> Answered<bool> {
        let is_over = self.peek() == bracket;
        if is_over {
            self.at += 1;
            self.depth -= 1;
        } else if !self.is_first {
            self.take(b',')?;
        }
        self.is_first = false;
        Ok(!is_over)
    }

    /// The name of the next field of an object, whose value is read next; none at its end.
    fn field(&mut self) -> Answered<Option<&'t str>> {
        if !self.goes_on(b'}')? {
            return Ok(None);
        }
        let name = self.text()?;
        self.take(b':')?;
        Ok(Some(name))
    }

    /// Reads a text, in which an escape isn't known.
    fn text(&mut self) -> Answered<&'t str> {
        self.take(b'"')?;
        let rest = &self.text[self.at..];
        match length_of_plain(rest.as_bytes()) {
            Some(length) if rest.as_bytes()[length] == b'"' => {
                self.at += length + 1;
                Ok(&rest[..length])
            }
            _ => unsupported("a text with an escape, or without its end"),
        }
    }

    fn whole(&mut self) -> Answered<i64> {
        let is_negative = self.peek() == b'-';
        self.at += usize::from(is_negative);
        let rest = &self.text.as_bytes()[self.at..];
        let mut length = 0;
        let mut number: u64 = 0;
        while let Some(digit @ b'0'..=b'9') = rest.get(length) {
            number = number.wrapping_mul(10).wrapping_add(u64::from(digit - b'0'));
            length += 1;
        }
        self.at += length;
        // A number of 64 bits has room for nineteen digits.
        let is_within = matches!(length, 1..=19) && number <= i64::MAX as u64 + u64::from(is_negative);
        let has_zero = rest.first() == Some(&b'0') && (length > 1 || is_negative);
        if !is_within || has_zero || matches!(rest.get(length), Some(b'.' | b'e' | b'E')) {
            return unsupported("such a number");
        }
        Ok(if is_negative { (number as i64).wrapping_neg() } else { number as i64 })
    }

    fn boolean(&mut self) -> Answered<bool> {
        match self.value()? {
            Value::Bool(value) => Ok(value),
            _ => unsupported("what is neither true nor false there"),
        }
    }

    fn value(&mut self) -> Answered<Value<'t>> {
        match self.peek() {
            b'"' => Ok(Value::Text(self.text()?)),
            b'{' => Ok(Value::Object(self.named(Reader::value)?.into())),
            b'[' => Ok(Value::List(self.all(Reader::value)?.into())),
            b't' => self.word("true", Value::Bool(true)),
            b'f' => self.word("false", Value::Bool(false)),
            b'n' => self.word("null", Value::Null),
            _ => Ok(Value::Whole(self.whole()?)),
        }
    }

    /// Takes that word, which begins here, and stands for that value.
    fn word(&mut self, word: &str, value: Value<'t>) -> Answered<Value<'t>> {
        if !self.text[self.at..].starts_with(word) {
            return unsupported("a text that isn't written so");
        }
        self.at += word.len();
        Ok(value)
    }

    /// Reads a list, each element so.
    fn all<T>(&mut self, mut read: impl FnMut(&mut Self) -> Answered<T>) -> Answered<Vec<T>> {
        self.open(b'[')?;
        let mut all = Vec::with_capacity(self.items);
        while self.goes_on(b']')? {
            all.push(read(self)?);
        }
        self.items = all.len().min(MOST_ROOM);
        Ok(all)
    }

    /// Reads an object, each value so. Its fields come in byte order of their names, of several with one name the last.
    fn named<T>(&mut self, mut read: impl FnMut(&mut Self) -> Answered<T>) -> Answered<Vec<(&'t str, T)>> {
        self.open(b'{')?;
        let mut named = Vec::with_capacity(self.fields);
        while let Some(name) = self.field()? {
            named.push((name, read(self)?));
        }
        self.fields = named.len().min(MOST_ROOM);
        put_in_order(&mut named);
        Ok(named)
    }
}

/// Puts what has names in byte order of the names, and of several with one name keeps the last.
fn put_in_order<T>(named: &mut Vec<(&str, T)>) {
    if !named.is_sorted_by(|one, next| one.0 < next.0) {
        named.reverse();
        named.sort_by(|one, other| one.0.cmp(other.0));
        named.dedup_by(|earlier, last| earlier.0 == last.0);
    }
}

// Shapes.

/// The number of a shape in the table of all, and those of the simple ones, which stand there in front.
type Number = u32;
const ANY: Number = 0;
const NEVER: Number = 1;
const WHOLE: Number = 2;
const TEXT: Number = 3;
const BOOL: Number = 4;
const NULL: Number = 5;

/// A shape. The fields of an object stand in byte order of their names, with whether there may be others.
#[derive(PartialEq, Eq, Hash)]
enum Shape<'t> {
    Simple(Number),
    List(Number),
    Object(Box<[Property<'t>]>, bool),
}

/// The name of a field, its shape, and whether it is needed.
type Property<'t> = (&'t str, (Number, bool));

type Table<K, V> = HashMap<K, V, BuildHasherDefault<Quick>>;

/// A quick hash, which nobody has to be kept from guessing: a multiplication for each eight bytes.
#[derive(Default)]
struct Quick(u64);

impl Hasher for Quick {
    fn write(&mut self, bytes: &[u8]) {
        for chunk in bytes.chunks(8) {
            let mut word = [0; 8];
            word[..chunk.len()].copy_from_slice(chunk);
            self.write_u64(u64::from_le_bytes(word));
        }
    }

    fn write_u64(&mut self, number: u64) {
        self.0 = (self.0.rotate_left(5) ^ number).wrapping_mul(0x517c_c1b7_2722_0a95);
    }

    fn finish(&self) -> u64 {
        self.0.rotate_left(26)
    }
}

/// All shapes, each of which stands there once.
struct Shapes<'t> {
    all: Vec<Rc<Shape<'t>>>,
    numbers: Table<Rc<Shape<'t>>, Number>,
}

impl<'t> Shapes<'t> {
    fn new() -> Shapes<'t> {
        let mut shapes = Shapes { all: Vec::new(), numbers: Table::default() };
        for simple in ANY..=NULL {
            shapes.number_of(Shape::Simple(simple));
        }
        shapes
    }

    fn number_of(&mut self, shape: Shape<'t>) -> Number {
        if let Some(number) = self.numbers.get(&shape) {
            return *number;
        }
        let number = self.all.len() as Number;
        let shape = Rc::new(shape);
        self.all.push(Rc::clone(&shape));
        self.numbers.insert(shape, number);
        number
    }

    fn read(&mut self, reader: &mut Reader<'t>) -> Answered<Number> {
        if reader.peek() != b'{' {
            return Ok(if reader.boolean()? { ANY } else { NEVER });
        }
        let (mut kind, mut item, mut is_open) = ("", ANY, true);
        let (mut properties, mut needed) = (Vec::new(), Vec::new());
        reader.open(b'{')?;
        while let Some(keyword) = reader.field()? {
            match keyword {
                "type" => kind = reader.text()?,
                "items" => item = self.read(reader)?,
                "properties" => properties = reader.named(|reader| Ok((self.read(reader)?, false)))?,
                "required" => needed = reader.all(Reader::text)?,
                "additionalProperties" => is_open = reader.boolean()?,
                _ => return unsupported("such a keyword"),
            }
        }
        match kind {
            "integer" => Ok(WHOLE),
            "string" => Ok(TEXT),
            "boolean" => Ok(BOOL),
            "null" => Ok(NULL),
            "array" => Ok(self.number_of(Shape::List(item))),
            "object" => {
                mark_needed(&mut properties, &needed)?;
                Ok(self.number_of(Shape::Object(properties.into(), is_open)))
            }
            _ => unsupported("such a type"),
        }
    }

    /// Checks that the value has the shape.
    fn check_has(&self, shape: Number, value: &Value) -> Answered<()> {
        match (&*self.all[shape as usize], value) {
            (Shape::Simple(ANY), _)
            | (Shape::Simple(WHOLE), Value::Whole(_))
            | (Shape::Simple(TEXT), Value::Text(_))
            | (Shape::Simple(BOOL), Value::Bool(_))
            | (Shape::Simple(NULL), Value::Null) => Ok(()),
            (Shape::List(item), Value::List(items)) => items.iter().try_for_each(|value| self.check_has(*item, value)),
            _ => unsupported("data that lack their shape, or that have the one of an object"),
        }
    }
}

/// Marks the properties of these names as needed, which most often come in the order of the properties.
fn mark_needed(properties: &mut [Property], names: &[&str]) -> Answered<()> {
    for (number, name) in names.iter().enumerate() {
        let place = match properties.get(number) {
            Some(property) if property.0 == *name => Ok(number),
            _ => properties.binary_search_by(|property| property.0.cmp(name)),
        };
        properties[place.or(unsupported("a needed field without a shape"))?].1.1 = true;
    }
    Ok(())
}

/// Checks that each value of the one shape has the other. Of others than these it isn't known.
fn check_inside(one: Number, other: Number) -> Answered<()> {
    if one == other || one == NEVER || other == ANY { Ok(()) } else { unsupported("shapes that differ") }
}

// Machines.

/// A state. At the end of a scope there is no next one.
struct State<'t> {
    name: &'t str,
    kind: Kind<'t>,
    next: Option<usize>,
}

/// The type of a state, and what it has of its own. A branch and a processor are told by the state that they start with.
enum Kind<'t> {
    Pass,
    Task(Vec<Retrier<'t>>),
    Parallel(Vec<usize>),
    Map(Option<Selector<'t>>, usize),
}

struct Retrier<'t> {
    errors: Vec<&'t str>,
    attempts: i64,
}

/// The fields that an item selector makes, each with the item or, where so is said, its number.
type Selector<'t> = Vec<(&'t str, bool)>;

/// The states of all scopes of a definition, with the number of each by its name.
#[derive(Default)]
struct Machine<'t> {
    states: Vec<State<'t>>,
    numbers: Table<&'t str, usize>,
    start: usize,
}

impl<'t> Machine<'t> {
    fn read(text: &'t str) -> Answered<Machine<'t>> {
        let mut machine = Machine::default();
        machine.start = Reader::read(text, |reader| machine.read_scope(reader))?;
        Ok(machine)
    }

    /// Reads a scope, and gives the number of the state with which it starts.
    fn read_scope(&mut self, reader: &mut Reader<'t>) -> Answered<usize> {
        let (mut start, mut nexts) = ("", Vec::new());
        reader.open(b'{')?;
        while let Some(field) = reader.field()? {
            match field {
                "StartAt" => start = reader.text()?,
                "States" => {
                    reader.open(b'{')?;
                    while let Some(name) = reader.field()? {
                        let next = self.read_state(reader, name)?;
                        nexts.extend(next.map(|next| (self.states.len() - 1, next)));
                    }
                }
                _ => return unsupported("such a field of a machine"),
            }
        }
        for (number, next) in nexts {
            self.states[number].next = Some(self.number_of(next)?);
        }
        self.number_of(start)
    }

    /// Reads a state, which becomes the last one, and gives the name of what comes next to it.
    fn read_state(&mut self, reader: &mut Reader<'t>, name: &'t str) -> Answered<Option<&'t str>> {
        let (mut kind, mut next, mut is_end) = ("", None, false);
        let (mut retriers, mut starts, mut selector) = (Vec::new(), Vec::new(), None);
        reader.open(b'{')?;
        while let Some(field) = reader.field()? {
            match field {
                "Type" => kind = reader.text()?,
                "Next" => next = Some(reader.text()?),
                "End" => is_end = reader.boolean()?,
                "Resource" => _ = reader.text()?,
                "Retry" => retriers = reader.all(read_retrier)?,
                "Branches" => starts = reader.all(|reader| self.read_scope(reader))?,
                "ItemSelector" => selector = Some(read_selector(reader)?),
                "ItemProcessor" => starts = vec![self.read_scope(reader)?],
                _ => return unsupported("such a field of a state"),
            }
        }
        let kind = match (kind, starts.as_slice()) {
            ("Pass", []) => Kind::Pass,
            ("Task", []) => Kind::Task(retriers),
            ("Parallel", [_, ..]) => Kind::Parallel(starts),
            ("Map", [start]) => Kind::Map(selector, *start),
            _ => return unsupported("such a state"),
        };
        let is_new = self.numbers.insert(name, self.states.len()).is_none();
        self.states.push(State { name, kind, next: None });
        if is_new && next.is_none() == is_end { Ok(next) } else { unsupported("two ways on, or two states of one name") }
    }

    fn number_of(&self, name: &str) -> Answered<usize> {
        self.numbers.get(name).copied().ok_or(Stop::Unsupported("a name of no state"))
    }
}

fn read_retrier<'t>(reader: &mut Reader<'t>) -> Answered<Retrier<'t>> {
    let mut retrier = Retrier { errors: Vec::new(), attempts: 3 };
    reader.open(b'{')?;
    while let Some(field) = reader.field()? {
        match field {
            "ErrorEquals" => retrier.errors = reader.all(Reader::text)?,
            "MaxAttempts" => retrier.attempts = reader.whole()?,
            _ => return unsupported("such a field of a retrier"),
        }
    }
    Ok(retrier)
}

fn read_selector<'t>(reader: &mut Reader<'t>) -> Answered<Selector<'t>> {
    let mut selector = Vec::new();
    for (field, path) in reader.named(Reader::text)? {
        match (field.strip_suffix(".$"), path) {
            (Some(name), "$$.Map.Item.Index") => selector.push((name, true)),
            (Some(name), "$$.Map.Item.Value") => selector.push((name, false)),
            _ => return unsupported("such a field of a selector"),
        }
    }
    put_in_order(&mut selector);
    Ok(selector)
}

// Checks.

/// Declared shapes: that of the input, and those of what each task takes and gives.
struct Declared<'t> {
    input: Number,
    tasks: Vec<(&'t str, Pair)>,
}

type Pair = (Number, Number);

impl<'t> Declared<'t> {
    fn read(reader: &mut Reader<'t>, shapes: &mut Shapes<'t>) -> Answered<Declared<'t>> {
        let mut declared = Declared { input: ANY, tasks: Vec::new() };
        reader.open(b'{')?;
        while let Some(field) = reader.field()? {
            match field {
                "input" => declared.input = shapes.read(reader)?,
                "tasks" => declared.tasks = reader.named(|reader| read_pair(reader, shapes, "takes", "gives"))?,
                _ => return unsupported("such a field of declared shapes"),
            }
        }
        Ok(declared)
    }
}

/// Reads two shapes, in fields of these names.
fn read_pair<'t>(reader: &mut Reader<'t>, shapes: &mut Shapes<'t>, one: &str, other: &str) -> Answered<Pair> {
    let mut found = (None, None);
    reader.open(b'{')?;
    while let Some(field) = reader.field()? {
        match field {
            _ if field == one => found.0 = Some(shapes.read(reader)?),
            _ if field == other => found.1 = Some(shapes.read(reader)?),
            _ => return unsupported("such a field of an entry"),
        }
    }
    found.0.zip(found.1).ok_or(Stop::Unsupported("an entry that lacks a shape"))
}

/// A certificate of Pass states: the shape of the machine's output, and those of each state's input and output.
struct Certificate {
    output: Number,
    entries: Vec<Option<Pair>>,
}

impl Certificate {
    fn read<'t>(reader: &mut Reader<'t>, machine: &Machine, shapes: &mut Shapes<'t>) -> Answered<Certificate> {
        let (mut version, mut output, mut entries) = (0, NEVER, vec![None; machine.states.len()]);
        reader.open(b'{')?;
        while let Some(field) = reader.field()? {
            match field {
                "version" => version = reader.whole()?,
                "output" => output = shapes.read(reader)?,
                "states" => {
                    for (name, pair) in reader.named(|reader| read_pair(reader, shapes, "input", "output"))? {
                        entries[machine.number_of(name)?] = Some(pair);
                    }
                }
                _ => return unsupported("such a field of a certificate"),
            }
        }
        if version == 1 { Ok(Certificate { output, entries }) } else { unsupported("such a version") }
    }

    fn entry(&self, state: usize) -> Answered<Pair> {
        self.entries[state].ok_or(Stop::Unsupported("a state without an entry"))
    }

    /// Checks that what goes along each edge is inside what stands at its end. A Pass state leaves with its input.
    fn check(&self, machine: &Machine, input: Number) -> Answered<()> {
        check_inside(input, self.entry(machine.start)?.0)?;
        for (number, state) in machine.states.iter().enumerate() {
            let (flowing, output) = self.entry(number)?;
            let behind = match (&state.kind, state.next) {
                (Kind::Pass, Some(next)) => self.entry(next)?.0,
                (Kind::Pass, None) => self.output,
                _ => return unsupported("a certificate of such a state"),
            };
            check_inside(flowing, output)?;
            check_inside(flowing, behind)?;
        }
        Ok(())
    }
}

/// Checks the three texts that stand on standard input, a line each.
fn check() -> Answered<()> {
    let input = io::read_to_string(io::stdin()).or(unsupported("an input that can't be read"))?;
    let mut lines = input.split('\n');
    let mut line = || lines.next().unwrap_or_default();
    let mut shapes = Shapes::new();
    let machine = Machine::read(line())?;
    let declared = Reader::read(line(), |reader| Declared::read(reader, &mut shapes))?;
    let certificate = Reader::read(line(), |reader| Certificate::read(reader, &machine, &mut shapes))?;
    certificate.check(&machine, declared.input)?;
    if declared.tasks.is_empty() { print(b"yes\n") } else { unsupported("a task that is declared") }
}

// Runs.

/// What a task gives, or the error with which it fails, and its cause.
enum Answer<'t> {
    Gives(Value<'t>),
    Fails(&'t str, &'t str),
}

fn read_answer<'t>(reader: &mut Reader<'t>) -> Answered<Answer<'t>> {
    reader.open(b'{')?;
    let answer = match reader.field()? {
        Some("Gives") => Answer::Gives(reader.value()?),
        Some("Fails") => match reader.named(Reader::text)?.as_slice() {
            [("Error", error)] => Answer::Fails(error, ""),
            [("Cause", cause), ("Error", error)] => Answer::Fails(error, cause),
            _ => return unsupported("such a failure"),
        },
        _ => return unsupported("such an answer"),
    };
    if reader.goes_on(b'}')? { unsupported("such an answer") } else { Ok(answer) }
}

/// A value of a run, and from where to where its text stands in the trace, once it does.
struct Datum<'t> {
    value: Value<'t>,
    written: Cell<(usize, usize)>,
}

impl<'t> Datum<'t> {
    fn new(value: Value<'t>) -> Rc<Datum<'t>> {
        Rc::new(Datum { value, written: Cell::new((0, 0)) })
    }

    /// The value, which is copied only where others share it.
    fn into_value(datum: Rc<Datum<'t>>) -> Value<'t> {
        Rc::try_unwrap(datum).map_or_else(|shared| shared.value.clone(), |datum| datum.value)
    }
}

/// What a line of a trace has between its place and its datum.
const ENTER: &[u8] = b"],\"entry\":\"Enter\",\"input\":";
const TASK: &[u8] = b"],\"entry\":\"Task\",\"payload\":";
const LEAVE: &[u8] = b"],\"entry\":\"Leave\",\"output\":";
const ENDED: &[u8] = b"],\"entry\":\"Ended\",\"output\":";

/// A run. Its children go on one behind the other, since in both orders the one whose turn it is keeps it to its end.
struct Run<'r, 't> {
    machine: &'r Machine<'t>,
    shapes: &'r Shapes<'t>,
    declared: &'r Declared<'t>,
    answers: vec::IntoIter<Answer<'t>>,
    is_last_first: bool,
    steps_left: u64,
    /// The numbers of the children on the way, as they are written.
    place: Vec<u8>,
    /// The lines so far.
    trace: Vec<u8>,
}

impl<'r, 't> Run<'r, 't> {
    /// Runs a scope from that state on, and gives its output.
    fn run_scope(&mut self, start: usize, mut datum: Rc<Datum<'t>>) -> Answered<Rc<Datum<'t>>> {
        let states = &self.machine.states;
        let mut state = &states[start];
        loop {
            datum = self.run_state(state, datum)?;
            self.write_line(LEAVE, &datum, Some(state));
            let Some(next) = state.next else {
                self.write_line(ENDED, &datum, None);
                return Ok(datum);
            };
            state = &states[next];
        }
    }

    /// Runs a state, up to where it is left, and gives its output.
    fn run_state(&mut self, state: &'r State<'t>, input: Rc<Datum<'t>>) -> Answered<Rc<Datum<'t>>> {
        self.take_step()?;
        self.write_line(ENTER, &input, Some(state));
        let outputs = match (&state.kind, &input.value) {
            (Kind::Pass, _) => return Ok(input),
            (Kind::Task(retriers), _) => return self.run_task(state, retriers, &input),
            (Kind::Parallel(starts), _) => {
                self.run_children(starts.len(), |run, number| run.run_scope(starts[number], Rc::clone(&input)))?
            }
            (Kind::Map(selector, start), Value::List(items)) => self.run_children(items.len(), |run, number| {
                let item = select(selector.as_ref(), number, &items[number]);
                run.run_scope(*start, Datum::new(item))
            })?,
            (Kind::Map(..), _) => return unsupported("a Map over what is no list"),
        };
        self.take_step()?;
        Ok(Datum::new(Value::List(outputs.into())))
    }

    /// Runs so many children, and gives their outputs.
    fn run_children<F>(&mut self, count: usize, mut run: F) -> Answered<Vec<Value<'t>>>
    where
        F: FnMut(&mut Self, usize) -> Answered<Rc<Datum<'t>>>,
    {
        let mut outputs = Vec::with_capacity(count);
        let above = self.place.len();
        for turn in 0..count {
            let number = if self.is_last_first { count - 1 - turn } else { turn };
            if above > 0 {
                self.place.push(b',');
            }
            write_whole(&mut self.place, number as i64);
            outputs.push(Datum::into_value(run(self, number)?));
            self.place.truncate(above);
        }
        if self.is_last_first {
            outputs.reverse();
        }
        Ok(outputs)
    }

    /// Asks the task of a state that was entered, again where a retrier has it so, and gives what it gives.
    fn run_task(&mut self, state: &State, retriers: &[Retrier], input: &Datum) -> Answered<Rc<Datum<'t>>> {
        let mut counts = vec![0; retriers.len()];
        loop {
            self.write_line(TASK, input, Some(state));
            self.take_step()?;
            let (error, cause) = match self.answers.next() {
                None => return unsupported("a run without answers"),
                Some(Answer::Gives(value)) => return self.given(state, value),
                Some(Answer::Fails(error, cause)) => (error, cause),
            };
            let takes = |retrier: &Retrier| retrier.errors.iter().any(|name| [error, "States.ALL"].contains(name));
            let number = retriers.iter().position(takes).filter(|it| counts[*it] < retriers[*it].attempts);
            let number = number.ok_or(Stop::Unsupported("a run that fails"))?;
            counts[number] += 1;
            self.write_retry(state, error, cause, number);
            self.take_step()?;
            self.write_line(ENTER, input, Some(state));
        }
    }

    /// What a task gives, which has its shape.
    fn given(&self, state: &State, value: Value<'t>) -> Answered<Rc<Datum<'t>>> {
        if let Ok(number) = self.declared.tasks.binary_search_by(|task| task.0.cmp(state.name)) {
            self.shapes.check_has(self.declared.tasks[number].1.1, &value)?;
        }
        Ok(Datum::new(value))
    }

    /// Takes a step, where one is left.
    fn take_step(&mut self) -> Answered<()> {
        self.steps_left = self.steps_left.checked_sub(1).ok_or(Stop::StepsSpent)?;
        Ok(())
    }

    /// Writes a line that shows a datum. What stands in the trace already is copied from there.
    fn write_line(&mut self, entry: &[u8], datum: &Datum, state: Option<&State>) {
        self.begin_line(entry);
        let begin = self.trace.len();
        match datum.written.get() {
            (0, 0) => {
                write_value(&mut self.trace, &datum.value);
                datum.written.set((begin, self.trace.len()));
            }
            (begin, end) => self.trace.extend_from_within(begin..end),
        }
        self.end_line(state);
    }

    /// Writes the lines of a failure that the retrier of that number takes.
    fn write_retry(&mut self, state: &State, error: &str, cause: &str, retrier: usize) {
        self.begin_line(b"],\"cause\":");
        write_text(&mut self.trace, cause);
        self.trace.extend_from_slice(b",\"entry\":\"TaskFailed\",\"error\":");
        write_text(&mut self.trace, error);
        self.end_line(Some(state));
        self.begin_line(b"],\"entry\":\"Retried\",\"retrier\":");
        write_whole(&mut self.trace, retrier as i64);
        self.end_line(Some(state));
    }

    fn begin_line(&mut self, entry: &[u8]) {
        self.trace.extend_from_slice(b"{\"at\":[");
        self.trace.extend_from_slice(&self.place);
        self.trace.extend_from_slice(entry);
    }

    fn end_line(&mut self, state: Option<&State>) {
        if let Some(state) = state {
            self.trace.extend_from_slice(b",\"state\":");
            write_text(&mut self.trace, state.name);
        }
        self.trace.extend_from_slice(b"}\n");
    }
}

/// What is handed to a Map's item of that number.
fn select<'t>(selector: Option<&Selector<'t>>, number: usize, item: &Value<'t>) -> Value<'t> {
    let value = |is_number: bool| if is_number { Value::Whole(number as i64) } else { item.clone() };
    match selector {
        None => item.clone(),
        Some(fields) => Value::Object(fields.iter().map(|field| (field.0, value(field.1))).collect()),
    }
}

/// What a command line asks of a run: the files with definition, input and answers, and the options.
struct Asked {
    files: Vec<String>,
    declared: Option<String>,
    is_last_first: bool,
    max_steps: u64,
}

impl Asked {
    fn of(mut words: impl Iterator<Item = String>) -> Answered<Asked> {
        let mut asked = Asked { files: Vec::new(), declared: None, is_last_first: false, max_steps: 1000 };
        while let Some(word) = words.next() {
            if !word.starts_with('-') {
                asked.files.push(word);
                continue;
            }
            let value = words.next().unwrap_or_default();
            match (word.as_str(), value.as_str(), value.parse()) {
                ("--declared", _, _) => asked.declared = Some(value),
                ("--order", "first" | "last", _) => asked.is_last_first = value == "last",
                ("--max-steps", _, Ok(steps @ 0..=MOST_STEPS)) => asked.max_steps = steps,
                _ => return unsupported("such an option"),
            }
        }
        Ok(asked)
    }
}

/// Runs a machine, and prints its trace when the run is over.
fn run(words: impl Iterator<Item = String>) -> Answered<()> {
    let Asked { files, declared, is_last_first, max_steps: steps_left } = Asked::of(words)?;
    let texts: Vec<String> = files.iter().map(text_in).collect::<Answered<_>>()?;
    let [definition, input, answers] = texts.as_slice() else {
        return unsupported("so many files");
    };
    let declared = declared.map_or(Ok(String::from("{}")), |name| text_in(&name))?;
    let mut shapes = Shapes::new();
    let machine = &Machine::read(definition)?;
    let declared = &Reader::read(&declared, |reader| Declared::read(reader, &mut shapes))?;
    let input = Reader::read(input, Reader::value)?;
    let answers = Reader::read(answers, |reader| reader.all(read_answer))?.into_iter();
    shapes.check_has(declared.input, &input)?;
    let (shapes, place, trace) = (&shapes, Vec::new(), Vec::new());
    let mut run = Run { machine, shapes, declared, answers, is_last_first, steps_left, place, trace };
    match run.run_scope(machine.start, Datum::new(input)) {
        Err(Stop::Unsupported(what)) => unsupported(what),
        Err(Stop::StepsSpent) => print(&run.trace).and(Err(Stop::StepsSpent)),
        Ok(_) => print(&run.trace),
    }
}

fn text_in(name: &String) -> Answered<String> {
    fs::read_to_string(name).or(unsupported("a file that can't be read"))
}

fn print(bytes: &[u8]) -> Answered<()> {
    let mut out = io::stdout().lock();
    out.write_all(bytes).and_then(|()| out.flush()).or(unsupported("an output that can't be written"))
}

fn main() {
    let mut words = env::args().skip(1);
    let stopped = match words.next().as_deref() {
        None => check(),
        Some("run") => run(words),
        Some("--help") => print(b"a plain program beside asl, which bench.py --plain runs\n"),
        Some(_) => unsupported("such a command"),
    };
    let (status, what) = match stopped {
        Ok(()) => return,
        Err(Stop::StepsSpent) => (4, "steps spent"),
        Err(Stop::Unsupported(what)) => (3, what),
    };
    eprintln!("{}{what}", if status == 3 { "unsupported: " } else { "" });
    process::exit(status);
}
