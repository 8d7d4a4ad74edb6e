//! An event, seen in the pack that a call left: nodes, each a kind and a number, and their texts. Nothing is copied.

/// A pack, and the node where something begins.
#[derive(Clone, Copy)]
struct Place<'a> {
    kinds: &'a [u8],
    numbers: &'a [u64],
    texts: &'a [u8],
    at: usize,
}

const ABSENT: u8 = 0;
const NULL: u8 = 1;
const FALSE: u8 = 2;
const TRUE: u8 = 3;
const INTEGER: u8 = 4;
const DECIMAL: u8 = 5;
const STRING: u8 = 6;
const ENTITY: u8 = 7;
const ARRAY: u8 = 8;
const RECORD: u8 = 9;

impl<'a> Place<'a> {
    fn kind(self) -> u8 {
        self.kinds[self.at]
    }

    fn number(self) -> u64 {
        self.numbers[self.at]
    }

    fn next(self) -> Place<'a> {
        Place {
            at: self.at + 1,
            ..self
        }
    }

    /// The node behind the value that begins here: every node is passed, with those that belong to it.
    fn past(self) -> Place<'a> {
        let mut place = self;
        let mut pending = 1;
        while pending > 0 {
            pending += match place.kind() {
                ENTITY => 2,
                ARRAY => place.number() as usize,
                RECORD => 2 * place.number() as usize,
                _ => 0,
            };
            pending -= 1;
            place = place.next();
        }
        place
    }

    /// The text of a node: its start times 2^32, plus its length.
    fn text(self) -> &'a str {
        let (start, length) = (
            (self.number() >> 32) as usize,
            self.number() as u32 as usize,
        );
        std::str::from_utf8(&self.texts[start..start + length]).expect("a text is UTF-8")
    }

    fn entity(self) -> Entity<'a> {
        Entity {
            ty: self.next().text(),
            id: self.next().next().text(),
        }
    }

    fn value(self) -> Value<'a> {
        match self.kind() {
            NULL => Value::Null,
            FALSE => Value::Bool(false),
            TRUE => Value::Bool(true),
            INTEGER => Value::Integer(self.number() as i64),
            DECIMAL => Value::Decimal(self.text()),
            STRING => Value::String(self.text()),
            ENTITY => Value::Entity(self.entity()),
            ARRAY => Value::Array(Items(self.parts())),
            RECORD => Value::Record(Fields(self.parts())),
            kind => unreachable!("a value of kind {kind}"),
        }
    }

    fn optional(self) -> Option<Value<'a>> {
        (self.kind() != ABSENT).then(|| self.value())
    }

    /// What belongs to the array or record here.
    fn parts(self) -> Parts<'a> {
        Parts {
            left: self.number() as usize,
            place: self.next(),
        }
    }
}

/// So many parts that are left, and where the next one begins.
#[derive(Clone)]
struct Parts<'a> {
    left: usize,
    place: Place<'a>,
}

impl<'a> Parts<'a> {
    /// The next part, and how to find the one behind it.
    fn step<T>(&mut self, read: impl FnOnce(Place<'a>) -> (T, Place<'a>)) -> Option<T> {
        self.left = self.left.checked_sub(1)?;
        let (part, place) = read(self.place);
        self.place = place;
        Some(part)
    }
}

/// An entity: its type as written, and its decoded id.
#[derive(Debug, Clone, Copy, PartialEq, Eq, Hash)]
pub struct Entity<'a> {
    pub ty: &'a str,
    pub id: &'a str,
}

/// A value.
#[derive(Debug, Clone)]
pub enum Value<'a> {
    Null,
    Bool(bool),
    Integer(i64),
    /// A decimal as it was written.
    Decimal(&'a str),
    String(&'a str),
    Entity(Entity<'a>),
    Array(Items<'a>),
    Record(Fields<'a>),
}

/// An entry of an event's entities, or of entities JSON.
#[derive(Debug, Clone)]
pub struct Entry<'a> {
    /// The stored key: equal for two entries exactly when their types and decoded ids are.
    pub key: &'a str,
    pub record: Fields<'a>,
    pub parents: Items<'a>,
}

/// The texts of a namespace, in written order.
#[derive(Clone)]
pub struct Texts<'a>(Parts<'a>);

/// The items of an array, in written order.
#[derive(Clone)]
pub struct Items<'a>(Parts<'a>);

/// The fields of a record or of an argument group, in written order.
#[derive(Clone)]
pub struct Fields<'a>(Parts<'a>);

/// The entries of an event's entities or of entities JSON, in written order.
#[derive(Clone)]
pub struct Entities<'a>(Parts<'a>);

impl<'a> Iterator for Texts<'a> {
    type Item = &'a str;

    fn next(&mut self) -> Option<&'a str> {
        self.0.step(|place| (place.text(), place.next()))
    }

    fn size_hint(&self) -> (usize, Option<usize>) {
        (self.0.left, Some(self.0.left))
    }
}

impl<'a> Iterator for Items<'a> {
    type Item = Value<'a>;

    fn next(&mut self) -> Option<Value<'a>> {
        self.0.step(|place| (place.value(), place.past()))
    }

    fn size_hint(&self) -> (usize, Option<usize>) {
        (self.0.left, Some(self.0.left))
    }
}

impl<'a> Iterator for Fields<'a> {
    type Item = (&'a str, Value<'a>);

    fn next(&mut self) -> Option<(&'a str, Value<'a>)> {
        self.0
            .step(|place| ((place.text(), place.next().value()), place.next().past()))
    }

    fn size_hint(&self) -> (usize, Option<usize>) {
        (self.0.left, Some(self.0.left))
    }
}

impl<'a> Fields<'a> {
    /// The value of the field that has this name.
    pub fn get(&self, name: &str) -> Option<Value<'a>> {
        self.clone()
            .find(|(n, _)| *n == name)
            .map(|(_, value)| value)
    }
}

impl<'a> Iterator for Entities<'a> {
    type Item = Entry<'a>;

    fn next(&mut self) -> Option<Entry<'a>> {
        self.0.step(|place| {
            let record = place.next();
            let parents = record.past();
            let entry = Entry {
                key: place.text(),
                record: Fields(record.parts()),
                parents: Items(parents.parts()),
            };
            (entry, parents.past())
        })
    }

    fn size_hint(&self) -> (usize, Option<usize>) {
        (self.0.left, Some(self.0.left))
    }
}

impl ExactSizeIterator for Texts<'_> {}
impl ExactSizeIterator for Items<'_> {}
impl ExactSizeIterator for Fields<'_> {}
impl ExactSizeIterator for Entities<'_> {}

macro_rules! debug_as {
    ($($name:ident $how:ident;)*) => {$(
        impl std::fmt::Debug for $name<'_> {
            fn fmt(&self, f: &mut std::fmt::Formatter) -> std::fmt::Result {
                f.$how().entries(self.clone()).finish()
            }
        }
    )*};
}

debug_as! {
    Texts debug_list;
    Items debug_list;
    Fields debug_map;
    Entities debug_list;
}

/// An event in the tables that [`crate::Tables::read_line`] filled.
#[derive(Clone)]
pub struct Event<'a> {
    pack: Place<'a>,
    /// Where resource, namespace, action, logged, context and entities begin.
    places: [usize; 6],
}

impl<'a> Event<'a> {
    /// The tables hold a pack and nothing behind.
    pub(crate) fn new(kinds: &'a [u8], numbers: &'a [u64], texts: &'a [u8]) -> Event<'a> {
        let pack = Place {
            kinds,
            numbers,
            texts,
            at: 0,
        };
        let resource = pack.next().past();
        let namespace = resource.past();
        let action = namespace.past();
        let logged = action.next().next();
        let context = logged.past();
        let entities = context.past();
        Event {
            pack,
            places: [resource, namespace, action, logged, context, entities].map(|place| place.at),
        }
    }

    fn place(&self, part: usize) -> Place<'a> {
        Place {
            at: self.places[part],
            ..self.pack
        }
    }

    pub fn time(&self) -> i64 {
        self.pack.number() as i64
    }

    pub fn principal(&self) -> Option<Value<'a>> {
        self.pack.next().optional()
    }

    pub fn resource(&self) -> Option<Value<'a>> {
        self.place(0).optional()
    }

    pub fn namespace(&self) -> Texts<'a> {
        Texts(self.place(1).parts())
    }

    pub fn action(&self) -> &'a str {
        self.place(2).text()
    }

    pub fn kind(&self) -> &'a str {
        self.place(2).next().text()
    }

    pub fn logged(&self) -> Fields<'a> {
        Fields(self.place(3).parts())
    }

    pub fn context(&self) -> Fields<'a> {
        Fields(self.place(4).parts())
    }

    pub fn entities(&self) -> Entities<'a> {
        Entities(self.place(5).parts())
    }
}

impl std::fmt::Debug for Event<'_> {
    fn fmt(&self, f: &mut std::fmt::Formatter) -> std::fmt::Result {
        f.debug_struct("Event")
            .field("time", &self.time())
            .field("principal", &self.principal())
            .field("resource", &self.resource())
            .field("namespace", &self.namespace())
            .field("action", &self.action())
            .field("kind", &self.kind())
            .field("logged", &self.logged())
            .field("context", &self.context())
            .field("entities", &self.entities())
            .finish()
    }
}
