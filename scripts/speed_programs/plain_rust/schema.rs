//! The linked tables of a pool, and those of the workloads.

use std::rc::Rc;

#[derive(Clone, Copy, Debug, PartialEq, Eq)]
pub enum Kind {
    Double,
    Float,
    Int32,
    Int64,
    Uint32,
    Uint64,
    Sint32,
    Sint64,
    Fixed32,
    Fixed64,
    Sfixed32,
    Sfixed64,
    Bool,
    String,
    Bytes,
    Message(usize),
    Enum(usize),
}

#[derive(Clone, Copy, PartialEq, Eq)]
pub enum Cardinality {
    Optional,
    Required,
    Repeated,
}

/// A default that a field's definition writes.
pub enum WrittenDefault {
    Bool(bool),
    I32(i32),
    I64(i64),
    U32(u32),
    U64(u64),
    F32(u32),
    F64(u64),
    String(String),
    Bytes(Vec<u8>),
    EnumNumber(i32),
}

/// Where a definition stands.
#[derive(Default)]
pub struct Identity {
    pub file: usize,
    pub parent: Option<usize>,
    pub path: Vec<i32>,
    pub full_name: String,
    pub name: String,
}

pub struct FieldTable {
    pub id: Identity,
    pub json_name: String,
    pub number: u32,
    pub is_extension: bool,
    pub kind: Kind,
    pub is_group: bool,
    pub cardinality: Cardinality,
    pub is_packed: bool,
    pub supports_presence: bool,
    pub default: Option<WrittenDefault>,
    pub oneof: Option<usize>,
}

/// The places of a oneof's members among the fields of its message type.
pub struct OneofTable {
    pub fields: Vec<usize>,
}

pub struct MessageTable {
    pub id: Identity,
    pub is_map_entry: bool,
    pub fields: Vec<FieldTable>,
    pub oneofs: Vec<OneofTable>,
}

/// The numbers of an enum's values, in ascending order.
pub struct EnumTable {
    pub numbers: Vec<i32>,
    pub first: i32,
    pub is_closed: bool,
}

pub struct Pool {
    pub messages: Vec<MessageTable>,
    pub enums: Vec<EnumTable>,
}

/// A message type of a shared pool.
#[derive(Clone)]
pub struct MessageType {
    pub pool: Rc<Pool>,
    pub index: usize,
}

impl MessageType {
    pub fn named(pool: Rc<Pool>, full_name: &str) -> MessageType {
        let index = pool
            .messages
            .iter()
            .position(|message| message.id.full_name == full_name)
            .expect("a message type of the name");
        MessageType { pool, index }
    }

    pub fn at(&self, index: usize) -> MessageType {
        MessageType {
            pool: self.pool.clone(),
            index,
        }
    }

    pub fn table(&self) -> &MessageTable {
        &self.pool.messages[self.index]
    }

    /// The place of the field of the number, by binary search.
    pub fn field_place(&self, number: u32) -> Option<usize> {
        let fields = &self.table().fields;
        fields
            .binary_search_by_key(&number, |field| field.number)
            .ok()
    }

    pub fn field_table(&self, number: u32) -> Option<&FieldTable> {
        let place = self.field_place(number)?;
        Some(&self.table().fields[place])
    }

    /// The numbers of the members of the oneof of the number's field.
    pub fn siblings(&self, number: u32) -> impl Iterator<Item = u32> {
        let table = self.table();
        let oneof = self.field_table(number).and_then(|field| field.oneof);
        let places = oneof.map(|oneof| &table.oneofs[oneof].fields);
        places
            .into_iter()
            .flatten()
            .map(|place| table.fields[*place].number)
    }

    /// The fields of the key and the value of a map field's entries.
    pub fn map_parts(&self, field: &FieldTable) -> Option<(&FieldTable, &FieldTable)> {
        let Kind::Message(place) = field.kind else {
            return None;
        };
        let message = &self.pool.messages[place];
        match message.fields.as_slice() {
            [key, value, ..] if message.is_map_entry => Some((key, value)),
            _ => None,
        }
    }

    /// Whether a number is one that its kind, a closed enum, does not declare.
    pub fn is_stray(&self, kind: Kind, number: i32) -> bool {
        let Kind::Enum(place) = kind else {
            return false;
        };
        let table = &self.pool.enums[place];
        table.is_closed && table.numbers.binary_search(&number).is_err()
    }
}

fn field(number: u32, name: &str, kind: Kind) -> FieldTable {
    FieldTable {
        id: Identity {
            path: vec![4, 0, 2, 0],
            full_name: format!("speed.M.{name}"),
            name: String::from(name),
            ..Identity::default()
        },
        json_name: String::from(name),
        number,
        is_extension: false,
        kind,
        is_group: false,
        cardinality: Cardinality::Optional,
        is_packed: false,
        supports_presence: matches!(kind, Kind::Message(_)),
        default: None,
        oneof: None,
    }
}

fn repeated(number: u32, name: &str, kind: Kind, is_packed: bool) -> FieldTable {
    FieldTable {
        cardinality: Cardinality::Repeated,
        supports_presence: false,
        is_packed,
        ..field(number, name, kind)
    }
}

fn member(number: u32, name: &str, kind: Kind, oneof: usize) -> FieldTable {
    FieldTable {
        supports_presence: true,
        oneof: Some(oneof),
        ..field(number, name, kind)
    }
}

/// How many fields the message type `Wide` has.
const WIDE: u32 = 1_000;

fn message(name: &str, fields: Vec<FieldTable>) -> MessageTable {
    MessageTable {
        id: Identity {
            full_name: format!("speed.{name}"),
            ..Identity::default()
        },
        is_map_entry: name.ends_with("Entry"),
        fields,
        oneofs: Vec::new(),
    }
}

impl Pool {
    /// The tables of the descriptor set in `workloads.py`.
    pub fn of_workloads() -> Pool {
        use Kind::{Bool, Bytes, Double, Fixed64, Int32, Int64, Message, Sint64, String, Uint32};
        let (label, item, deep, text_entry, item_entry) = (0, 1, 2, 3, 4);
        let (address, owner, older_item, names_entry, labels_entry) = (5, 6, 7, 8, 9);
        let wide_kinds = [Int32, String, Sint64, Message(label)];
        let mut messages = vec![
            message(
                "Label",
                vec![field(1, "text", String), field(2, "delta", Sint64)],
            ),
            message(
                "Item",
                vec![
                    field(1, "id", Int32),
                    field(2, "name", String),
                    field(3, "value", Double),
                    repeated(4, "tags", Uint32, true),
                    field(5, "label", Message(label)),
                    field(6, "flag", Bool),
                ],
            ),
            message(
                "Deep",
                vec![field(1, "next", Message(deep)), field(2, "number", Int32)],
            ),
            message(
                "TextMap.EntriesEntry",
                vec![field(1, "key", String), field(2, "value", Int32)],
            ),
            message(
                "ItemMap.EntriesEntry",
                vec![field(1, "key", Int32), field(2, "value", Message(label))],
            ),
            message(
                "Address",
                vec![
                    field(1, "street", String),
                    field(2, "number", Int32),
                    field(3, "city", String),
                ],
            ),
            message(
                "Owner",
                vec![
                    field(1, "name", String),
                    field(2, "address", Message(address)),
                ],
            ),
            message(
                "OlderItem",
                vec![
                    field(1, "id", Int32),
                    field(2, "name", String),
                    repeated(4, "tags", Uint32, true),
                ],
            ),
            message(
                "All.NamesEntry",
                vec![field(1, "key", String), field(2, "value", Int32)],
            ),
            message(
                "All.LabelsEntry",
                vec![field(1, "key", Int32), field(2, "value", Message(label))],
            ),
            message("Items", vec![repeated(1, "items", Message(item), false)]),
            message("Packed", vec![repeated(1, "numbers", Int32, true)]),
            message("Loose", vec![repeated(1, "numbers", Int32, false)]),
            message("Fixed", vec![repeated(1, "numbers", Fixed64, true)]),
            message(
                "TextMap",
                vec![repeated(1, "entries", Message(text_entry), false)],
            ),
            message(
                "ItemMap",
                vec![repeated(1, "entries", Message(item_entry), false)],
            ),
            message("Deeps", vec![repeated(1, "deeps", Message(deep), false)]),
            message(
                "Texts",
                vec![
                    repeated(1, "texts", String, false),
                    repeated(2, "bytes", Bytes, false),
                ],
            ),
            message("Nothing", Vec::new()),
            message(
                "Request",
                vec![
                    field(1, "id", Int64),
                    field(2, "user", String),
                    field(3, "session", String),
                    field(4, "path", String),
                    field(5, "method", Uint32),
                    field(6, "status", Int32),
                    field(7, "received", Fixed64),
                    field(8, "seconds", Double),
                    field(9, "is_retried", Bool),
                    repeated(10, "tags", String, false),
                    repeated(11, "codes", Uint32, true),
                    field(12, "origin", Message(label)),
                    field(13, "body", Bytes),
                    field(14, "locale", String),
                    field(15, "attempts", Uint32),
                    field(16, "offset", Sint64),
                    field(17, "limit", Int32),
                    field(18, "score", Double),
                    field(19, "note", String),
                    field(20, "parent", Message(label)),
                ],
            ),
            message(
                "Catalog",
                vec![
                    repeated(1, "items", Message(item), false),
                    field(2, "owner", Message(owner)),
                ],
            ),
            message(
                "OlderCatalog",
                vec![repeated(1, "items", Message(older_item), false)],
            ),
            message(
                "Wide",
                (1..=WIDE)
                    .map(|n| {
                        let kind = wide_kinds[n as usize % wide_kinds.len()];
                        field(n, &format!("f{n}"), kind)
                    })
                    .collect(),
            ),
            message(
                "All",
                vec![
                    repeated(1, "items", Message(item), false),
                    repeated(2, "numbers", Int32, true),
                    repeated(3, "names", Message(names_entry), false),
                    repeated(4, "labels", Message(labels_entry), false),
                    repeated(5, "deeps", Message(deep), false),
                ],
            ),
        ];
        let mut small = message(
            "Small",
            vec![
                field(1, "id", Int32),
                field(2, "text", String),
                member(3, "count", Int64, 1),
                member(4, "name", String, 0),
                member(5, "label", Message(label), 0),
            ],
        );
        small.oneofs = vec![
            OneofTable { fields: vec![3, 4] },
            OneofTable { fields: vec![2] },
        ];
        messages.push(small);
        Pool {
            messages,
            enums: Vec::new(),
        }
    }
}
