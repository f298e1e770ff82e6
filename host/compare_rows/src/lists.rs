//! One call of a list on both sides.

use kernel::oracle::*;

use crate::calls::{rows_list_push, rows_list_push_front, rows_list_remove};
use crate::port;
use tables::named;
use tables::table::{Answer, Table, expected, refused};
use tables::tally::Tally;

#[derive(Clone, Copy, Debug)]
pub enum Call {
    Push,
    PushFront,
    Remove,
}

impl Call {
    pub const ALL: [Self; 3] = [Self::Push, Self::PushFront, Self::Remove];

    fn name(self, given: Answer<()>) -> &'static str {
        let number = given.err().unwrap_or(0);
        match self {
            Self::Push => named!("push", number),
            Self::PushFront => named!("push_front", number),
            Self::Remove => named!("remove", number),
        }
    }

    fn by_port(self, table: &mut Table, list: &mut List, id: u64, m: Membership) -> Answer<()> {
        let call = match self {
            Self::Push => rows_list_push,
            Self::PushFront => rows_list_push_front,
            Self::Remove => rows_list_remove,
        };
        port::list(call, &mut table.rows, list, id, m)
    }

    /// Document 01's refusals that come before the source's own, then the source.
    fn by_source(self, table: &mut Table, list: &mut List, id: u64, m: Membership) -> Answer<()> {
        let records = &mut table.records;
        if let Some(number) = refused(records.len(), Some(id)) {
            return Err(number);
        }
        expected(match self {
            Self::Push => list_push(list, records, id, m),
            Self::PushFront => list_push_front(list, records, id, m),
            Self::Remove => list_remove(list, records, id, m),
        })
    }
}

/// A list over records.
#[derive(Clone)]
pub struct Listed {
    pub table: Table,
    pub list: List,
}

impl Listed {
    /// Makes the call on both sides and goes on from the source's table.
    pub fn call(&mut self, tally: &mut Tally, call: Call, id: u64, m: Membership) -> Answer<()> {
        let before = (call, id, m, self.list, self.table.shown());
        let (mut by_port, mut by_source) = (self.list, self.list);
        let port = call.by_port(&mut self.table, &mut by_port, id, m);
        let source = call.by_source(&mut self.table, &mut by_source, id, m);
        let (left, wanted) = self.table.difference();
        let name = call.name(source);
        tally.compare(
            name,
            before,
            (port, by_port, left),
            (source, by_source, wanted),
        );
        if left.is_some() {
            self.table = Table::of(self.table.records.clone());
        }
        self.list = by_source;
        source
    }
}
