//! A book with its flow and table, as a run of our own calls leaves them.

use second::definitions::answer::Answer;
use second::definitions::book::{pack, unpack, with_status, Book};
use second::definitions::network::Network;
use second::definitions::percentage::Percentage;
use second::definitions::record::{self, SIZE};
use second::definitions::switching::Lent;
use second::definitions::{comeback, cuts, groups, outage, screen};

#[derive(Clone)]
pub struct Held {
    pub percentage: Percentage,
    pub book: Vec<u8>,
    pub flow: Vec<i64>,
    pub table: Vec<u8>,
}

impl Held {
    pub fn lent(&self) -> Lent<'_> {
        Lent { percentage: self.percentage, book: &self.book, flow: &self.flow, table: &self.table }
    }

    pub fn network(&self) -> Network {
        Network::of(&unpack(&self.book).unwrap(), self.percentage)
    }

    pub fn screened(book: &Book, percentage: Percentage) -> Held {
        let network = Network::of(book, percentage);
        let flow = cuts::fitting_flow(&network).unwrap();
        Held { percentage, book: pack(book), table: screen::own_table(&network, &flow), flow }
    }

    pub fn left(&mut self, book: Vec<u8>, (flow, table): (Vec<i64>, Vec<u8>)) {
        *self = Held { percentage: self.percentage, book, flow, table };
    }

    /// A branch is taken out, or brought back; the answer.
    pub fn switch(&mut self, branch: usize) -> Answer {
        let (lent, serves) = (self.lent(), !self.network().lines[branch].served);
        let left = match serves {
            true => comeback::allowed(&lent, branch).map(|network| comeback::own_result(&network, &lent, branch)),
            false => outage::allowed(&lent, branch).map(|network| outage::own_result(&network, &lent, branch)),
        };
        let answer = left.as_ref().err().copied().unwrap_or(Answer::ACCEPTED);
        if let Ok(left) = left {
            self.left(with_status(&self.book, branch, serves), left);
        }
        answer
    }

    /// Every record's verdict, shortage and group is that of a fresh screen by every group, and the table is true.
    pub fn agrees_with_a_fresh_screen(&self) {
        let network = self.network();
        assert!(screen::table_holds(&network, &self.flow, &self.table));
        for branch in 0..self.flow.len() {
            let fresh = record::bytes(groups::verdict(&network, branch), &[]);
            assert_eq!(record::stretch(&self.table, branch)[..20], fresh[..20]);
        }
    }

    /// All that the papers fix: the book, and bytes 0 to 19 of every record.
    pub fn fixed(&self) -> (Vec<u8>, Vec<u8>) {
        (self.book.clone(), self.table.chunks(SIZE).flat_map(|record| record[..20].to_vec()).collect())
    }
}
