//! Buffers that are handed back for reuse, or not: no result of another call depends on it, and none of these calls allocates, but where `trim` can
//! make a smaller block.

use crate::values::Ticket;
use crate::{Endpoint, Message, Sent};
use alloc::vec::Vec;

/// The calls that hand memory back.
macro_rules! hands_back {
    ($name:ident) => {
        impl $name {
            /// Hands back the buffers of a packet that was sent, for the next one.
            pub fn recycle(&mut self, sent: Sent) {
                self.recycle_packet(sent.packet);
                self.recycle_tickets(sent.tickets);
            }

            /// Hands back the buffer of a packet, as of an answer: one is kept, the larger one of two, and none larger than the packet limit.
            pub fn recycle_packet(&mut self, packet: Vec<u8>) {
                self.0.recycle(packet.into());
            }

            /// Hands back the buffer of tickets: one is kept, the larger one of two, and none for more than 128 tickets.
            pub fn recycle_tickets(&mut self, tickets: Vec<Ticket>) {
                self.0.recycle_tickets(tickets.into());
            }

            /// Hands back the memory of a message that was taken, for what is received later.
            pub fn give_back(&mut self, message: Message) {
                self.0.give_back(message.0);
            }

            /// Frees memory that a burst of messages took: of sent ones where less than an eighth is used, of received ones all that isn't. It is for an
            /// endpoint that is idle. It allocates smaller blocks in place of larger ones; one that can't be allocated leaves the larger one.
            pub fn trim(&mut self) {
                self.0.trim();
            }
        }
    };
}

hands_back!(Endpoint);

#[cfg(feature = "channels")]
use crate::channels::Channels;
#[cfg(feature = "channels")]
hands_back!(Channels);
